"""The list call: sums of risk and hazard over a list, and verdicts (docs/SPECIFICATION.md, "Guidelines, sums, verdicts")."""
from typing import NamedTuple

from .decimals import DOWN, UP, ZERO, value
from .guideline import ACCEPTED, FIELD, LENGTH, ORDER, TARGET, keeps_record_rule, last_refusal, scenario_refusal
from .steps import add, multiply, working_form
from .terms import SIDES, has_pathway, inputs_of, term_sum, terms_of

WITHIN, ABOVE, UNDECIDED, NONE = 1, 2, 3, 4


class Sums(NamedTuple):
    refusal: int
    block: int
    sums: tuple  # risk lower, risk upper, hazard lower, hazard upper
    verdicts: tuple  # risk, hazard


def refused(number, block):
    return Sums(number, block, (ZERO,) * 4, (0, 0))


def verdict(no_pathway, lower, upper, target):
    """Tried in this order: none, within, above, undecided."""
    if no_pathway:
        return NONE
    if value(upper) <= value(target):
        return WITHIN
    if value(lower) > value(target):
        return ABOVE
    return UNDECIDED


def record_refusal(scenario, medium, record, earlier):
    """4, 7, 12 or 8 of a record after the earlier ones of its list; 0 when none holds."""
    if not keeps_record_rule(record):
        return FIELD
    if earlier and record["id"] <= earlier[-1]["id"]:
        return ORDER
    return last_refusal(scenario, medium, record, earlier)


def add_record(scenario, medium, record, running):
    """Adds the record's shares to the running sums, which stand by side and direction."""
    inputs = inputs_of(scenario, record)
    for side in SIDES:
        for direction in (DOWN, UP):
            terms = terms_of(medium, record["class"], side, inputs, direction)
            # A contaminant's share: C times the term sum.
            share = multiply(working_form(record["C"]), term_sum(terms, direction), direction)
            running[side, direction] = add(running[side, direction], share, direction)


def empty_sums():
    """The running sums before the first record, by side and direction."""
    return {(side, direction): ZERO for side in SIDES for direction in (DOWN, UP)}


def accepted(scenario, medium, records, running):
    """The answer when no record was refused: the sums as they stand after the last record, and the verdicts."""
    verdicts = []
    for side in SIDES:
        no_pathway = not any(has_pathway(medium, r["class"], side, inputs_of(scenario, r)) for r in records)
        verdicts.append(verdict(no_pathway, running[side, DOWN], running[side, UP], scenario[TARGET[side]]))
    return Sums(ACCEPTED, 0, tuple(running.values()), tuple(verdicts))


def sums(scenario, medium, records):
    if not 1 <= len(records) <= 120:
        return refused(LENGTH, 0)
    number = scenario_refusal(scenario, medium)
    if number != ACCEPTED:
        return refused(number, 0)
    running = empty_sums()
    # The n-th record counts as block n.
    for block, record in enumerate(records, 1):
        number = record_refusal(scenario, medium, record, records[:block - 1])
        if number != ACCEPTED:
            return refused(number, block)
        add_record(scenario, medium, record, running)
    return accepted(scenario, medium, records, running)
