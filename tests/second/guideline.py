"""The single guideline: one scenario, one medium, one contaminant record (docs/SPECIFICATION.md, "Guidelines, sums, verdicts")."""
from typing import NamedTuple

from .decimals import DOWN, UP, ZERO, keeps_input_rule, value
from .steps import divide, working_form
from .terms import (CHEMICAL, CONTAMINANT_VALUES, HAZARD, RADIONUCLIDE, RISK, SCENARIO_FACTORS, SIDES, SOIL, TRITIUM, has_pathway,
                    inputs_of, term_sum, terms_of)

# Refusals, by the specification's numbers; 9 is not used.
ACCEPTED, LENGTH, CHECK, KIND, FIELD, COUNT, FACTOR, ORDER, PATHWAY = range(9)
ROOM, SCENARIO, HOUSE = range(10, 13)
REQUIRED_FACTORS = ("EF", "ED", "BW", "AT", "TR", "THI")
TARGET = {RISK: "TR", HAZARD: "THI"}


class Answer(NamedTuple):
    refusal: int
    block: int
    guidelines: tuple  # risk of pathways 1, 2, 3 and total, then hazard likewise


def refused(number, block):
    """A refused call returns its number, the block and zero decimals."""
    return Answer(number, block, (ZERO,) * 8)


def scenario_refusal(scenario, medium):
    """4, then 6, for the scenario and the medium; 0 when neither holds."""
    if medium not in (1, 2) or not all(keeps_input_rule(scenario[name]) for name in SCENARIO_FACTORS):
        return FIELD
    if any(scenario[name].m == 0 for name in REQUIRED_FACTORS):
        return FACTOR
    return ACCEPTED


def keeps_record_rule(record):
    """Refusal 4 of a record: every value is checked, the unneeded ones too."""
    values = all(keeps_input_rule(record[name]) for name in CONTAMINANT_VALUES)
    return record["class"] in (CHEMICAL, RADIONUCLIDE, TRITIUM) and record["id"] != 0 and values


def has_any_pathway(medium, record, inputs):
    return any(has_pathway(medium, record["class"], side, inputs) for side in SIDES)


def lacks_house(scenario, medium, record):
    """Refusal 12 of a record alone: tritium where L or W is zero or the site is soil."""
    return record["class"] == TRITIUM and (scenario["L"].m == 0 or scenario["W"].m == 0 or medium == SOIL)


def is_mixed(record, earlier):
    """Refusal 12 in a list: the later one, when a chemical and tritium stand in it, whatever stands between them."""
    other = {CHEMICAL: TRITIUM, TRITIUM: CHEMICAL}.get(record["class"])
    return any(one["class"] == other for one in earlier)


def last_refusal(scenario, medium, record, earlier):
    """The tests of a record that come last, after 4 and 7: 12, then 8; 0 when neither holds."""
    if lacks_house(scenario, medium, record) or is_mixed(record, earlier):
        return HOUSE
    if not has_any_pathway(medium, record, inputs_of(scenario, record)):
        return PATHWAY
    return ACCEPTED


def capped(found, saturation):
    """The soil inhalation guideline of a chemical: "the lower of the guideline after its rounding down and the saturation, by what
    these two decimals are worth. It is written in working form, and an absent pathway stays zero." A zero saturation is none."""
    if found == ZERO or saturation.m == 0:
        return found
    return min(found, working_form(saturation), key=value)


def side_guidelines(scenario, medium, record, side):
    """Target divided by each upper term, and by their sum, down. A zero divisor, an absent pathway, gives zero.

    Column 2 of a chemical in soil is capped afterwards; the total is the one of the terms as they are.
    """
    terms = terms_of(medium, record["class"], side, inputs_of(scenario, record), UP)
    target = working_form(scenario[TARGET[side]])
    guidelines = [divide(target, divisor, DOWN) for divisor in (*terms, term_sum(terms, UP))]
    if (medium, record["class"]) == (SOIL, CHEMICAL):
        guidelines[1] = capped(guidelines[1], record["Csat"])
    return guidelines


def guideline(scenario, medium, record):
    number = scenario_refusal(scenario, medium)
    if number != ACCEPTED:
        return refused(number, 0)
    if not keeps_record_rule(record):
        return refused(FIELD, 1)
    number = last_refusal(scenario, medium, record, [])
    if number != ACCEPTED:
        return refused(number, 1)
    guidelines = []
    for side in SIDES:
        guidelines += side_guidelines(scenario, medium, record, side)
    return Answer(ACCEPTED, 0, tuple(guidelines))
