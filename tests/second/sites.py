"""The call over a whole site: refusals in the specification's order, sums, verdicts and the result blocks (docs/FORMAT.md,
"What is sent back")."""
from typing import NamedTuple

from .blocks import BLOCK, contaminant_conditions, first, header_conditions, header_of, record_of, result_block, summary_block
from .decimals import ZERO
from .guideline import ACCEPTED, HOUSE, LENGTH, ORDER, PATHWAY, ROOM, guideline
from .sums import accepted, add_record, empty_sums, record_refusal

SHORTEST, LONGEST = 1024, 61_952


class Answer(NamedTuple):
    refusal: int
    block: int
    sums: tuple  # risk lower, risk upper, hazard lower, hazard upper
    verdicts: tuple  # risk, hazard
    output: bytes  # all lent bytes, after the call


def refused(number, block, out):
    """A refused call returns zero decimals and zero verdicts, and writes nothing."""
    return Answer(number, block, (ZERO,) * 4, (0, 0), out)


def has_length(given):
    return SHORTEST <= len(given) <= LONGEST and len(given) % BLOCK == 0


def later_conditions(block, place, scenario, medium, earlier):
    """Refusals 2, 3, 4, 7, 12, 8 of a block after the header."""
    yield from contaminant_conditions(block, place)
    number = record_refusal(scenario, medium, record_of(block), earlier)
    yield ORDER, number == ORDER
    yield HOUSE, number == HOUSE
    yield PATHWAY, number == PATHWAY


def written(scenario, medium, records, total):
    """The summary and one result block for each record, with the decimals of the single guideline."""
    results = [result_block(place, record, guideline(scenario, medium, record).guidelines)
               for place, record in enumerate(records, 1)]
    return summary_block(total.sums, total.verdicts) + b"".join(results)


def site(given, out):
    """The call over the bytes of a site, with these bytes lent for the output.

    Order: 1; the header 2 to 6; each later block 2, 3, 4, 7, 12, 8; last 10.
    """
    if not has_length(given):
        return refused(LENGTH, 0, out)
    blocks = [given[at:at + BLOCK] for at in range(0, len(given), BLOCK)]
    number = first(header_conditions(blocks[0], len(blocks)))
    if number != ACCEPTED:
        return refused(number, 0, out)
    medium, _, scenario = header_of(blocks[0])
    records, running = [], empty_sums()
    for place, block in enumerate(blocks[1:], 1):
        number = first(later_conditions(block, place, scenario, medium, records))
        if number != ACCEPTED:
            return refused(number, place, out)
        records.append(record_of(block))
        add_record(scenario, medium, records[-1], running)
    if len(out) < len(given):
        return refused(ROOM, 0, out)
    total = accepted(scenario, medium, records, running)
    output = written(scenario, medium, records, total) + out[len(given):]
    return Answer(ACCEPTED, 0, total.sums, total.verdicts, output)
