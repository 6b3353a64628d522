"""The cases that the program call_cases reads, and the lines that it must print, by the second calculation.

A case is three little-endian words, the call, its argument and a count, and the first bytes of each block that the call takes:
288 of a header, 128 of a contaminant. The scenario is by concentration where the word at byte 0 of the header is 6, and by intake
where it is any other. The count is that of a list's records, or the place of a contaminant that is written. The line of a case is
the number of its call and what came back.
"""
import struct
from typing import NamedTuple

from guideline_records import Case, full_scenario
from second.blocks import CONTAMINANT, contaminant_block, header_block, word, write_contaminant, write_header
from second.decimals import DOWN, UP, ZERO, add, are_operands, divide, in_range, multiply, value, working_form
from second.guideline import SCENARIO, guideline
from second.promises import guideline_faults, sum_faults
from second.sums import sums
from second.terms import SCENARIO_FACTORS
from site_frames import filled
from site_parts import PERSON, SCENARIOS

GUIDELINE, LIST, WRITE_HEADER, WRITE_CONTAMINANT, BUILT_IN, DECIMALS = range(1, 7)
HEADER_PART = 288  # the bytes of a header that are stored: all that is read of it
CONTAMINANT_PART = 128  # those of a contaminant
WORKING, AT_MOST = 6, 7
# The choices of call 6 before those two.
OPERATIONS = tuple((operation, direction) for operation in (multiply, divide, add) for direction in (DOWN, UP))


def stored_part(block):
    return block[:CONTAMINANT_PART if word(block, 0) == CONTAMINANT else HEADER_PART]


class Call(NamedTuple):
    call: int
    argument: int
    count: int
    blocks: tuple
    back: str  # what comes back, as it is printed after the call's number
    faults: tuple = ()  # what the second calculation's own answer breaks of demand 3

    def frame(self):
        head = struct.pack("<3I", self.call, self.argument, self.count)
        return head + b"".join(map(stored_part, self.blocks))

    def line(self):
        return f"{self.call}{self.back}\n"

    def refusal(self):
        """The first number that comes back; None where nothing does, and for the decimals of call 6."""
        return int(self.back.split()[0]) if self.back and self.call != DECIMALS else None


def numbers(*parts):
    """The numbers that come back, a space before each; a decimal is m and e."""
    flat = []
    for part in parts:
        flat += part if isinstance(part, tuple) else (part,)
    return "".join(f" {number}" for number in flat)


def guideline_call(case):
    answer = guideline(case.scenario, case.medium, case.record)
    faults = guideline_faults(case.scenario, case.medium, case.record, answer) if answer.refusal == 0 else ()
    blocks = header_block(case.medium, 1, case.scenario), contaminant_block(1, case.record)
    return Call(GUIDELINE, 0, 0, blocks, numbers(answer.refusal, answer.block, *answer.guidelines), tuple(faults))


def list_call(medium, scenario, records):
    answer = sums(scenario, medium, records)
    faults = sum_faults(scenario, medium, records, answer) if answer.refusal == 0 else ()
    blocks = [header_block(medium, len(records), scenario)]
    blocks += [contaminant_block(place, record) for place, record in enumerate(records, 1)]
    back = numbers(answer.refusal, answer.block, *answer.sums, answer.verdicts)
    return Call(LIST, 0, len(records), tuple(blocks), back, tuple(faults))


def output_sum(output):
    """The bytes of the output, each times its place from 1."""
    return sum(i * byte for i, byte in enumerate(output, 1)) % 2**32


def header_call(room, medium, count, scenario):
    number, output = write_header(filled(room), medium, count, scenario)
    return Call(WRITE_HEADER, room, 0, (header_block(medium, count, scenario),), numbers(number, 0, output_sum(output)))


def contaminant_call(room, place, record):
    number, output = write_contaminant(filled(room), place, record)
    return Call(WRITE_CONTAMINANT, room, place, (contaminant_block(place, record),), numbers(number, 0, output_sum(output)))


def built_in(number):
    """The refusal and the scenario of a built-in number, which counts by intake."""
    if not 1 <= number <= 3:
        return SCENARIO, {}
    return 0, full_scenario({**PERSON, **SCENARIOS[number - 1]})


def built_in_call(number):
    refusal, scenario = built_in(number)
    return Call(BUILT_IN, number, 0, (), numbers(refusal, 0, *(scenario.get(name, ZERO) for name in SCENARIO_FACTORS)))


def operated(choice, a, b):
    if choice == AT_MOST:
        return int(are_operands(a, b) and value(a) <= value(b))
    if choice == WORKING:
        return working_form(a) if a.m <= 999_999_999 and in_range(a) else ZERO
    operation, direction = OPERATIONS[choice]
    return operation(a, b, direction)


def decimal_call(choice, a, b=ZERO):
    record = Case(1, {}, {"class": 0, "id": 0, "SFo": a, "SFi": b}).record
    return Call(DECIMALS, choice, 0, (contaminant_block(0, record),), numbers(operated(choice, a, b)))


def empty_call(call, argument, count):
    """A case of which nothing comes back: no such call, a longer list than can be lent, or more room than there is."""
    return Call(call, argument, count, (), "")
