"""Random calls of the C library beside the site call, and what each must return and leave, by the second calculation.

    python3 tests/archive_frames.py 5000 1 CASES EXPECTED        writes both files for 5000 calls from seed 1

A case is seven little-endian words: the call (1 gv_guideline, 2 gv_write_header, 3 gv_write_contaminant, 4 gv_write_built_in),
three numbers (the kind that is given with a header; or a contaminant's place; or a built-in number, medium and count), the length of
the first and of the second struct, then the length of the output, and the structs. Its answer is the number that comes back (8 bytes)
and all bytes of the output, each of which is 165 before the call.
"""
import pathlib
import random
import struct
import sys

from call_frames import built_in
from guideline_records import random_case
from second.blocks import (CONTAMINANT_PLACES, HEADER_PLACES, HEADERS, between_fields, contaminant_block, field_bytes, header_block,
                           write_contaminant, write_header)
from second.guideline import ACCEPTED, FIELD, ROOM, guideline, refused, scenario_refusal
from site_frames import filled

GUIDELINE, HEADER, CONTAMINANT, BUILT_IN = range(1, 5)
STRUCT = slice(8, 508)  # a struct of C: a block without kind and place and without its last word
BLOCK, GUIDELINES = 512, 64
NO_KINDS = (0, 2, 3, 4, 5, 7, 257, 262, 6 + 2**16, 1 + 2**31, 2**32 - 6, 2**32 - 1)


def header_struct(case, count):
    return header_block(case.medium, count, case.scenario)[STRUCT]


def contaminant_struct(case):
    return contaminant_block(1, case.record)[STRUCT]


def with_form(source, given, places):
    """The struct whose decimals stand at these places of the block, and whether it has its form: mostly as it is, at times of another
    length or with an unused byte that is not zero, in a decimal or beside them."""
    kind = source.randrange(16)
    if kind == 0:
        return given + b"\0", False
    if kind == 1:
        return given[:source.choice((source.randrange(len(given)), places[-1] + 8 - STRUCT.start, len(given) - 1))], False
    if kind in (2, 3):
        unused = between_fields(places)
        ends = [at for at in unused if at - 1 not in unused or at + 1 not in unused]
        at = source.choice(places) + source.choice((6, 7)) if kind == 2 else source.choice(source.choice((unused, ends)))
        return given[:at - STRUCT.start] + b"\1" + given[at - STRUCT.start + 1:], False
    return given, True


def with_header_form(source, case, count):
    """The kind that is given with a header, mostly the scenario's; the struct; and whether the two have their form."""
    kind = source.choice(NO_KINDS) if source.randrange(12) == 0 else case.scenario["kind"]
    header, good = with_form(source, header_struct(case, count), list(HEADER_PLACES.values()))
    return kind, header, good and kind in HEADERS


def with_contaminant_form(source, case):
    return with_form(source, contaminant_struct(case), list(CONTAMINANT_PLACES.values()))


def guideline_answer(case, header_good, record_good):
    """As the single guideline; another kind or a struct of another form breaks rule 4 in its turn."""
    if not header_good:
        return refused(FIELD, 0)
    number = scenario_refusal(case.scenario, case.medium)
    if number != ACCEPTED:
        return refused(number, 0)
    return guideline(case.scenario, case.medium, case.record) if record_good else refused(FIELD, 1)


def guideline_call(source, case, room):
    kind, header, header_good = with_header_form(source, case, source.randrange(200))
    record, record_good = with_contaminant_form(source, case)
    answer = guideline_answer(case, header_good, record_good)
    if answer.refusal == ACCEPTED and room < GUIDELINES:
        answer = refused(ROOM, 0)
    output = filled(room)
    if answer.refusal == ACCEPTED:
        output = b"".join(map(field_bytes, answer.guidelines)) + output[GUIDELINES:]
    return (GUIDELINE, kind, 0, 0, header, record), answer.refusal | answer.block << 8, output


def of_form(good, room, written):
    """What a writer sends back and leaves: 10, then 4 for another kind or a struct of another form, then its own."""
    if not good:
        return (ROOM if room < BLOCK else FIELD), filled(room)
    return written


def header_call(source, case, room):
    count = source.choice((1, 120, source.randint(0, 130)))
    kind, header, good = with_header_form(source, case, count)
    number, output = of_form(good, room, write_header(filled(room), case.medium, count, case.scenario))
    return (HEADER, kind, 0, 0, header, b""), number, output


def contaminant_call(source, case, room):
    place = source.choice((1, 120, source.randint(0, 130)))
    record, good = with_contaminant_form(source, case)
    number, output = of_form(good, room, write_contaminant(filled(room), place, case.record))
    return (CONTAMINANT, place, 0, 0, b"", record), number, output


def built_in_call(source, case, room):
    number = source.choice((1, 2, 3, source.randrange(6), source.randrange(2**32)))
    medium, count = source.choice((1, 2, source.randrange(4))), source.choice((1, 120, source.randint(0, 130)))
    refusal, scenario = built_in(number)
    output = filled(room)
    if refusal == ACCEPTED:
        refusal, output = write_header(output, medium, count, scenario)
    return (BUILT_IN, number, medium, count, b"", b""), refusal, output


def random_call(source):
    """The case and its answer."""
    make = source.choice((guideline_call, guideline_call, header_call, contaminant_call, built_in_call))
    rooms = (0, 63, 64, 65, 100) if make is guideline_call else (0, 511, 512, 513, 1024)
    room = rooms[2] if source.randrange(2) else source.choice(rooms)
    (call, a, b, c, first, second), number, output = make(source, random_case(source, in_air=source.randrange(2) == 0), room)
    head = struct.pack("<7I", call, a, b, c, len(first), len(second), room)
    return head + first + second, struct.pack("<Q", number) + output


def main():
    count, source = int(sys.argv[1]), random.Random(int(sys.argv[2]))
    calls = [random_call(source) for _ in range(count)]
    for path, part in ((sys.argv[3], 0), (sys.argv[4], 1)):
        pathlib.Path(path).write_bytes(b"".join(call[part] for call in calls))


if __name__ == "__main__":
    main()
