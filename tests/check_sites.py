"""Checks the second calculation of whole sites, of the writers and of the listing, on the specification's example and on test sites.

    python3 tests/check_sites.py 300 1        300 test sites from seed 1

For each accepted site: demand 3 exactly, the list call's sums, sound result blocks, no byte changed after them. For each
refused site: the output as it was, and the refusal that the maker of the site planned. It runs no Rattle code. Status 1
when anything does not hold, or when of 300 sites or more none has a certain refusal or verdict.
"""
import collections
import itertools
import re
import struct
import sys

from guideline_records import REQUIRED
from second.blocks import (BLOCK, WORD, contaminant_block, header_block, header_of, record_of, write_contaminant,
                           write_header)
from second.decimals import ZERO, Decimal
from second.guideline import ACCEPTED, FACTOR, FIELD, LENGTH, ROOM, guideline
from second.listing import listing, text_of
from second.promises import guideline_faults, sum_faults
from second.sites import site
from second.sums import sums
from second.terms import CHEMICAL, CONTAMINANT_VALUES, SCENARIO_FACTORS
from site_example import (CONCENTRATION_TEXTS, EXAMPLE_TEXT, SKIN_TEXT, TRITIUM_TEXT, concentration_case, concentration_site, example_case,
                          example_site, skin_case, skin_site, tritium_case, tritium_site)
from site_frames import filled
from site_maker import sites
from site_naming import family_of, planned
from site_parts import MEDIA

# Kind, place, two words, the decimals as m, e and two zero bytes, (the verdicts,) unused bytes, the last word.
RESULT_FORM = "<4I" + "IhH" * 8 + "428sI"
SUMMARY_FORM = "<4I" + "IhH" * 4 + "2I452sI"
# The refusals that the header and the later blocks can have. Block 0 also goes with 1 and 10.
IN_HEADER, IN_LATER = (1, 2, 3, 4, 5, 6, 10), (2, 3, 4, 7, 12, 8)
# Of the eleven refusals all but 11, which no site leads to. The number 9 is not used.
REFUSALS = sorted({ACCEPTED, *IN_HEADER, *IN_LATER})
VERDICTS = (1, 2, 3, 4)
FIGURE = r"\d\.\d{8}E(?:\+0|[+-][1-9]\d*)"
LINES = re.compile(rf"(\d+ (risk|hazard)( (-|{FIGURE})){{4}}\n)+"
                   rf"(sum (risk|hazard) (- - none|(0|{FIGURE}) (0|{FIGURE}) (within|above|undecided))\n){{2}}")


def refused_wrong(out, answer):
    """What a refused call breaks."""
    if answer.output != out:
        yield "refused, but the output is changed"
    if answer.sums != (ZERO,) * 4 or answer.verdicts != (0, 0):
        yield "refused, but a decimal or a verdict is not zero"
    if answer.refusal not in (IN_LATER if answer.block else IN_HEADER):
        yield f"refusal {answer.refusal} in block {answer.block}"


def result_wrong(block, place, record, expected):
    """What a result block breaks: its words, the decimals of the single guideline, the unused bytes."""
    kind, its_place, klass, number, *fields, unused, _ = struct.unpack(RESULT_FORM, block)
    if (kind, its_place, klass, number) != (3, place, record["class"], record["id"]):
        yield f"result {place}: kind, place, class or id"
    if fields != [part for d in expected for part in (d.m, d.e, 0)]:
        yield f"result {place}: guidelines"
    if any(unused) or sum(struct.unpack("<128I", block)) % WORD:
        yield f"result {place}: unused bytes or last word"


def summary_wrong(block, answer):
    """What the summary block breaks."""
    *words, unused, _ = struct.unpack(SUMMARY_FORM, block)
    if words != [4, 0, 0, 0, *(part for d in answer.sums for part in (d.m, d.e, 0)), *answer.verdicts]:
        yield "summary: kind, place, sums or verdicts"
    if any(unused) or sum(struct.unpack("<128I", block)) % WORD:
        yield "summary: unused bytes or last word"


def written_wrong(given, medium, scenario, records):
    """What the writers break: the blocks of an accepted site, written from what was read, are its own bytes."""
    out = filled(BLOCK + 9)
    written = [write_header(out, medium, len(records), scenario)]
    written += [write_contaminant(out, place, record) for place, record in enumerate(records, 1)]
    for place, block in enumerate(written):
        if block != (ACCEPTED, given[BLOCK * place:BLOCK * (place + 1)] + out[BLOCK:]):
            yield f"writer: block {place} is not what was read"


def text_wrong(text, records):
    """What the listing's text breaks: its form, and the order of its contaminant lines."""
    if not LINES.fullmatch(text):
        yield "listing: form"
    starts = []
    for record in records:
        starts += [[str(record["id"]), side] for side in ("risk", "hazard")[:2 if record["class"] == CHEMICAL else 1]]
    starts += [["sum", "risk"], ["sum", "hazard"]]
    if [line.split()[:2] for line in text.splitlines()] != starts:
        yield "listing: order of the lines"


def accepted_wrong(given, out, answer):
    """What an accepted call breaks."""
    parts = [given[at:at + BLOCK] for at in range(0, len(given), BLOCK)]
    medium, _, scenario = header_of(parts[0])
    records = [record_of(part) for part in parts[1:]]
    total = sums(scenario, medium, records)
    if answer[:4] != total:
        yield "not the answer of the list call"
    if len(answer.output) != len(out) or answer.output[len(given):] != out[len(given):]:
        yield "bytes after the last result block"
    yield from summary_wrong(answer.output[:BLOCK], answer)
    for place, record in enumerate(records, 1):
        one = guideline(scenario, medium, record)
        yield from result_wrong(answer.output[BLOCK * place:BLOCK * (place + 1)], place, record, one.guidelines)
        yield from guideline_faults(scenario, medium, record, one)
    yield from sum_faults(scenario, medium, records, total)
    yield from written_wrong(given, medium, scenario, records)
    yield from text_wrong(text_of(answer, len(given)), records)


def site_wrong(name, given, out, answer):
    if planned(name) not in (None, (answer.refusal, answer.block)):
        yield "not what was planned"
    if answer.refusal == ACCEPTED:
        yield from accepted_wrong(given, out, answer)
    else:
        yield from refused_wrong(out, answer)
        if text_of(answer, len(given)) != f"refused {answer.refusal} block {answer.block}\n":
            yield "listing of a refusal"


def header_writings():
    """(what, the writer's answer, the refusal that it must have) for the header's writer, of 600 bytes but where it says."""
    case, out = example_case(), filled(600)
    scenario, broken = case.scenario, Decimal(1, 21)
    absent = {**scenario, "EF": ZERO}
    for length in (0, 1, 511):
        yield f"header: room {length}", out[:length], write_header(out[:length], 3, 0, {**absent, "TR": broken}), ROOM
    for medium in (0, 3, WORD - 1):
        yield f"header: medium {medium}", out, write_header(out, medium, 1, absent), FIELD
    for count in (0, 121, WORD - 1):
        yield f"header: count {count}", out, write_header(out, 1, count, absent), FIELD
    for name in SCENARIO_FACTORS:
        yield f"header: {name} broken", out, write_header(out, 1, 1, {**absent, name: broken}), FIELD
    for name in REQUIRED:
        yield f"header: {name} zero", out, write_header(out, 2, 120, {**scenario, name: ZERO}), FACTOR


def contaminant_writings():
    """The same for the contaminant's writer."""
    record, out = example_case().record, filled(600)
    for length in (0, 1, 511):
        yield f"contaminant: room {length}", out[:length], write_contaminant(out[:length], 0, {**record, "id": 0}), ROOM
    for place in (0, 121, WORD - 1):
        yield f"contaminant: place {place}", out, write_contaminant(out, place, record), FIELD
    for klass in (0, 4, WORD - 1):
        yield f"contaminant: class {klass}", out, write_contaminant(out, 1, {**record, "class": klass}), FIELD
    yield "contaminant: id 0", out, write_contaminant(out, 1, {**record, "id": 0}), FIELD
    for name in CONTAMINANT_VALUES:
        yield f"contaminant: {name} broken", out, write_contaminant(out, 1, {**record, name: Decimal(0, 1)}), FIELD


def writers_wrong():
    """What the writers break: refusals in the order 10, 4, 6 that write nothing, and no byte after the first 512."""
    for what, out, answer, number in itertools.chain(header_writings(), contaminant_writings()):
        if answer != (number, out):
            yield what
    for case, length in itertools.product((example_case(), tritium_case(), skin_case(), concentration_case()), (512, 513, 1024)):
        out = filled(length)
        if write_header(out, 2, 120, case.scenario) != (ACCEPTED, header_block(2, 120, case.scenario) + out[BLOCK:]):
            yield f"header in {length} bytes"
        if write_contaminant(out, 120, case.record) != (ACCEPTED, contaminant_block(120, case.record) + out[BLOCK:]):
            yield f"contaminant in {length} bytes"


def example_wrong():
    """The text that the specification prints for its examples, and the lengths that it names."""
    example = example_site()
    examples = [("example", example, EXAMPLE_TEXT), ("example of tritium", tritium_site(), TRITIUM_TEXT),
                ("example of soil on skin", skin_site(), SKIN_TEXT)]
    examples += [(f"example by concentration in {MEDIA[medium]}", concentration_site(medium), text)
                 for medium, text in CONCENTRATION_TEXTS.items()]
    for what, given, text in examples:
        if listing(given) != text:
            yield f"the {what} prints\n{listing(given)}"
    for given, text in ((example[:1023], f"refused {LENGTH} block 0\n"), (example + bytes(BLOCK), "refused 5 block 0\n")):
        if listing(given) != text:
            yield f"{len(given)} bytes of the example print {listing(given)}"


def print_table(families, refusals, verdicts):
    print("sites by family: " + ", ".join(f"{name} {count}" for name, count in families.items()))
    print("refusal  sites")
    for number in REFUSALS:
        print(f"{number:7}  {refusals[number]:5}")
    print("verdict   risk  hazard")
    for number in VERDICTS:
        print(f"{number:7}  {verdicts['risk', number]:5}  {verdicts['hazard', number]:6}")


def main():
    count, seed = int(sys.argv[1]), int(sys.argv[2])
    wrong = [("example", fault) for fault in example_wrong()] + [("writers", fault) for fault in writers_wrong()]
    families, refusals, verdicts = collections.Counter(), collections.Counter(), collections.Counter()
    for name, given, room in itertools.islice(sites(seed), count):
        out = filled(room)
        answer = site(given, out)
        wrong += [(name, fault) for fault in site_wrong(name, given, out, answer)]
        families[family_of(name)] += 1
        refusals[answer.refusal] += 1
        verdicts.update(zip(("risk", "hazard"), answer.verdicts))
    if count >= 300:
        wrong += [("all", f"no refusal {number}") for number in REFUSALS if not refusals[number]]
        wrong += [("all", f"no verdict {number} of {side}") for side in ("risk", "hazard") for number in VERDICTS
                  if not verdicts[side, number]]
    print_table(families, refusals, verdicts)
    for name, fault in wrong:
        print(f"{name}: {fault}")
    print(f"{count} sites, {len(wrong)} wrong")
    return 1 if wrong else 0


if __name__ == "__main__":
    sys.exit(main())
