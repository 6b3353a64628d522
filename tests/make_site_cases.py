"""Writes what the programs gvlist and site_cases read and must print: the example of the specification, and stored cases of sites.

    python3 tests/make_site_cases.py            writes stdin and stdout of crates/gvlist and of crates/site_cases
    python3 tests/make_site_cases.py --check    status 1 when the stored files are not what it would write

The cases are in the frames of site_frames.py. For each case the expected text holds the listing's text; a line "answer"
with the number of the answer in 16 hexadecimal digits; and a line "output" with the sum of i times the i-th byte of the
output, counted from 1, modulo 2^32. The output is taken whole, after the call, and its bytes are 165 before it.
"""
import collections
import itertools
import pathlib
import sys

from check_sites import site_wrong
from guideline_records import ON_SKIN
from second.listing import text_of
from second.sites import site
from site_example import EXAMPLE_TEXT, concentration_site, example_site, skin_site, tritium_site
from site_faults import BROKEN_FIELDS
from site_frames import case_frame, filled, number_of
from site_maker import FAMILIES, family_sites, one_fault
from site_naming import family_of, planned
from site_parts import MEDIA

FOLDER = pathlib.Path(__file__).parent.parent / "crates"
EXAMPLE, EXAMPLE_PRINTED = FOLDER / "gvlist" / "stdin", FOLDER / "gvlist" / "stdout"
CASES, CASES_PRINTED = FOLDER / "site_cases" / "stdin", FOLDER / "site_cases" / "stdout"
SEED = 20261116

# How many sites of a family are stored, and how long they may be, where it is not as for the others.
USUAL_NUMBER, USUAL_LENGTH = 7, 2048
NUMBERS = {"missing_values": 30, "missing_factors": 22, "near_target": 24, "near_concentration": 12, "exact_targets": 12,
           "extreme_decimals": 14, "hard_roundings": 12, "zero_concentrations": 10, "plausible_sites": 10, "two_in_one_block": 22,
           "faults_in_two_blocks": 8, "lengths": 44, "small_shares": 4, "many_blocks": 2, "id_orders": 10, "missing_house": 24,
           "mixed_classes": 14, "mixed_in_many": 2, "without_house": 12, "tritium_in_soil": 12, "near_saturation": 8,
           "exact_saturations": 10, "capped_sides": 8, "absent_inhalation": 10, "ignored_saturation": 16,
           "missing_on_skin": 5, "one_age": 3, "hard_ages_in_sites": 4, "near_on_skin": 3, "capped_on_skin": 2, "ignored_on_skin": 3,
           "extreme_on_skin": 2, "missing_in_air": 6, "zero_hours": 6, "ignored_in_air": 6, "classes_in_air": 3, "capped_in_air": 3,
           "near_in_air": 4, "exact_in_air": 3, "hard_in_sites": 3, "extreme_in_air": 2, "block_kinds": 9, "damaged_in_air": 12,
           "older_in_air": 4}
LENGTHS = {"many_blocks": 4608, "mixed_classes": 3072, "mixed_in_many": 4608}
# Sites that are stored though they are long: the longest that has a right length, and one block more.
LONG = ("lengths: 61952 bytes, longest; accepted", "lengths: 62464 bytes, cut; refused 1 block 0")
# The refusals of a site: of the eleven all but 11. The number 9 is not used. Verdict 0 is that of a refused call.
REFUSALS, VERDICTS = {0, 1, 2, 3, 4, 5, 6, 7, 8, 10, 12}, {0, 1, 2, 3, 4}


def first_sites(family):
    """The first sites of a family that are not too long."""
    longest = LENGTHS.get(family.__name__, USUAL_LENGTH)
    first = itertools.islice(family_sites(family, SEED), 120)
    fitting = (case for case in first if len(case[1]) <= longest or case[0] in LONG)
    return itertools.islice(fitting, NUMBERS.get(family.__name__, USUAL_NUMBER))


def stored_for(name, given):
    """What a site with one fault is stored for: a long site for its refusal and block, a short one for its fault.

    Of the faults of decimals one of each sort is enough, whichever the decimal; of those in the two zero bytes, which no stored call
    has, there is one for each decimal of soil on skin as well.
    """
    if len(given) > 1024:
        return planned(name)
    fault = name.partition(": ")[2]
    decimal, _, sort = fault.partition(";")[0].partition(" ")
    if sort not in BROKEN_FIELDS:
        return fault
    return decimal if decimal in ON_SKIN and "zero byte" in sort else sort


def fault_sites():
    seen = set()
    for name, given, room in family_sites(one_fault, SEED):
        if stored_for(name, given) not in seen:
            seen.add(stored_for(name, given))
            yield name, given, room


def chosen():
    """The examples of the specification, then sites of each family."""
    in_air = [(f"by concentration, {MEDIA[medium]}", concentration_site(medium)) for medium in MEDIA]
    for what, given in (("the specification", example_site()), ("tritium in water", tritium_site()), ("soil on skin", skin_site()), *in_air):
        yield f"example: {what}; accepted", given, len(given)
    for family, _ in FAMILIES:
        yield from fault_sites() if family is one_fault else first_sites(family)


def output_sum(output):
    return sum(i * byte for i, byte in enumerate(output, 1)) % 2**32


def expected_text(answer, length):
    return f"{text_of(answer, length)}answer {number_of(answer):016x}\noutput {output_sum(answer.output)}\n"


def worked(cases):
    """The answers of the second calculation, each of which has to keep every rule that check_sites knows."""
    for name, given, room in cases:
        answer = site(given, filled(room))
        wrong = list(site_wrong(name, given, filled(room), answer))
        assert not wrong, (name, wrong)
        yield answer


def files(cases, answers):
    """The bytes of each file."""
    frames = [case_frame(given, room) for _, given, room in cases]
    texts = [expected_text(answer, len(given)) for answer, (_, given, _) in zip(answers, cases)]
    return {EXAMPLE: example_site(), EXAMPLE_PRINTED: EXAMPLE_TEXT.encode(),
            CASES: b"".join(frames), CASES_PRINTED: "".join(texts).encode()}


def print_counts(cases, answers):
    refusals = collections.Counter(answer.refusal for answer in answers)
    verdicts = collections.Counter(verdict for answer in answers for verdict in answer.verdicts)
    assert set(refusals) == REFUSALS and set(verdicts) == VERDICTS, (refusals, verdicts)
    families = {family_of(name) for name, _, _ in cases}
    print(f"{len(cases)} sites of {len(families)} families; "
          f"refusal: {', '.join(f'{refusals[n]} with {n}' for n in sorted(refusals))}; "
          f"sides by verdict: {', '.join(f'{verdicts[n]} with {n}' for n in sorted(VERDICTS - {0}))}")


def main():
    status = 0
    cases = list(chosen())
    answers = list(worked(cases))
    for path, content in files(cases, answers).items():
        if "--check" not in sys.argv[1:]:
            path.write_bytes(content)
        elif not path.is_file() or path.read_bytes() != content:
            print(f"{path.relative_to(FOLDER)} is not what make_site_cases.py writes")
            status = 1
    print_counts(cases, answers)
    return status


if __name__ == "__main__":
    sys.exit(main())
