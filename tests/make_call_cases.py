"""Writes the stored cases of the program call_cases and what it must print, by the second calculation.

    python3 tests/make_call_cases.py            writes crates/call_cases/stdin and stdout
    python3 tests/make_call_cases.py --check    status 1 when the stored files are not what it would write
"""
import collections
import itertools
import pathlib
import random
import sys

import concentration_cases
import guideline_maker
from call_frames import LIST, guideline_call
from call_maker import stored_calls

FOLDER = pathlib.Path(__file__).parent.parent / "crates" / "call_cases"
SEED = 20261116
# The refusals that each call can send back, of the eleven: 1 to 8 and 10 to 12. The number 9 is not used.
REFUSALS = {1: {0, 4, 6, 8, 12}, 2: {0, 1, 4, 6, 7, 8, 12}, 3: {0, 4, 6, 10}, 4: {0, 4, 10}, 5: {0, 11}}


def refusals_of(calls):
    """The refusals of each call, with how often each comes."""
    counts = {number: collections.Counter() for number in REFUSALS}
    for call in calls:
        if call.refusal() is not None:
            counts[call.call][call.refusal()] += 1
    return counts


def check_all_there(calls):
    """Every refusal of every call, every verdict on both sides of an accepted list, and demand 3."""
    for number, counts in refusals_of(calls).items():
        assert set(counts) == REFUSALS[number], (number, counts)
    accepted = [call.back.split() for call in calls if call.call == LIST and call.refusal() == 0]
    assert {back[-2] for back in accepted} == {back[-1] for back in accepted} == set("1234")
    for place, call in enumerate(calls, 1):
        assert not call.faults, (place, call.faults)


def main():
    cases = itertools.chain(guideline_maker.all_cases(), concentration_cases.all_cases())
    calls = [guideline_call(case) for case in cases] + list(stored_calls(random.Random(SEED), SEED))
    check_all_there(calls)
    made = {"stdin": b"".join(call.frame() for call in calls), "stdout": "".join(call.line() for call in calls).encode()}
    status = 0
    for name, content in made.items():
        path = FOLDER / name
        if "--check" not in sys.argv[1:]:
            path.write_bytes(content)
        elif not path.is_file() or path.read_bytes() != content:
            print(f"{path.name} is not what make_call_cases.py writes")
            status = 1
    kinds = collections.Counter(call.call for call in calls)
    print(f"{len(calls)} cases; by call: {dict(sorted(kinds.items()))}")
    for number, counts in refusals_of(calls).items():
        print(f"call {number} by refusal: {dict(sorted(counts.items()))}")
    return status


if __name__ == "__main__":
    sys.exit(main())
