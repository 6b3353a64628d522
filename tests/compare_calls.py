"""Runs the built program call_cases on random calls of every kind and compares every line with the second calculation.

    (cd crates/call_cases && rt run < stdin > /dev/null) && python3 tests/compare_calls.py 5000 1

Demand 3 is checked exactly on each accepted guideline and list. Status 1 when anything differs.
"""
import collections
import pathlib
import random
import subprocess
import sys

from call_maker import random_call, random_contents

PROGRAM = pathlib.Path(__file__).parent.parent / "crates" / "call_cases" / "out" / "call_cases"


def main():
    count, source = int(sys.argv[1]), random.Random(int(sys.argv[2]))
    contents = random_contents(source)
    calls = [random_call(source, contents) for _ in range(count)]
    run = subprocess.run([PROGRAM], input=b"".join(call.frame() for call in calls), capture_output=True, check=True)
    printed = run.stdout.decode().splitlines(keepends=True)
    different = abs(len(printed) - count)
    broken = 0
    for call, line in zip(calls, printed):
        if line != call.line():
            different += 1
            print(f"differs: {call.frame().hex()}\n  program {line}  second  {call.line()}", end="")
        broken += bool(call.faults)
        for fault in call.faults:
            print(f"demand 3: {fault}: {call.frame().hex()}")
    kinds = collections.Counter(call.call for call in calls)
    print(f"{count} calls, {different} different, {broken} outside demand 3; by call: {dict(sorted(kinds.items()))}")
    return 1 if different or broken else 0


if __name__ == "__main__":
    sys.exit(main())
