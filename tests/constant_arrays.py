"""Looks for constant arrays of powers of ten: in the sources of the crates and, given an archive, in its read-only sections.

    python3 tests/constant_arrays.py                                   the sources; part of the gate
    python3 tests/constant_arrays.py target/staticlib/libgv.a          the archive too, with the size of each read-only section

In a source an array is a fault that has two different powers of ten among its numbers. In a section a fault is two different
powers of ten above 1 side by side, as whole numbers of 4 or 8 bytes or as 64-bit floats. Status 1 when there is a fault.
"""
import itertools
import pathlib
import re
import struct
import subprocess
import sys

CRATES = pathlib.Path(__file__).parent.parent / "crates"
POWERS = {10**k for k in range(20)}
FORMS = ("I", "Q", "d")


def arrays(source):
    """The numbers of each array that is written out in a source, comments and contracts left out."""
    code = re.sub(r"//[^\n]*|(?m:^\s*(?:requires|ensures)\b.*$)|ghost use[^;]*;", "", source)
    for inside in re.findall(r"\[([^\[\]]*,[^\[\]]*)\]", code):
        yield [int(digits.replace("_", "")) for digits in re.findall(r"(?<![\w.])(\d[\d_]*)(?:u\d+|usize)?(?![\w.])", inside)]


def source_faults():
    for path in sorted(CRATES.glob("*/src/**/*.rt")):
        for numbers in arrays(path.read_text(encoding="utf-8")):
            if len(POWERS.intersection(numbers)) > 1:
                yield f"{path.relative_to(CRATES)}: {numbers}"


def section_line(line):
    """The bytes of a printed line: an offset, then 16 bytes at most in 35 columns, then the same as text."""
    start = line.index(" ", 1) + 1
    return bytes.fromhex(line[start:start + 35].replace(" ", ""))


def read_only(archive):
    """Name and bytes of each read-only section of an archive."""
    printed = subprocess.run(["objdump", "-s", archive], check=True, capture_output=True, text=True).stdout
    for part in printed.split("Contents of section ")[1:]:
        name, _, lines = part.partition(":\n")
        if name.startswith(".rodata"):
            yield name, b"".join(section_line(line) for line in lines.splitlines() if line.startswith(" "))


def section_faults(name, content):
    for form in FORMS:
        size = struct.calcsize(form)
        numbers = struct.unpack(f"<{len(content) // size}{form}", content[:len(content) // size * size])
        for a, b in itertools.pairwise(numbers):
            if a != b and a > 1 and b > 1 and a in POWERS and b in POWERS:
                yield f"{name}: {a:g}, {b:g} side by side"


def main():
    faults = list(source_faults())
    for archive in sys.argv[1:]:
        sections = list(read_only(archive))
        for name, content in sections:
            print(f"{len(content):6} bytes {name}")
            faults += section_faults(name, content)
        print(f"{sum(len(content) for _, content in sections):6} bytes in {len(sections)} read-only sections of {archive}")
    print("\n".join(faults) or "no constant array of powers of ten")
    return 1 if faults else 0


if __name__ == "__main__":
    sys.exit(main())
