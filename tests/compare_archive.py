"""Holds the static library to the second calculation: on generated sites answer, every output byte and listing; on generated
calls of the single guideline and of the writers the number and every output byte.

Usage: python3 tests/compare_archive.py [N] [SEED] [--valgrind]

Builds the library with rt and the programs of tests/archive with cc, makes N sites and N calls from SEED with the second
calculation's answers, and compares. With --valgrind 200 of each run under valgrind too.
"""
import subprocess
import sys
from pathlib import Path

ROOT = Path(__file__).resolve().parent.parent
BUILD = ROOT / "target" / "compare"
# Each program that compares, and what makes its cases.
FRAMES = {"compare": "tests/site_frames.py", "calls": "tests/archive_frames.py"}


def run(*words):
    subprocess.run([str(word) for word in words], cwd=ROOT, check=True)


def build():
    BUILD.mkdir(parents=True, exist_ok=True)
    subprocess.run(["bash", "tools/library.sh"], cwd=ROOT, check=True, stdout=subprocess.DEVNULL, stderr=subprocess.DEVNULL)
    for program in FRAMES:
        run("cc", "-O2", "-g", "-Wall", "-Wextra", "-Iinclude", "-o", BUILD / program, f"tests/archive/{program}.c", "target/staticlib/libgv.a")


def compare(count, seed, *before):
    for program, maker in FRAMES.items():
        cases, expected = BUILD / f"{program}-cases-{count}-{seed}", BUILD / f"{program}-expected-{count}-{seed}"
        run(sys.executable, maker, count, seed, cases, expected)
        run(*before, BUILD / program, cases, expected)


def main():
    words = [word for word in sys.argv[1:] if not word.startswith("--")]
    count, seed = (words + ["5000", "1"])[:2] if not words else (words + ["1"])[:2]
    build()
    compare(count, seed)
    if "--valgrind" in sys.argv:
        compare(200, seed, "valgrind", "--quiet", "--error-exitcode=1")


if __name__ == "__main__":
    main()
