"""Times the proved site call beside unproved programs on the same sites, interleaved in one run.

Usage: python3 bench/run.py [ROUNDS]        needs gcc, libgmp-dev, a JDK and valgrind; `rt` builds the proved library

For each group of sites (1, 12 and 120 contaminants, and 120 of which the last block is damaged) it prints the median
ratio of each program's time to that of baseline.c in the neighbouring batch, and for the C programs the
instructions and the modelled branch misses of one call by callgrind.
"""
import pathlib
import re
import statistics
import subprocess
import sys

HERE = pathlib.Path(__file__).resolve().parent
GROUPS = ("mix1", "mix12", "mix120", "badlast120")
BASELINE = "baseline"
NATIVE = (BASELINE, "proved", "exact_gmp")
# About 1.5 ms of baseline.c to a batch.
CALLS = {"mix1": 1600, "mix12": 240, "mix120": 16, "badlast120": 24}
# Slower programs make fewer calls to a batch.
SLOWER = {"exact_gmp": 8, "java_site": 2, "python_site": 16}
ALLOCATED = 8  # sites to a group


class Server:
    """A process that times batches: one line asked, one line answered."""

    def __init__(self, *command):
        self.process = subprocess.Popen(command, cwd=HERE, stdin=subprocess.PIPE, stdout=subprocess.PIPE, text=True, bufsize=1)

    def time(self, name, group, calls):
        """Thread nanoseconds of one call."""
        self.process.stdin.write(f"time {name} {group} {calls}\n")
        self.process.stdin.flush()
        return int(self.process.stdout.readline().split()[1]) / calls


def build():
    subprocess.run(["bash", "tools/library.sh"], cwd=HERE.parent, check=True, stdout=subprocess.DEVNULL, stderr=subprocess.DEVNULL)
    subprocess.run(["sh", "build.sh"], cwd=HERE, check=True)
    subprocess.run(["build/harness", "fuzz", "20000", "1"], cwd=HERE, check=True)


def servers():
    native = Server("build/harness", "serve", "sites")
    java = Server("java", "-cp", "build", "Peer", "serve", "sites")
    python = Server(sys.executable, "peer.py", "serve", "sites")
    return {**{name: native for name in NATIVE}, "java_site": java, "python_site": python}


def calls_of(name, group):
    return max(ALLOCATED, CALLS[group] // SLOWER.get(name, 1))


def ratios(programs, group, rounds):
    """For each program the median ratio to the baseline beside it; and the baseline's time."""
    found, base = {name: [] for name in programs if name != BASELINE}, []
    for turn in range(rounds):
        for name in found:
            if SLOWER.get(name, 1) > 1 and turn % 5:
                continue
            beside = programs[BASELINE].time(BASELINE, group, CALLS[group])
            found[name].append(programs[name].time(name, group, calls_of(name, group)) / beside)
            base.append(beside)
    return {name: statistics.median(values) for name, values in found.items()}, statistics.median(base)


def counted(name, group):
    """Instructions and modelled branch misses of one call, by callgrind: those inside the harness's calls."""
    output = HERE / "build" / "callgrind.out"
    words = ["valgrind", "--tool=callgrind", "--branch-sim=yes", f"--toggle-collect=program_{name}", f"--callgrind-out-file={output}",
             "build/harness", "count", name, "sites", group]
    said = subprocess.run(words, cwd=HERE, capture_output=True, text=True).stderr
    numbers = [int(re.search(line + r"\s+([\d,]+)", said).group(1).replace(",", "")) for line in ("I +refs:", "Mispredicts:")]
    return [number // ALLOCATED for number in numbers]


def main():
    rounds = int(sys.argv[1]) if len(sys.argv) > 1 else 101
    build()
    programs = servers()
    print("| sites | baseline.c | " + " | ".join(name for name in programs if name != BASELINE) + " |")
    print("|---|--:|" + "--:|" * (len(programs) - 1))
    for group in GROUPS:
        found, base = ratios(programs, group, rounds)
        print(f"| {group} | 1.00 ({base / 1000:.1f} µs) | " + " | ".join(f"{value:.2f}" for value in found.values()) + " |", flush=True)
    print("\n| sites | program | instructions a call | branch misses a call |\n|---|---|--:|--:|")
    for group in GROUPS:
        for name in NATIVE[:2]:
            instructions, misses = counted(name, group)
            print(f"| {group} | {name} | {instructions:,} | {misses:,} |", flush=True)


if __name__ == "__main__":
    main()
