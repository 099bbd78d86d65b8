#!/usr/bin/env python3
"""Runs the gate, and tells what it cost: the processor seconds of each crate's proof, of its tests and of its wrong bodies.

Twice a second it reads off /proc what the checks below this run have taken, so at most half a second of a check's end is missed. What an earlier run
has kept costs nothing here: for figures from nothing, give the word --anew. It ends with the gate's own status.
usage: bench/gate.py [--anew] [CRATE..]
"""
import collections
import os
import subprocess
import sys
import time

TICK = os.sysconf("SC_CLK_TCK")
KINDS = ("proof", "tests", "edits")
PAUSE = 0.5


def processes():
    """Gives, for each process, its number, its parent's, the processor seconds that it has taken, and its words."""
    for name in os.listdir("/proc"):
        if not name.isdigit():
            continue
        try:
            with open(f"/proc/{name}/stat", encoding="utf-8") as it:
                stat = it.read().rpartition(")")[2].split()
            with open(f"/proc/{name}/cmdline", "rb") as it:
                words = it.read().decode(errors="replace").split("\0")
            place = os.readlink(f"/proc/{name}/cwd")
        except OSError:
            # it has ended
            continue
        yield int(name), int(stat[1]), (int(stat[11]) + int(stat[12])) / TICK, words, place


def kind_of(words, place):
    """What a check is of: a wrong body, tests, or the crate itself."""
    if "rt-edit" in place or any("rt-edit" in it for it in words):
        return "edits"
    return "tests" if "--test" in words else "proof"


def look(root, taken):
    """Notes what each check below the process `root` has taken so far."""
    found = {number: (parent, seconds, words, place) for number, parent, seconds, words, place in processes()}

    def is_below(number):
        while number in found and number != root:
            number = found[number][0]
        return number == root

    for number, (_, seconds, words, place) in found.items():
        if "--crate-name" in words and is_below(number):
            crate = words[words.index("--crate-name") + 1]
            taken[number, crate, kind_of(words, place)] = seconds


def tell(taken):
    crates = collections.defaultdict(lambda: dict.fromkeys(KINDS, 0.0))
    for (_, crate, kind), seconds in taken.items():
        crates[crate][kind] += seconds
    print(f"{'crate':<20}" + "".join(f" {it:>8}" for it in KINDS))
    for crate, costs in sorted(crates.items(), key=lambda it: -sum(it[1].values())):
        print(f"{crate:<20}" + "".join(f" {costs[it]:8.0f}" for it in KINDS))
    sums = [sum(costs[it] for costs in crates.values()) for it in KINDS]
    print(f"{'in all':<20}" + "".join(f" {it:8.0f}" for it in sums))
    print(f"{sum(sums) / 60:.0f} processor minutes")


def main(words):
    os.chdir(f"{os.path.dirname(os.path.abspath(__file__))}/..")
    begun, taken = time.monotonic(), {}
    gate = subprocess.Popen(["rt", "ci", *words])
    while gate.poll() is None:
        look(gate.pid, taken)
        time.sleep(PAUSE)
    tell(taken)
    print(f"{(time.monotonic() - begun) / 60:.0f} minutes by the clock, {os.cpu_count()} processors")
    return gate.returncode


if __name__ == "__main__":
    sys.exit(main(sys.argv[1:]))
