#!/usr/bin/env python3
"""Writes docs/GATE.md on standard output from what .ci/run printed: python3 tools/gate_times.py LOG [PROFILE] > docs/GATE.md

LOG must be whole and of a gate that passed: its last lines are 'gate: N s, P s of processor' and 'N passed, 0 failed'.
PROFILE is what tools/check_profile.py printed; with it the table has the processor seconds of each crate too."""
import re
import sys


def whole(lines):
    """The gate's seconds, its processor seconds and its last line, or why the log cannot be used."""
    if len(lines) < 2 or not re.fullmatch(r"\d+ passed, 0 failed", lines[-1]):
        sys.exit("gate_times.py: the log does not end with 'N passed, 0 failed'")
    took = re.fullmatch(r"gate: (\d+) s, (\d+) s of processor", lines[-2])
    if not took:
        sys.exit("gate_times.py: the line before the last is not 'gate: N s, P s of processor'")
    return int(took[1]), int(took[2]), lines[-1]


def minutes(seconds):
    return f"{seconds // 60} min {seconds % 60} s"


def read_counts(lines):
    """The functions of each crate proved in this run, the crates kept from earlier runs, and the edits of each crate."""
    proved, kept, edits, functions = {}, [], {}, 0
    for line in lines:
        if line.startswith("== "):
            functions = 0
        elif m := re.match(r"logic=proved functions=(\d+) ", line):
            functions = int(m[1])
        elif m := re.fullmatch(r"rt: (\w+) proved", line):
            proved[m[1]] = functions
        elif m := re.match(r"rt: (\w+) is kept: ", line):
            kept.append(m[1])
        elif m := re.match(r"rt: must-fail ([^/]+)/\S+: refused, as it must be", line):
            edits[m[1]] = edits.get(m[1], 0) + 1
    return proved, kept, edits


def read_profile(paths):
    """The processor seconds of each crate, from what tools/check_profile.py printed; none where it is not given."""
    seconds = {}
    for path in paths:
        for line in open(path, encoding="utf-8"):
            if m := re.match(r"(\w+): ([\d.]+) s of processor \(", line):
                seconds[m[1]] = m[2]
        if not seconds:
            sys.exit(f"gate_times.py: {path} has no line 'CRATE: N s of processor (..)'")
    return seconds


def main():
    if len(sys.argv) not in (2, 3):
        sys.exit("gate_times.py: give a log of .ci/run, and what tools/check_profile.py printed if the table is to have it")
    lines = open(sys.argv[1], encoding="utf-8").read().splitlines()
    seconds, processor, verdict = whole(lines)
    proved, kept, edits = read_counts(lines)
    profile = read_profile(sys.argv[2:])
    print("# Gate times\n")
    made = "gate.log profile.log" if profile else "gate.log"
    print(f"Made by `.ci/run > gate.log` and `python3 tools/gate_times.py {made} > docs/GATE.md`"
          + (", with `python3 tools/check_profile.py > profile.log` between them.\n" if profile else ".\n"))
    told = f"{len(proved)} crates proved, {len(kept)} kept from earlier runs" if kept else f"{len(proved)} crates"
    print(f"Whole: {minutes(seconds)}, {minutes(processor)} of processor; {told}, {sum(edits.values())} edits that must fail; `{verdict}`.\n")
    print("`rt ci` proves crates side by side, as many as there are processors and memory, and tells no crate's time.")
    print("`python3 tools/check_profile.py CRATE` prints a crate's processor seconds, by part and by function"
          + ("; the last column has them.\n" if profile else ".\n"))
    print("| crate | functions | edits |" + (" processor, s |" if profile else ""))
    print("|---|--:|--:|" + ("--:|" if profile else ""))
    order = {name: float(profile.get(name, 0)) for name in [*proved, *kept]}
    for name in sorted(order, key=lambda it: (-order[it], -proved.get(it, 0))):
        print(f"| `{name}` | {proved.get(name, 'kept')} | {edits.get(name, 0)} |" + (f" {profile.get(name, '')} |" if profile else ""))


main()
