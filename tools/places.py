#!/usr/bin/env python3
"""Prints the places of a function's proof, and at which place each goal stands: python3 tools/places.py CRATE FN..

An answer is given the place at which its goal stands, and reaches all that was told at the places before it. Each line is a place, the one
before it and how many lie before it in all; then each goal, as Answers.antt names it, with its place. FN is the function's folder in
proofs/, as row/add_placed. It reads what `rt check --generated` writes of the function, into a folder of its own, which takes about as
long as a check of the function; the libraries below the crate are built first, where they have changed."""
import os
import re
import subprocess
import sys
import tempfile

sys.dont_write_bytecode = True
from crates import read_crates  # it goes to the root of the tree

PLACE = re.compile(r"\n *pub record (\S+)[^\n]*")
BEFORE = re.compile(r"pub before : ([^\s(]+)")
GOAL = re.compile(r"\nthe-fitted-(\S+) =\s+Lts\.(Need-\S+)")


def stop(text):
    sys.exit("places.py: " + text)


def read_places(text):
    """The place before each place, None before the first."""
    starts = list(PLACE.finditer(text))
    ends = [m.start() for m in starts[1:]] + [len(text)]
    places = {}
    for start, end in zip(starts, ends):
        found = BEFORE.search(text, start.end(), end)
        places[start.group(1)] = found.group(1) if found else None
    return places


def depth(places, name):
    steps = 0
    while places.get(name):
        name, steps = places[name], steps + 1
    return steps


def print_function(crate, function, folder):
    of_folder = ["rt", "check", "--generated", folder, "--start", function.replace("/", "::")]
    ran = subprocess.run(of_folder, cwd=f"crates/{crate}", stdin=subprocess.DEVNULL, capture_output=True, text=True)
    path = f"{folder}/Rattle-{crate}-proofs/{function}"
    if not os.path.exists(f"{path}/Lts.antt"):
        stop(f"rt check --generated wrote no places of {function}: {(ran.stdout + ran.stderr).strip()[-600:]}")
    with open(f"{path}/Lts.antt", encoding="utf-8") as file:
        text = file.read()
    with open(f"{path}/Goals.antt", encoding="utf-8") as file:
        goals = GOAL.findall(file.read())
    places = read_places(text)
    print(function)
    for name, before in places.items():
        if name == "Start" or before:
            print(f"  {depth(places, name):3} {name}" + (f" after {before}" if before else ""))
    for goal, need in goals:
        at = re.compile(rf"pub {re.escape(need)} :[^(]*\(c : ([^\s)(]+)").search(text)
        if at:
            print(f"  {goal} at {at.group(1)}, {depth(places, at.group(1))}")


def main():
    if len(sys.argv) < 3 or sys.argv[1] in ("-h", "--help"):
        print(__doc__)
        sys.exit(0 if len(sys.argv) > 1 else 2)
    if sys.argv[1] not in read_crates():
        stop(f"crates.txt has no crate {sys.argv[1]}")
    with tempfile.TemporaryDirectory() as folder:
        for name in sys.argv[2:]:
            print_function(sys.argv[1], name, folder)


main()
