#!/usr/bin/env python3
"""Prints how large the checked files of crates are, a measure of a check's cost that load does not move:
python3 tools/walk_sizes.py [--rows N] [--reach PROGRAM] [CRATE..]

From crates/NAME/out/rlib, which `rt lib` in a crate's folder makes, and `rt check` in that of a crate above it. Each crate named, or every
library of crates.txt, has a line: the MB of its checked files, of them those of its functions' walks, and the MB of all crates below it,
which each check of it may read. Under it stand its N largest walks (0 where none is asked for). What `rt ci` leaves there has no walks.
With --reach, the walks that the program does not reach are told, in crates that it stands on: code that could stand elsewhere. It asks
`rt check` in the program's folder, so the program is proved first, where it has changed."""
import argparse
import json
import os
import re
import subprocess
import sys

sys.dont_write_bytecode = True
from crates import read_crates  # it goes to the root of the tree

WALK = re.compile(r"-proofs\.(.*)\.Lts$")


def stop(text):
    sys.exit("walk_sizes.py: " + text)


def below(name, needs):
    """The crates of this tree that a crate stands on, those that they stand on among them."""
    found, todo = set(), [name]
    while todo:
        for d in needs.get(todo.pop(), []):
            if d in needs and d not in found:
                found.add(d)
                todo.append(d)
    return found


def is_library(name):
    """Whether a crate is one that others may stand on: no program, and no archive."""
    archives = re.findall(r"(?m)^(\w+) staticlib:", open("crates.txt", encoding="utf-8").read())
    return name not in archives and not os.path.exists(f"crates/{name}/src/main.rt")


def of_library(name, file):
    """What a file of a built library says."""
    path = f"crates/{name}/out/rlib/{name}.rlib/toolchain/{file}"
    if not os.path.exists(path):
        stop(f"{path} is not there: run rt lib in crates/{name}")
    with open(path, encoding="utf-8") as it:
        return it.read()


def checked(name):
    """The MB of each checked file of a library; programs and archives leave none."""
    if not is_library(name):
        return {}
    rows = (json.loads(line.rstrip(",")) for line in of_library(name, "checked.json").split("\n") if line.startswith("["))
    return {module: size / 1e6 for module, _, size in rows}


def walks(name):
    """The MB of the walk of each function of a crate."""
    found = ((WALK.search(f), mb) for f, mb in checked(name).items())
    return {m.group(1).replace(".", "::"): mb for m, mb in found if m}


def called(tree):
    """The functions that a piece of MIR names."""
    if isinstance(tree, dict):
        if isinstance(tree.get("Fn"), list):
            yield tree["Fn"][0]
        tree = tree.values()
    elif not isinstance(tree, list):
        return
    for part in tree:
        yield from called(part)


def reached(program, needs):
    """The functions of crates below it that a program reaches: those that it calls, and what these call."""
    ran = subprocess.run(["rt", "check", "--list-calls"], cwd=f"crates/{program}", stdin=subprocess.DEVNULL, capture_output=True, text=True)
    if ran.returncode != 0:
        stop(f"rt check in crates/{program} ended with status {ran.returncode}")
    calls = {}
    for name in below(program, needs):
        calls |= {f: set(called(body)) for f, body in json.loads(of_library(name, "mir.json"))}
    todo = [word for line in ran.stdout.split("\n") if line.startswith(" ") for word in line.split() if word in calls]
    found = set()
    while todo:
        f = todo.pop()
        if f in calls and f not in found:
            found.add(f)
            todo.extend(calls[f])
    return found


def tell_unreached(program, needs):
    functions = reached(program, needs)
    rows = [(mb, f"{c}::{f}") for c in below(program, needs) for f, mb in walks(c).items() if f"{c}::{f}" not in functions]
    print(f"{program} does not reach {len(rows)} functions of crates that it stands on, {sum(mb for mb, _ in rows):.1f} MB of walks")
    for mb, f in sorted(rows, reverse=True):
        print(f"{mb:7.2f} {f}")


def main():
    usage = argparse.ArgumentParser(description=__doc__, formatter_class=argparse.RawDescriptionHelpFormatter)
    usage.add_argument("crates", metavar="CRATE", nargs="*")
    usage.add_argument("--rows", metavar="N", type=int, default=0)
    usage.add_argument("--reach", metavar="PROGRAM")
    asked = usage.parse_args()
    needs = read_crates()
    for name in asked.crates + [asked.reach or "laws"]:
        if name not in needs:
            stop(f"crates.txt has no crate {name}")
    if asked.reach:
        tell_unreached(asked.reach, needs)
        return
    total = 0.0
    for name in asked.crates or filter(is_library, needs):
        own, found = sum(checked(name).values()), walks(name)
        lower = sum(sum(checked(d).values()) for d in below(name, needs))
        total += own
        print(f"{name}: {own:.1f} MB, of them walks {sum(found.values()):.1f}; below it {lower:.1f}")
        for f in sorted(found, key=found.get, reverse=True)[: asked.rows]:
            print(f"{found[f]:7.2f} {f}")
    if len(asked.crates or needs) > 1:
        print(f"in all: {total:.1f} MB")


main()
