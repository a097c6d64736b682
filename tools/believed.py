#!/usr/bin/env python3
"""believed.py: how many lines of definitions a reader must believe, by crate, and in all.

Counted are the lines of specs/ that docs/READING.md lists under its first nine headings (the words, the settlement, the forecast, the job
file, late bags, what is printed, the store of thirteen cycles, the calls' answers, the calls for C) and, as statements, under "The demands, in one place"; not counted are empty lines, comments and `use` lines."""
import os
import re
import sys

os.chdir(os.path.join(os.path.dirname(os.path.abspath(__file__)), ".."))


def lines(path):
    with open(path, encoding="utf-8") as f:
        return sum(1 for l in f if l.strip() and not re.match(r"\s*(--|use |pub mod )", l))


text = open("docs/READING.md", encoding="utf-8").read()
parts = re.split(r"^## ", text, flags=re.M)
names = {
    "Words that the definitions are written with",
    "The settlement",
    "The forecast in doubles",
    "The job file",
    "What is printed",
    "The store of thirteen cycles",
    "The answers of the calls",
    "The calls for C",
}
demands = "The demands, in one place"
files = []
statements = 0
for part in parts:
    heading = part.split("\n", 1)[0]
    if heading in names or heading == demands:
        new = [p for p in re.findall(r"^\| (crates/[\w/]+\.antt) \|", part, flags=re.M) if p not in files]
        files += new
        if heading == demands:
            statements += sum(map(lines, new))
by_crate = {}
for path in files:
    crate = path.split("/")[1]
    by_crate[crate] = by_crate.get(crate, 0) + lines(path)
for crate, n in by_crate.items():
    print(f"{crate} {n}")
print(f"definitions {sum(by_crate.values()) - statements}")
print(f"statements {statements}")
if not files:
    sys.exit("docs/READING.md lists no file under these headings")
