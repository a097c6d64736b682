#!/usr/bin/env python3
"""evening.py: the rows of the table of docs/EVENING.md that are not those of crates/model/specs/Evening.antt, a line each."""
import re

FIELD = re.compile(r"pub (prices|amounts)_(\d+) : .* ≡ (.*) ∷ \[\]")


def word(text):
    kind, _, digits = text.strip().rpartition(" ")
    n = int(digits.replace("_", ""))
    return -n - 1 if kind == "negsuc" else n


def cell(words):
    return ", ".join(str(w).replace("-", "−") for w in words)


def row(n, prices, amounts):
    """What the boxes hold after n steps: known, on the way, working, totals on the way from box 0, statements, their sum, words sent.

    Totals lie packed: of box 0 grocers 1 and 0, of box 1 grocer 0."""
    working, transit, statement = amounts[:3], amounts[3:6], amounts[6:]
    together = [working[1] + working[2] + transit[1] + transit[2] + statement[0], working[0] + transit[0] + statement[1]]
    cells = [prices[:2], prices[2:4], prices[4:6], prices[6:8], working[:2], working[2:], transit[:2], statement, together]
    return f"| {n} | " + " | ".join(map(cell, cells)) + f" | {prices[8]} |"


def main():
    held = {}
    for name, n, body in FIELD.findall(open("crates/model/specs/Evening.antt", encoding="utf-8").read()):
        held.setdefault(int(n), {})[name] = [word(w) for w in body.split("∷")]
    lines = set(open("docs/EVENING.md", encoding="utf-8").read().split("\n"))
    if len(held) != 11:
        print(f"crates/model/specs/Evening.antt has {len(held)} states, not 11")
    for n in sorted(held):
        due = row(n, held[n]["prices"], held[n]["amounts"])
        if due not in lines:
            print(f"docs/EVENING.md has no row '{due}'")


main()
