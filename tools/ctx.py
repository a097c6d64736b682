#!/usr/bin/env python3
"""The goal at each hole `?` of a proof, short: in the crate's folder, rt check --allow-holes | python3 ../../tools/ctx.py

For each hole its place in the file, the goal without the paths of its names, and what it is given: the names by step, and the newest
fields with their types, as the check tells them. Put `?` where an answer, or a part of one, is to stand."""
import re
import sys


def short(text):
    """A term without the paths of its names, and with lists of bytes as strings."""
    text = re.sub(r"\b(?:[a-zA-Z_·]\w*\.)+(?=[^\s.])", lambda m: "" if m[0][0].isupper() else m[0], text)
    text = re.sub(r"(\d+(?: ∷ \d+)+) ∷ \[\]", lambda m: '"%s"' % "".join(chr(int(x)) for x in m[1].split(" ∷ ")), text)
    return re.sub(r"\s+", " ", text).strip()


def main():
    lines = sys.stdin.read().split("\n")
    i = 0
    while i < len(lines):
        if not re.search(r"goal \?\S* in", lines[i]):
            i += 1
            continue
        print(lines[i].removeprefix("./"))
        i += 1
        part, text = "given", []
        while i < len(lines) and lines[i].startswith("  "):
            line = lines[i].strip()
            head = {"⊢": "goal", "names you can use": "names", "the newest fields": "types"}
            new = next((name for word, name in head.items() if line.startswith(word)), None)
            if new:
                tell(part, text)
                part, text = new, [line[1:]] if new == "goal" else []
            else:
                text.append(line)
            i += 1
        tell(part, text)


def tell(part, text):
    if part == "goal":
        print("  goal ", short(" ".join(text))[:600])
    else:
        for line in text:
            print("       ", short(line)[:200])


main()
