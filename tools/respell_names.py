#!/usr/bin/env python3
"""Spells this repository's own definitions, lemmas and fields as today's Rattle does: words in snake case, types and modules in camel case.

usage: python3 tools/respell_names.py [--look] [--table]     at the top, once, after port.py; with --look it only says what falls together;
with --table it first makes the list of names, respelled.tsv beside this file, from the tree as it stands

A name that begins small and has capitals gets underscores: keyCount is key_count. A dash stays where it joins two functions' names, as in
length-overwrite, and is an underscore elsewhere: sum_zero, boxes_in. Names of Rust, of libraries and of goals stay. In comments only what
stands in backticks is turned.
"""
import os
import re
import subprocess
import sys

os.chdir(subprocess.run(["git", "rev-parse", "--show-toplevel"], capture_output=True, text=True).stdout.strip())
LISTED = subprocess.run(["git", "ls-files", "crates"], capture_output=True, text=True).stdout.split("\n")
FILES = [f for f in LISTED if f.endswith((".rt", ".antt")) and os.path.exists(f)]
TEXTS = {f: open(f, encoding="utf-8").read() for f in FILES}
CHAR = r"[^\s(){}\[\];,.\"«»@]"
TOKEN = re.compile(CHAR + "+")
# Lemmas that would have their function's name, in snake case already: each gets _lem, in every .antt file but a function's own proof.
LEMMAS = "all_done each_word first_read first_run first_step no_lines no_value no_words row_fits same_books same_end step_count store_told twice_beside value_in write_read".split()
TABLE = os.path.join(os.path.dirname(os.path.abspath(__file__)), "respelled.tsv")

# Functions of the library that lemmas are named after.
STD = "length replicate append take drop map set sum get_or reverse count".split()
SPECS = "\n".join(t for f, t in TEXTS.items() if "/specs/" in f)
# Names of the code, which its own proofs see as they are.
RUST = {w for f, t in TEXTS.items() if f.endswith(".rt") for w in re.findall(r"\b(?:let(?: mut)?|fn) (\w+)|\b(\w+): ", t) for w in w if w}
USE = re.compile(r"(?m)^ *(?:ghost |pub )*use ([^\s;{]+?)\.?(?:\{([^}]*)\})?(?: as (\S+?))?;?$")
DECLARED = re.compile(r"(?m)^( *)((?:(?:pub|abbrev|unfoldable|open) )*)([^\s:(){}]+(?:, [^\s:(){}]+)*)(?: [({][^\n]*?[)}])*? : ")
RECORD = re.compile(r"(?m)^( *)(?:pub |abbrev |unfoldable )*(record|data) (\S+)")


def camel(part):
    """Words in snake case."""
    if re.fullmatch(r"[a-z][a-z0-9]*(?:[A-Z][a-z0-9]*)+", part):
        return re.sub(r"(?<=[a-z0-9])[A-Z]", lambda m: "_" + m[0].lower(), part)
    return part


def imported():
    """Names that some file imports from a library, and the own ones by their new names."""
    found = set()
    for text in TEXTS.values():
        for path, names, other in USE.findall(text):
            if path.startswith("Rattle.") and not path.startswith("Rattle.std."):
                continue
            found |= {n.split(" as ")[0].strip() for n in names.split(",")}
    return found - {""}


FOREIGN = imported()


def declared():
    """Own names: of definitions and fields in specs/ and records, and of lemmas."""
    words, lemmas = set(), set()
    for f, text in TEXTS.items():
        if not f.endswith(".antt"):
            continue
        inside = None  # the indent of a record's head
        for line in text.split("\n"):
            head = RECORD.match(line)
            if head:
                inside = len(head[1])
                continue
            it = DECLARED.match(line + " ")
            if not it:
                if line.strip() and inside is not None and len(line) - len(line.lstrip()) <= inside:
                    inside = None
                continue
            names = it[3].split(", ")
            if re.search(r" : tie\.(Need|invariant|decreases)", line):
                continue
            indent = len(it[1])
            if inside is not None and indent <= inside:
                inside = None
            if inside is not None or "/specs/" in f or "abbrev" in it[2]:
                words |= set(names)
            else:
                lemmas |= set(names)
    return words, lemmas


def table():
    foreign = imported()
    words, lemmas = declared()
    functions = {w for w in words | foreign if len(w) > 3 and re.search(rf"(?m)^(?:unfoldable |abbrev )?(?:pub )?{re.escape(w)} : ", SPECS) or w in STD}
    turned = {}
    for name in words | lemmas:
        if name in foreign or not re.match(r"[a-z]", name):
            continue
        parts = name.split("-")
        if name in words or name.endswith("-spec"):
            new = "_".join(camel(p) for p in parts)
        else:
            new = camel(parts[0])
            for a, b in zip(parts, parts[1:]):
                joins = a in functions and b in functions and name not in words
                new += ("-" if joins else "_") + camel(b)
        if new != name:
            turned[name] = new
    # every other camel-case name that is no library's: locals
    for text in TEXTS.values():
        for t in TOKEN.findall(text):
            if t not in turned and t not in foreign and re.fullmatch(r"[a-z][a-z0-9]*(?:[A-Z][a-z0-9]*)+['₀-₉]*", t):
                turned[t] = re.sub(r"[a-zA-Z0-9]+", lambda m: camel(m[0]), t)
    # two names that would fall together, or one that would meet a definition: the one with a dash gets _lem
    met = {}
    for old, new in turned.items():
        met.setdefault(new, []).append(old)
    for new, olds in met.items():
        if len(olds) > 1 or new in words:
            for old in olds:
                if "-" in old:
                    turned[old] = new + "_lem"
    return turned, words, lemmas, foreign


def pieces(f, text):
    """The text cut into code and what is left alone: comments, and strings of Rust."""
    mark = r"//[^\n]*" if f.endswith(".rt") else r"(?<![^\s])--[^\n]*"
    quoted = r'|b?"(?:[^"\\\n]|\\.)*"' if f.endswith(".rt") else ""
    at = 0
    for it in re.finditer(mark + quoted, text):
        yield True, text[at : it.start()]
        yield False, it[0]
        at = it.end()
    yield True, text[at:]


def respell(f, text, turned):
    own = f.endswith("/Proof.antt")
    loose = f.endswith(".antt") and "/proofs/" in f and not f.endswith("/Proof.antt")

    def word(m):
        if loose and m[0] in LEMMAS and not re.match(r"use Rattle\.[^{]*$", m.string[m.string.rfind("\n", 0, m.start()) + 1 : m.end()]):
            return m[0] + "_lem"
        plain = m[0].replace("-", "_")
        if own and plain in RUST and m[0] not in FOREIGN and (m.string[m.start() - 1 : m.start()] == "." or m[0] not in turned):
            return plain
        return turned.get(m[0], m[0])

    out = []
    for code, part in pieces(f, text):
        if code:
            out.append(TOKEN.sub(word, part))
        else:
            out.append(re.sub(r"`[^`]*`", lambda m: TOKEN.sub(word, m[0].replace("`", " ` ")).replace(" ` ", "`"), part) if not part.startswith(('"', 'b"')) else part)
    return "".join(out)


def main():
    if "--table" in sys.argv:
        turned, words, lemmas, foreign = table()
        with open(TABLE, "w", encoding="utf-8") as out:
            out.writelines(f"{old}\t{new}\n" for old, new in sorted(turned.items()))
    with open(TABLE, encoding="utf-8") as it:
        turned = dict(line.rstrip("\n").split("\t") for line in it)
    tokens = {}
    for f, text in TEXTS.items():
        for code, part in pieces(f, text):
            if code:
                for t in set(TOKEN.findall(part)):
                    tokens.setdefault(t, set()).add(f)
    met = {}
    for old, new in sorted(turned.items()):
        together = tokens.get(new, set()) & tokens.get(old, set())
        if together:
            print(f"meets: {old} {new} in {sorted(together)[:2]}")
        met.setdefault(new, []).append(old)
    for new, olds in met.items():
        if len(olds) > 1:
            print("together:", new, olds)
    if "--look" in sys.argv:
        return
    for f, text in TEXTS.items():
        new = respell(f, text, turned)
        if new != text:
            open(f, "w", encoding="utf-8").write(new)
    print(len(turned), "names turned")


main()
