#!/usr/bin/env python3
"""Counts older forms in crates/*/src, by the points of docs/DESIGN-PASS.md.

usage: python3 tools/forms.py [REV] [--list POINT]

REV is a commit; with none, the files as they stand. --list prints the places of one point, one a line.
"""
import collections
import re
import subprocess
import sys

TABLES = ("price offer_owner grocer_owner tally_grocer tally_box tally_offer tally_count tally_bag tally_revision "
          "known price_transit working total_transit statement done sent standing "
          "offer_code offer_issuer tally_code tally_issuer line_offer line_rate line_value").split()


def sources(rev):
    """The name and text of each source file."""
    if rev is None:
        names = subprocess.run(["git", "ls-files", "-co", "--exclude-standard", "crates/*/src/*.rt"],
                               capture_output=True, text=True, check=True).stdout.split()
        for name in names:
            try:
                yield name, open(name, encoding="utf-8").read()
            except FileNotFoundError:
                continue
        return
    names = subprocess.run(["git", "ls-tree", "-r", "--name-only", rev, "crates"],
                           capture_output=True, text=True, check=True).stdout.split()
    for name in names:
        if re.fullmatch(r"crates/[^/]+/src/.*\.rt", name):
            yield name, subprocess.run(["git", "show", f"{rev}:{name}"], capture_output=True, text=True, check=True).stdout


def functions(text):
    """Each function of a file: its name, head (parameters, result, clauses) and body."""
    for m in re.finditer(r"^( *)(?:pub(?:\(crate\))? )?(?:extern \"C\" )?fn (\w+)", text, re.M):
        indent = m.group(1)
        end = re.compile(rf"^{indent}\}}", re.M).search(text, m.end())
        whole = text[m.start():end.end() if end else len(text)]
        opened = re.search(rf"(?:^{indent}\{{\n|\{{\n)", whole, re.M)
        cut = re.search(rf"^{indent}\{{$", whole, re.M)
        cut = cut.start() if cut else (opened.start() if opened else len(whole))
        yield m.group(2), whole[:cut], whole[cut:]


def head_parts(head):
    """The parameters and the result of a function's head."""
    i = head.index("(") if "(" in head else 0
    depth, j = 0, i
    while j < len(head):
        depth += head[j] == "("
        depth -= head[j] == ")"
        if depth == 0:
            break
        j += 1
    params = re.findall(r"(?:^|[(,]\s*)(?:mut )?(\w+): ([^,]+(?:\[[^\]]*\])?)", head[i:j])
    result = re.match(r"\)\s*->\s*([^\n{]+)", head[j:])
    return params, result.group(1).strip() if result else ""


def comment_before(text, head):
    """The comment in front of a function."""
    at = text.index(head)
    lines = text[:at].rstrip("\n").split("\n")
    out = []
    while lines and lines[-1].strip().startswith(("//", "#[")):
        out.append(lines.pop().strip())
    return " ".join(reversed(out))


def shape(body):
    """A body without types, names and constants: twins have one shape."""
    body = re.sub(r"//[^\n]*", "", body)
    body = re.sub(r"\b(u8|u16|u32|u64|i32|i64|f64|usize)\b", "T", body)
    body = re.sub(r"\b\d[\d_]*(?:u8|u16|u32|u64|i32|i64|usize)?(?:\.\d+)?\b", "N", body)
    body = re.sub(r"\b[A-Z][A-Z0-9_]+\b", "N", body)
    words = {}
    keep = {"if", "else", "while", "for", "in", "let", "mut", "return", "match", "as", "true", "false", "T", "N", "Ok", "Err", "Some", "None"}

    def name(m):
        w = m.group(0)
        return w if w in keep else words.setdefault(w, f"v{len(words)}")
    return re.sub(r"\s+", " ", re.sub(r"\b[a-zA-Z_]\w*\b", name, body)).strip()


def places(rev):
    """The places of each point, as file:function."""
    found = collections.defaultdict(list)
    shapes = collections.defaultdict(list)
    clauses = collections.defaultdict(list)
    for name, text in sources(rev):
        short = name.replace("crates/", "").replace("/src/", ":")
        for m in re.finditer(r"enum (\w+) \{(.*?)^\}", text, re.S | re.M):
            if re.search(r"Refused\(|Failed\(|None\b", m.group(2)):
                found["1 enums like Result"].append(f"{short}:{m.group(1)}")
        for fn, head, body in functions(text):
            place = f"{short}:{fn}"
            params, result = head_parts(head)
            note = comment_before(text, head)
            if re.search(r"\bu16\b", result) and (re.search(r"refus|or 0\b|number of the first|first of the conditions", note, re.I)
                                                  or re.search(r"\bErr\b|refus", fn)):
                found["1 numbers for refusals"].append(place)
            if re.search(r"\bmet\b|\bnumber: u16", head) or result in ("Judged",):
                found["1 a number beside a value"].append(place)
            for p, t in params:
                if p == "kind":
                    found["1 numbers for kinds"].append(place)
            if re.search(r"usize|u16", result) and re.search(r", or (?:n|N|16|T)\b", note):
                found["1 a sentinel for none"].append(place)
            for m in re.finditer(r"\bwhile ([^\n{]*)\{", body):
                if not m.group(1).startswith("let "):
                    counted = re.search(r"^\s*\w+ \+= 1;|^\s*\w+ -= 1;", body, re.M) or "next" in body
                    found["3 while loops with an index" if counted else "3 other while loops"].append(place)
            for m in re.finditer(r"\bfor (\w+) in [^\n{]*\.\.[^\n{]*\{", body):
                if re.search(rf"\[{m.group(1)}\]", body):
                    found["3 for loops that index a slice"].append(place)
            if re.fullmatch(r"eq|ne|cmp|copy|clone|fmt|index_of|word_of|byte_size|signed", fn) and "impl" not in text[:text.index(head)][-200:]:
                found["4 copies, casts and orders by hand"].append(place)
            group = [p for p, _ in params if p in TABLES]
            if len(group) >= 4:
                found["5 four or more tables side by side"].append(place)
            if len(params) > 14:
                found["5 more than 14 parameters"].append(place)
            for c in re.findall(r"(?:requires|ensures)(?: \w+)? \{ (.*?) \}\n", head + "\n", re.S):
                c = re.sub(r"\s+", " ", c)
                if len(c) > 60:
                    clauses[c].append(place)
            if [p for p, t in params if p in ("len", "count", "n") and any("[" in u for _, u in params)]:
                found["6 a table with a length beside it"].append(place)
            if re.search(r"match kind|if kind ==|kind == \d", body):
                found["7 switches on a kind"].append(place)
            if body.count("\n") > 4:
                shapes[shape(body)].append(place)
    for group in shapes.values():
        if len(group) > 1:
            found["2 functions of one shape"] += group
    for c, group in clauses.items():
        if len(group) >= 3:
            found["5 a clause of three or more functions"].append(f"{c[:60]}.. in {len(group)}")
    return found


def main():
    args = sys.argv[1:]
    point = None
    if "--list" in args:
        i = args.index("--list")
        point = args[i + 1]
        del args[i:i + 2]
    found = places(args[0] if args else None)
    for key in sorted(found):
        if point is None:
            print(f"{len(found[key]):4d}  {key}")
        elif key.startswith(point):
            for place in found[key]:
                print(f"{key[2:]}: {place}")


if __name__ == "__main__":
    main()
