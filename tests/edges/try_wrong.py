#!/usr/bin/env python3
"""try_wrong.py FOLDER [--whole] [TEXT..]: apply each wrong definition of tests/edges/wrong.txt to a copy of the definitions and see that
the case that it names no longer computes.

The copies, in FOLDER, have the definitions of laws, recount and model, and of the proofs just the cases that are tried: first, with the
definitions as they are, every case of Edges and those that are named; then for each wrong definition the case that it names, of Edges,
Cases, Examples or ListExamples, the first that has it. Those of Run, Step, Local and Reconcile are tried together, one of each: none of
these files cites another, so no case computes with two of them.
With --whole each is tried alone, every case there is is computed, and its line names all that break. With TEXT only those are tried in
whose first line it stands. A line for each begins with `ok` or `failed`; one of `failed` says why.
RT_JOBS says how many are tried at once; else it is as many as there are processors, four at most."""
import concurrent.futures
import itertools
import os
import re
import shutil
import subprocess
import sys

EDGES = "crates/model/specs/Edges.antt"
CASES = "crates/model/proofs/Cases.antt"
# The tables of cases: where a record is, and where its proof is.
TABLES = {
    "Edges": (EDGES, "crates/model/proofs/Edges.antt", "edges"),
    "Cases": ("crates/model/specs/Cases.antt", CASES, "cases"),
    "Examples": ("crates/model/specs/Cases.antt", CASES, "examples"),
    "ListExamples": ("crates/model/specs/ListCases.antt", CASES, "list_examples"),
}
APART = [f"crates/model/specs/{name}.antt" for name in ("Run", "Step", "Local", "Reconcile")]


def text_of(path):
    with open(path, encoding="utf-8") as f:
        return f.read()


def write(path, text):
    os.makedirs(os.path.dirname(path), exist_ok=True)
    with open(path, "w", encoding="utf-8") as f:
        f.write(text)


def wrong_definitions(path):
    """What each is, its case, and the replacements as file, old text and new text."""
    found = []
    for block in re.split(r"\n\s*\n", text_of(path)):
        told = [line for line in block.split("\n") if line and not line.startswith("#")]
        if not told:
            continue
        case = file = old = None
        pairs = []
        for line in told[1:]:
            key, _, value = line.partition(":")
            value = value.removeprefix(" ")
            if key == "case":
                case = value
            elif key == "file":
                file = value
            elif key == "old":
                old = value
            elif key == "new" and file and old:
                pairs.append((file, old, value))
            else:
                sys.exit(f"{path}: a line of '{told[0]}' is not read: {line}")
        if not case or not pairs:
            sys.exit(f"{path}: '{told[0]}' has no case or no replacement")
        found.append((told[0], case, pairs))
    return found


def fields_of(text, record):
    """The fields of a record, and the lines of each."""
    fields = {}
    name = None
    for line in text[text.index(f"pub record {record} ") :].split("\n")[1:]:
        if line and not line.startswith("  "):
            break
        begins = re.match(r"  pub (\S+) :", line)
        if begins:
            name = begins[1]
            fields[name] = line + "\n"
        elif name and line.startswith("      "):
            fields[name] += line + "\n"
    return fields


def cut(text, start, end, lines):
    """The text with what stands from one place up to the next line that has only this end, or no indent, written anew; gone where there is nothing."""
    at = text.index(start)
    first = text.index("\n", at) + 1
    found = re.compile(end, re.M).search(text, first)
    last = found.end() if found else len(text)
    return text[:at] + (text[at:first] + lines + (found[0] if found else "") if lines else "") + text[last:]


class Tree:
    """A copy of what the cases are computed with."""

    def __init__(self, folder, whole):
        self.folder = folder
        self.whole = whole
        shutil.rmtree(folder, ignore_errors=True)
        write(f"{folder}/crates.txt", "laws:\nrecount: laws\nmodel: laws recount\n")
        for crate in ("laws", "recount", "model"):
            for part in ("src", "specs"):
                shutil.copytree(f"crates/{crate}/{part}", f"{folder}/crates/{crate}/{part}")
            write(f"{folder}/crates/{crate}/proofs/Lib.antt", "-- None.\n")
        write(f"{folder}/crates/model/proofs/Lib.antt", "-- The cases.\npub mod Cases\npub mod Edges\n")
        self.texts = {path: text_of(path) for table in TABLES.values() for path in table[:2]}
        self.fields = {record: fields_of(self.texts[table[0]], record) for record, table in TABLES.items()}

    def table_with(self, case):
        """The first table that has a case."""
        return next((record for record, fields in self.fields.items() if case in fields), None)

    def hold(self, cases):
        """The tables with these cases alone."""
        texts = dict(self.texts)
        for record, (spec, proof, name) in TABLES.items():
            held = [case for case in cases if self.table_with(case) == record]
            if self.whole:
                held = self.fields[record]
            lines = "".join(self.fields[record][case] for case in held)
            answers = "".join(f"  {case} = refl;\n" for case in held)
            texts[spec] = cut(texts[spec], f"pub record {record} ", r"^(?=\S)", lines)
            texts[proof] = cut(texts[proof], f"{name} = record {{", r"^\}$", answers)
            if not held:
                texts[proof] = texts[proof].replace(f"pub {name} : {record}\nunfolding computed\n", "")
                texts[proof] = re.sub(rf"^(use Rattle\.model\.specs\.\w+\.\{{.*)\b{record}\b(, )?(.*\}})", r"\1\3", texts[proof], flags=re.M)
            texts[proof] = re.sub(r"^use .*\.\{\}\n", "", texts[proof].replace(", }", "}"), flags=re.M)
        for path, text in texts.items():
            write(f"{self.folder}/{path}", text)

    def check(self):
        """The cases that do not compute, and what is refused elsewhere."""
        crate = f"{self.folder}/crates/model"
        done = subprocess.run(["rt", "check", "--jobs", "1"], cwd=crate, stdin=subprocess.DEVNULL, capture_output=True, text=True)
        said = done.stdout + done.stderr
        broken, elsewhere = [], []
        for path, line in re.findall(r"^(\.?/[^:\n]*):(\d+):\d+: error", said, flags=re.M):
            path = os.path.normpath(os.path.join(crate, path))
            rows = text_of(path).split("\n") if os.path.exists(path) else []
            at = re.match(r"  (\S+) = refl;", rows[int(line) - 1]) if int(line) <= len(rows) else None
            if at and os.path.dirname(path) == f"{crate}/proofs":
                broken.append(at[1])
            else:
                elsewhere.append(f"{os.path.relpath(path, self.folder)}:{line}")
        if done.returncode and not broken and not elsewhere:
            elsewhere.append(said.strip().split("\n")[-1])
        return broken, elsewhere

    def attempt(self, group):
        """Try wrong definitions together: for each whether its case breaks, and what came of it."""
        self.hold([case for _, case, _ in group])
        before = {}
        try:
            for _, _, pairs in group:
                for file, old, new in pairs:
                    path = f"{self.folder}/{file}"
                    text = text_of(path)
                    if text.count(old) != 1:
                        return [(False, f"a text to replace stands {text.count(old)} times in {file}")] * len(group)
                    before.setdefault(path, text)
                    write(path, text.replace(old, new))
            broken, elsewhere = self.check()
        finally:
            for path, text in before.items():
                write(path, text)
        if elsewhere:
            return [(False, f"it is refused elsewhere: {' '.join(elsewhere)}")] * len(group)
        told = ' '.join(broken) if self.whole else None
        return [(case in broken, f"it breaks {told or case}" if case in broken else f"{case} still computes") for _, case, _ in group]

    def lines(self, group):
        """The lines of some wrong definitions. Where those tried together do not all break their cases, each is tried alone."""
        came = self.attempt(group)
        if len(group) > 1 and not all(ok for ok, _ in came):
            came = [self.attempt([one])[0] for one in group]
        return [f"{'ok' if ok else 'failed'} {one[0]} {what[0].upper()}{what[1:]}." for one, (ok, what) in zip(group, came)]


def grouped(wrong, whole):
    """What is tried together."""
    def file_of(one):
        files = {file for file, _, _ in one[2]}
        return files.pop() if len(files) == 1 else None

    lanes = [[] if whole else [one for one in wrong if file_of(one) == file] for file in APART]
    together = [[one for one in group if one] for group in itertools.zip_longest(*lanes)]
    return together + [[one] for one in wrong if whole or file_of(one) not in APART]


def main():
    folder, *words = sys.argv[1:]
    folder = os.path.abspath(folder)
    os.chdir(os.path.join(os.path.dirname(os.path.abspath(__file__)), "../.."))
    whole = "--whole" in words
    texts = [word for word in words if word != "--whole"]
    wrong = wrong_definitions("tests/edges/wrong.txt")
    workers = int(os.environ.get("RT_JOBS") or min(os.cpu_count() or 1, 4))
    trees = [Tree(f"{folder}/{i}", whole) for i in range(workers)]
    named = {case for _, case, _ in wrong}
    for told, case, _ in wrong:
        if not trees[0].table_with(case):
            sys.exit(f"tests/edges/wrong.txt: '{told}' names {case}, and no table has such a case")
    edges = trees[0].fields["Edges"]
    for case in [case for case in edges if case not in named]:
        print(f"failed No wrong definition breaks {case}.")
    for file in APART:
        for other in APART:
            if re.search(rf"^use .*\.{os.path.basename(other)[:-5]}\.\{{", text_of(file), flags=re.M):
                sys.exit(f"{file} cites {other}: their wrong definitions are not to be tried together")

    groups = grouped([one for one in wrong if not texts or any(text in one[0] for text in texts)], whole)

    def part(i):
        """What one of the workers does: the definitions as they are, and its share of the wrong ones."""
        trees[i].hold(named.union(edges))
        broken, elsewhere = trees[i].check() if i == 0 else ([], [])
        told = " ".join(broken + elsewhere)
        if i == 0:
            print(f"failed The definitions as they are: {told}" if told else "ok The definitions as they are.", flush=True)
        for group in groups[i::workers]:
            print("\n".join(trees[i].lines(group)), flush=True)

    with concurrent.futures.ThreadPoolExecutor(workers) as pool:
        list(pool.map(part, range(workers)))


main()
