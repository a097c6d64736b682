#!/usr/bin/env python3
"""contracts.py: each function of every crate's src/ with its parameters, result, requires and ensures, without comments, in one layout.
contracts.py REV: what differs from the git revision REV, which is not checked out: functions that stand in one of both alone, or whose
signature or contract is another, and files of definitions (crates/*/specs/*.antt) that differ in more than comments and white space.
Private functions are told and are no difference. A revision of before the crates were renamed is read with the names of today, by the
table "Was | Is" of docs/CHANGES.md. Of a revision in an older Rattle's spelling (docs/PORT.md) functions are compared by name, parameters and
result alone, and neither clauses nor definitions. Exit status 1 where a public function or a file of definitions differs."""
import difflib
import os
import re
import subprocess
import sys

os.chdir(os.path.join(os.path.dirname(os.path.abspath(__file__)), ".."))
FILES = re.compile(r"crates/(\w+)/(src/.*\.rt|specs/.*\.antt)")
CLAUSE = re.compile(r"\s*(ghost|requires|ensures|decreases)\*?(?: \w+)?\s*(?=\{)")


def git(*words):
    return subprocess.run(["git", *words], capture_output=True, text=True, encoding="utf-8")


def present():
    """The files of the tree as they are now, by path."""
    paths = (os.path.join(folder, name) for folder, _, names in os.walk("crates") for name in names)
    return {p: open(p, encoding="utf-8").read() for p in paths if FILES.fullmatch(p)}


def of_revision(commit):
    """The files of a commit, by path."""
    paths = [p for p in git("ls-tree", "-r", "--name-only", commit, "crates").stdout.split("\n") if FILES.fullmatch(p)]
    asked = "".join(f"{commit}:{p}\n" for p in paths).encode()
    data = subprocess.run(["git", "cat-file", "--batch"], input=asked, capture_output=True, check=True).stdout
    files, at = {}, 0
    for p in paths:
        start = data.index(b"\n", at) + 1
        end = start + int(data[at:start].split()[2])
        files[p], at = data[start:end].decode("utf-8"), end + 1
    return files


def renamed(files):
    """The files of a revision with the names of crates of today, and the module of the book as part of its crate."""
    rows = re.findall(r"^\| (\w.*?) \|$", open("docs/CHANGES.md", encoding="utf-8").read().split("| Was | Is |")[-1], flags=re.M)
    cells = [c.strip() for row in rows for c in row.split("|")]
    names = {was: now for was, now in zip(cells[::2], cells[1::2]) if was and re.fullmatch(r"\w+", was) and re.fullmatch(r"\w+", now)}
    had = {p.split("/")[1] for p in files}
    names = {was: now for was, now in names.items() if was in had and (now not in had or now in names)}
    if not names:
        return files
    any_name = "|".join(sorted(names, key=len, reverse=True))
    use = re.compile(rf"(?<=Rattle·)({any_name})(?=[·.])|(?<![\w.:])({any_name})(?=::)")
    out = {}
    for path, text in files.items():
        crate = path.split("/")[1]
        path = path.replace(f"crates/{crate}/", f"crates/{names.get(crate, crate)}/")
        out[path] = use.sub(lambda m: names[m.group()], text).replace("book::book::", "book::")
    return out


def one_line(text):
    """White space as one blank, none inside of brackets, and no comma behind the last of a list."""
    text = re.sub(r"\s+", " ", text).strip()
    text = re.sub(r"([(\[]) ", r"\1", text)
    return re.sub(r",? ([)\]])", r"\1", text)


def block_end(text, at, opening, closing):
    """Where the block ends whose opening bracket stands at a place."""
    depth = 0
    for i in range(at, len(text)):
        depth += (text[i] == opening) - (text[i] == closing)
        if depth == 0:
            return i + 1
    sys.exit(f"contracts.py: a block does not end: {text[at:at + 80]}")


def plain_code(text):
    """The code without comments, and without brackets in its strings."""
    literal = r"//[^\n]*|b?\"(?:\\.|[^\"\\])*\"|b'(?:\\.|[^\\])'"
    return re.sub(literal, lambda m: "" if m.group().startswith("//") else re.sub(r"[(){}\[\]]", " ", m.group()), text)


def functions(path, text):
    """Each function of a file: its name with crate and module, whether it is public, the lines of its contract, and its body."""
    crate, inside = FILES.fullmatch(path).groups()
    modules = [m for m in inside[len("src/"):-len(".rt")].split("/") if m not in ("lib", "main")]
    text = plain_code(text)
    for f in re.finditer(r"((?:\bpub )?(?:extern \"C\" )?)\bfn (\w+)(?:<[^>]*>)?(?=\()", text):
        at = block_end(text, f.end(), "(", ")")
        head = re.compile(r"(?=\{|\b(?:ghost|requires|ensures|decreases)\*?(?: \w+)?\s*\{)").search(text, at).start()
        lines, at = [one_line(text[f.start():head])], head
        while clause := CLAUSE.match(text, at):
            at = block_end(text, clause.end(), "{", "}")
            if clause.group(1) in ("requires", "ensures"):
                lines.append(one_line(text[clause.start():at]))
        body = text[at:block_end(text, text.index("{", at), "{", "}")]
        yield "::".join([crate, *modules, f.group(2)]), f.group(1).startswith("pub"), lines, body


def contracts(files):
    """The functions of all files in order: crates as in crates.txt, and in each first src/lib.rt or src/main.rt."""
    listed = re.findall(r"(?m)^(\w+)[^:#\n]*:", open("crates.txt", encoding="utf-8").read())
    place = {crate: i for i, crate in enumerate(listed)}
    found = {}
    paths = [p for p in files if p.endswith(".rt")]
    for p in sorted(paths, key=lambda p: (place.get(p.split("/")[1], len(place)), not re.search(r"/(lib|main)\.rt$", p), p)):
        for name, public, lines, _ in functions(p, files[p]):
            found[name] = public, lines
    return found


def definitions(text):
    """The lines of a file of definitions without comments, each with its white space as one blank."""
    lines = (re.sub(r"\s+", " ", re.sub(r"(^|\s)--(\s.*|$)", "", line)).strip() for line in text.split("\n"))
    return [line for line in lines if line]


def tell(name, before, after):
    """What differs between two lists of lines; one of them may be missing."""
    if before is None or after is None:
        print(f"{name}: {'new' if before is None else 'gone'}")
        return
    print(f"{name}: differs")
    for line in difflib.ndiff(before, after):
        if line[0] in "-+":
            print(f"    {line}")


def is_older(files):
    """Whether files have an older Rattle's spelling."""
    return any(re.search(r"^(ghost )?use Rattle·", text, re.M) for text in files.values())


def compare(then, here):
    """Tells all differences; how many there are of public functions and files of definitions."""
    older = is_older(then)
    a, b = contracts(renamed(then)), contracts(here)
    differ = equal = files = 0
    if older:
        print("That revision has an older Rattle's spelling: names, parameters and results are compared, neither clauses nor definitions.")
        a, b = ({name: (public, lines[:1]) for name, (public, lines) in of.items()} for of in (a, b))
        then, here = ({p: text for p, text in files.items() if p.endswith(".rt")} for files in (then, here))
    for name in [*b, *(n for n in a if n not in b)]:
        before, after = a.get(name), b.get(name)
        if before == after:
            equal += 1
            continue
        public = any(f and f[0] for f in (before, after))
        tell(f"{'public' if public else 'private'} {name}", before and before[1], after and after[1])
        differ += public
    then = renamed(then)
    for path in sorted(p for p in {*then, *here} if p.endswith(".antt")):
        before, after = (definitions(files[path]) if path in files else None for files in (then, here))
        if before is not None and after is not None and " ".join(before) == " ".join(after):
            files += 1
            continue
        tell(path, before, after)
        differ += 1
    print(f"{differ} differ" if differ else f"{equal} contracts and {files} files of definitions are equal")
    return differ


def main(words):
    if len(words) > 1 or words[:1] in (["-h"], ["--help"]):
        sys.exit(__doc__)
    if not words:
        for name, (_, lines) in contracts(present()).items():
            print(name, *lines, sep="\n    ", end="\n\n")
        return
    commit = git("rev-parse", "--verify", "--quiet", "--end-of-options", f"{words[0]}^{{commit}}").stdout.strip()
    if not commit:
        print(f"contracts.py: git knows no revision {words[0]}", file=sys.stderr)
        sys.exit(2)
    sys.exit(1 if compare(of_revision(commit), present()) else 0)


if __name__ == "__main__":
    main(sys.argv[1:])
