#!/usr/bin/env python3
"""What each program and archive of crates.txt assumes of the C library, with the libraries in it: the functions of C whose contracts its
proof takes as they are written.

python3 tools/axioms.py [LOG]: with LOG, from what .ci/run or rt ci printed, of what was proved in that run; else `rt check --list-axioms`
is asked in the folder of each, which takes seconds where it was checked before."""
import re
import subprocess
import sys
from pathlib import Path

root = Path(__file__).resolve().parent.parent
listed = re.findall(r"^(\w+)( staticlib)?:", (root / "crates.txt").read_text(), re.M)
names = [name for name, archive in listed if archive or (root / "crates" / name / "src" / "main.rt").exists()]


def said_of_log(path):
    """What a log says of each crate, from its heading to the next."""
    parts = re.split(r"^== (\w+)$", Path(path).read_text(errors="replace"), flags=re.M)
    return dict(zip(parts[1::2], parts[2::2]))


def asked(name):
    done = subprocess.run(["rt", "check", "--list-axioms"], cwd=root / "crates" / name, stdin=subprocess.DEVNULL, capture_output=True, text=True)
    return done.stdout + done.stderr


if len(sys.argv) > 2 or sys.argv[1:] in (["-h"], ["--help"]):
    sys.exit(__doc__)
told = said_of_log(sys.argv[1]) if sys.argv[1:] else None
nothing, missing = [], []
for name in names:
    text = told.get(name, "") if told is not None else asked(name)
    if re.findall(r"^logic=\S+", text, re.M)[-1:] != ["logic=proved"]:  # the crate's own comes last
        missing.append(name)
        continue
    found = []
    for head, body in re.findall(r"^axioms (.*)\n((?: .*\n)*)", text, re.M):
        if ": none reached" in head or re.match(r"\w+: 0 reached", head):
            continue
        reached = [line.split()[0] for line in body.split("\n") if line.endswith(" reached")]
        found.append(f"{head.split(':')[0]}: {', '.join(reached)}" if reached else head)
    if found:
        print(f"{name}: {'; '.join(found)}")
    else:
        nothing.append(name)
if nothing:
    print("nothing: " + ", ".join(nothing))
if missing:
    print("not proved, or not in the log: " + ", ".join(missing))
