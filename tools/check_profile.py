#!/usr/bin/env python3
"""Prints the processor seconds of checks, by crate, by part and by function: python3 tools/check_profile.py [--rows N] [CRATE..]

Each crate named, or every one of crates.txt, is checked from nothing, alone, by one job and into a folder of its own, against the
libraries that stand in crates/*/out/rlib: run rt check in its folder before. A crate's line is its processor seconds and their parts:
  walk            the generated walk of each function
  proof           the proofs of its functions, written by hand or made
  contract        what is generated from code and contracts, and what links them
  laws and specs  its definitions, and the lemmas of proofs/
  rest            before the first module and after the last: the code is read, libraries are loaded
Under it stand the N dearest functions (12, or 0 for none), files of proofs/ that are no function's among them. The line of a
crate is what the whole process took. The time of a module is what passed until its file appeared, seen every 0.03 s.
Other work on the machine moves the figures by up to a half: compare within one sitting."""
import argparse
import collections
import os
import re
import subprocess
import sys
import tempfile
import time

sys.dont_write_bytecode = True
from crates import read_crates  # it goes to the root of the tree

WALK = ("Lts", "View", "Given", "Tie")
PROOF = ("Proof", "Goals", "Answers", "Invariants", "Met", "Layout")
PARTS = dict.fromkeys(WALK, "walk") | dict.fromkeys(PROOF, "proof")
CONTRACT = {"Key", "Code", "Mir", "Symbol", "Kinds", "Statement", "Reads", "TheLink", "TheLinks"}
PAUSE = 0.03


def stop(text):
    sys.exit("check_profile.py: " + text)


def kit_folder():
    try:
        return os.path.dirname(subprocess.check_output(["rt", "doc"], text=True).strip())
    except OSError:
        stop("rt, the command of the Rattle kit, is not on the path")


def library_of(name, kit):
    """The folder of a library of this tree, or of the kit."""
    if not os.path.isdir("crates/" + name):
        return f"{kit}/rlibs/{name}.rlib"
    path = f"{os.getcwd()}/crates/{name}/out/rlib/{name}.rlib"
    if not os.path.exists(path):
        stop(f"{path} is not there: run rt check in the folder of a crate above {name}")
    return path


def check_command(name, needs, work):
    """The command with which rt checks a crate, over the folder work; it runs in the crate's folder."""
    kit = kit_folder()
    sources = [f for f in ("src/main.rt", "src/lib.rt") if os.path.exists(f"crates/{name}/{f}")]
    words = [kit + "/bin/rattle", "check", "--crate-name", name, sources[0]]
    for d in ["std"] + needs[name]:
        words += ["--extern", f"{d}={library_of(d, kit)}"]
    for d in needs:
        words += ["-L", f"dependency={os.getcwd()}/crates/{d}/out/rlib"]
    if re.search(rf"(?m)^{name} staticlib:", open("crates.txt", encoding="utf-8").read()):
        words += ["--crate-type", "staticlib"]
    return words + ["-L", f"dependency={kit}/rlibs", "--logic-built", kit + "/logic_built", "--links", f"{name}=",
                    "--antt-project", kit + "/rattle/logic/antt-project.json", "--incremental", work]


def processor_seconds(process):
    """Of a process that runs and those that it waited for, so far; of one that has ended but is not waited for, in all."""
    with open(f"/proc/{process.pid}/stat", encoding="utf-8") as stat:
        fields = stat.read().rsplit(")", 1)[1].split()
    return sum(map(int, fields[11:15])) / os.sysconf("SC_CLK_TCK")


def ended(process):
    """Whether a process has ended; it is left to be waited for, so that its times can still be read."""
    return os.waitid(os.P_PID, process.pid, os.WEXITED | os.WNOHANG | os.WNOWAIT) is not None


def watch(process, work):
    """The processor seconds at which the file of each module appears, in their order, and those of the whole."""
    seen, events = set(), []
    while True:
        over, now = ended(process), processor_seconds(process)
        for _, _, files in os.walk(work):
            for f in files:
                module = re.sub(r"(\.decls)?\.oantt$", "", f)
                if module != f and module not in seen:
                    seen.add(module)
                    events.append((now, module))
        if over:
            return events, now
        time.sleep(PAUSE)


def checked(name, needs):
    """The events of one check and its processor seconds; what the check said, where it was not proved, ends the tool."""
    with tempfile.TemporaryDirectory() as work, tempfile.TemporaryFile() as log:
        process = subprocess.Popen(check_command(name, needs, work), cwd=f"crates/{name}", stdin=subprocess.DEVNULL, stdout=log, stderr=log)
        events, whole = watch(process, work)
        status = process.wait()
        log.seek(0)
        said = log.read().decode(errors="replace").strip().split("\n")[-1]
        if status != 0 or "logic=proved" not in said:
            stop(f"{name} is not proved (status {status}), rt check in crates/{name} says why; here: {said[:300]}")
        return events, whole


def sorted_out(events, whole):
    """The seconds of each part, and of each part of each function."""
    parts, functions = collections.Counter(), collections.defaultdict(collections.Counter)
    first = last = events[0][0] if events else 0.0
    for now, module in events:
        spent, last = now - last, now
        kind = module.split(".")[-1]
        part = PARTS.get(kind, "contract" if kind in CONTRACT else "laws and specs")
        parts[part] += spent
        if "-proofs." in module:
            words = module.split("-proofs.")[1].split(".")
            functions[".".join(w for w in words if w not in PARTS and w not in CONTRACT)][part] += spent
    parts["rest"] = whole - (last - first)
    return parts, functions


def told(parts):
    return ", ".join(f"{part} {seconds:.1f}" for part, seconds in parts.most_common() if seconds >= 0.05)


def dearest(functions, rows):
    """The functions that took longest, each with its seconds, those of next to nothing left out."""
    seconds = collections.Counter({f: functions[f].total() for f in functions})
    return [(f, s) for f, s in seconds.most_common(rows) if s >= 0.05]


def main():
    usage = argparse.ArgumentParser(description=__doc__, formatter_class=argparse.RawDescriptionHelpFormatter)
    usage.add_argument("crates", metavar="CRATE", nargs="*")
    usage.add_argument("--rows", metavar="N", type=int, default=12)
    asked = usage.parse_args()
    needs = read_crates()
    for name in asked.crates:
        if name not in needs:
            stop(f"crates.txt has no crate {name}")
    if asked.rows < 0:
        stop("--rows is 0 or more")
    total = 0.0
    for name in asked.crates or needs:
        events, whole = checked(name, needs)
        parts, functions = sorted_out(events, whole)
        total += whole
        print(f"{name}: {whole:.1f} s of processor ({told(parts)})")
        for f, seconds in dearest(functions, asked.rows):
            print(f"{seconds:7.1f} {f:28} {told(functions[f])}", flush=True)
    if len(asked.crates or needs) > 1:
        print(f"in all: {total:.1f} s of processor")


main()
