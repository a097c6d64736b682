#!/usr/bin/env python3
"""map.py > docs/MAP.md: the map of the crates, from crates.txt and the first line of each crate's code. tests/docs asks that it is current.

The two walks and the table of refusals name functions, definitions and proofs; a name that its file does not have ends the tool.
"""
import glob
import os
import re
import sys

import crates

# The way of a file's bytes to the lines: crate, file in src/, functions in the order in which they are called, what they do.
FILE_WALK = [
    ("settle", "main.rt", ["main"], "a file by its name, or standard input"),
    ("settle", "input.rt", ["read_input", "settled_input"], "reads as much as the longest file has and a byte more; what is printed is that of the whole input"),
    ("settle", "statements.rt", ["settled", "put_job"], "from the bytes to the lines, whatever the bytes are"),
    ("file_blocks", "file.rt", ["file_refusal"], "1 to 9, in their order"),
    ("file_blocks", "shape.rt", ["shape_refusal", "header_refusal", "blocks_refusal"], "1, then the header, then each other block"),
    ("file_blocks", "look.rt", ["names_refusal"], "7 and 8: the offers are sorted by number, and each tally's is looked up"),
    ("file_blocks", "twice.rt", ["job_refusal"], "9: the counts of bags are sorted by their keys"),
    ("file_blocks", "tables.rt", ["fill_offers", "fill_tallies"], "the tables of a run, the prices of all lists among them, filled from the accepted file, for settle and the reader alike"),
    ("file_blocks", "standing.rt", ["standing_boxes"], "which tallies stand"),
    ("settle", "due.rt", ["due_run"], "the steps that the job has, in the order of a run without choices"),
    ("run_steps", "lib.rt", ["all_steps"], "a fresh state, what the steps look up, and then the steps in their order; words and messages are counted"),
    ("run_fresh", "lib.rt", ["fresh_prices", "fresh_totals"], "the fresh state: own prices known on every price list, all else 0"),
    ("book_places", "all.rt", ["all_boxes", "all_lists"], "grocers and offers listed by boxes, once, and the place of each tally's total"),
    ("step_links", "lib.rt", ["link_pairs"], "tallies linked by box and owner of their offer, once"),
    ("run_steps", "lib.rt", ["one_step"], "each step on its tables, by step_apply as below"),
    ("settle_text", "lines.rt", ["put_settled", "put_statement", "put_amounts"], "the lines, with an amount for each price list"),
    ("printing", "cents.rt", ["cents"], "an amount in whole cents"),
]

# The way of a step request.
STEP_WALK = [
    ("host_c", "lib.rt", ["settlement_step"], "the call for C"),
    ("host", "lib.rt", ["settlement_step"], "the answer as a number"),
    ("step", "lib.rt", ["step"], "the request on the lent tables"),
    ("step_refusal", "lib.rt", ["price_refusal", "total_refusal", "tables_refusal", "early_refusal"], "all conditions, in their order, before anything is written"),
    ("job_checks", "checks.rt", ["job_short", "job_in_range"], "20 and 21 of the job's tables"),
    ("step_checks", "state.rt", ["state_short", "state_in_range"], "20 and 21 of the state's tables"),
    ("bag_standing", "lib.rt", ["standing_boxes"], "9, and which tallies stand"),
    ("job_masks", "masks.rt", ["needs", "sharers"], "which boxes need an offer, which share a grocer"),
    ("step_packed", "lib.rt", ["packed_refusal"], "20 and 21 of the packed totals"),
    ("step_waits", "lib.rt", ["waits"], "what each box's totals wait for"),
    ("step_checks", "request.rt", ["request_refusal"], "22 to 26"),
    ("step_rules", "ready.rt", ["fits", "is_ready"], "24 and 26: whether the job has the step, and whether it is ready"),
    ("book_places", "lib.rt", ["box_places", "box_span"], "where the totals of the step lie"),
    ("step_refusal", "lib.rt", ["message_offers"], "kinds 1 and 3: the offers of the message"),
    ("step_prices", "list.rt", ["list_message"], "they are listed by one pass over the offers"),
    ("step_checks", "finish.rt", ["price_fits"], "the late 21 of kinds 1 to 3: whether what the step would leave is in range, on every price list"),
    ("step_packed", "lib.rt", ["total_fits"], "the same of kinds 4 to 6"),
    ("step_rules", "marks.rt", ["mark"], "the step is marked as done"),
    ("step_links", "lib.rt", ["link_pairs"], "kinds 1 to 3: tallies linked by box and owner of their offer"),
    ("step_apply", "lib.rt", ["price_step", "total_step"], "kinds 1 to 3 on prices, kinds 4 to 6 on totals"),
    ("step_prices", None, [], "prices sent and received, of the offers listed"),
    ("step_entries", "lib.rt", ["copy_words", "take_words"], "the words of one offer, one for each price list"),
    ("step_totals", None, [], "count × price added, on every price list"),
    ("step_spans", None, [], "totals sent, added and received"),
    ("step_sent", "lib.rt", ["raise"], "the count of words sent"),
]

# Who decides each refusal: numbers, what, crate, file and function, file and name of its definition.
DECIDES = [
    ("1", "length and block count of a file", "file_blocks", "shape.rt", "shape_refusal", "format", "Refusals", "bad_length"),
    ("2, 3, 5", "sums, kind, number, count and spare bytes of a block", "file_blocks", "shape.rt", "block_refusal", "format", "Refusals", "block_refusal"),
    ("4", "sizes of a header", "file_blocks", "plan.rt", "bad_sizes", "format", "Job", "bad_sizes"),
    ("6", "fields of records", "file_blocks", "records.rt", "bad_records", "format", "Refusals", "bad_record"),
    ("7, 8", "names of offers", "file_blocks", "look.rt", "names_refusal", "format", "Job", "shared"),
    ("4 to 9", "the writer's, on lent tables", "writer_checks", "refusal.rt", "write_refusal", "format", "Refusals", "job_refusal"),
    ("9", "bags counted twice, in a file", "file_blocks", "twice.rt", "job_refusal", "recount", "Recount", "counted_twice"),
    ("9", "the same, in lent tables", "bag_standing", "lib.rt", "standing_boxes", "recount", "Recount", "counted_twice"),
    ("20", "a job's tables lent short", "job_checks", "checks.rt", "job_short", "model", "Tables", "job_short"),
    ("20", "a state's tables lent short", "step_checks", "state.rt", "state_short", "model", "Tables", "state_short"),
    ("20", "packed totals lent short", "step_packed", "lib.rt", "packed_refusal", "model", "Tables", "totals_short"),
    ("21", "a job's words out of range", "job_checks", "checks.rt", "job_in_range", "model", "Ranges", "job_in_range"),
    ("21", "a state's words out of range", "step_checks", "state.rt", "state_in_range", "model", "Ranges", "state_in_range"),
    ("21", "packed totals out of range", "step_packed", "lib.rt", "packed_refusal", "model", "Ranges", "totals_in_range"),
    ("22, 23", "kind and boxes of a request", "step_checks", "request.rt", "request_refusal", "model", "Step", "step_rules"),
    ("24", "an empty message", "step_rules", "ready.rt", "fits", "model", "Steps", "fits"),
    ("25", "already done", "step_rules", "marks.rt", "is_done", "model", "Tables", "steps_done"),
    ("26", "not ready", "step_rules", "ready.rt", "is_ready", "model", "Steps", "ready"),
    ("21, late", "what a step would leave is out of range", "step_checks", "finish.rt", "price_fits", "model", "Step", "refusals"),
    ("21, late", "the same, of kinds 4 to 6", "step_packed", "lib.rt", "total_fits", "model", "Step", "refusals"),
    ("20", "late bags: tables lent short, with room for the added tally", "late_checks", "present.rt", "late_short", "late_rules", "Late", "late_short"),
    ("20", "late bags: packed totals short for the job or for the edited one", "late_finished", "state.rt", "totals_refusal", "late_rules", "Late", "edited_short"),
    ("30", "a state that no finished run leaves", "late_finished", "state.rt", "state_refusal", "late_rules", "Late", "left_by_run"),
    ("31, 32", "a tally that is not added", "late_checks", "decide.rt", "added_job", "late_rules", "Late", "add_faults"),
    ("32", "a tally that is not withdrawn", "late_checks", "decide.rt", "withdrawn_job", "late_rules", "Late", "withdraw_faults"),
]


def stop(text):
    sys.exit(f"map.py: {text}")


def code(crate, file):
    path = f"crates/{crate}/src/{file}"
    if not os.path.exists(path):
        stop(f"{path} is not there")
    return open(path, encoding="utf-8").read()


def has_function(crate, file, name):
    if not re.search(rf"\bfn {name}\b", code(crate, file)):
        stop(f"crates/{crate}/src/{file} has no function {name}")


def proof(crate, file, name):
    """The folder with what is written of a function's proof, or that the kit proves it by itself."""
    module = "" if file in ("lib.rt", "main.rt") else file[:-3] + "/"
    path = f"crates/{crate}/proofs/{module}{name}"
    return path if glob.glob(f"{path}/*.antt") else "(by itself)"


def first_line(crate):
    for file in ("lib.rt", "main.rt"):
        path = f"crates/{crate}/src/{file}"
        if os.path.exists(path):
            return open(path, encoding="utf-8").readline().lstrip("/ ").rstrip()
    stop(f"crates/{crate} has no code file")


def parts():
    """The parts of crates.txt: the comment over each, and its lines."""
    title, lines, out = [], [], []
    for line in open("crates.txt", encoding="utf-8"):
        line = line.rstrip("\n")
        if line.startswith("#"):
            if lines:
                out.append((" ".join(title), lines))
                title, lines = [], []
            title.append(line.lstrip("# "))
        elif ":" in line:
            lines.append(line.split(":")[0].split()[0])
        elif not line and not lines:
            title = []
    out.append((" ".join(title), lines))
    return out


def layers(needs):
    level = {}

    def visit(crate):
        if crate not in level:
            level[crate] = 1 + max((visit(d) for d in needs[crate] if d in needs), default=-1)
        return level[crate]

    for crate in needs:
        visit(crate)
    return level


def walk(rows):
    for n, (crate, file, names, what) in enumerate(rows, 1):
        for name in names:
            has_function(crate, file, name)
        where = ", ".join(f"`{name}`" for name in names)
        place = f"crates/{crate}/src/{file}" if file else f"crates/{crate}"
        yield f"{n}. {where + ' in ' if where else ''}{place}: {what}."


def main():
    needs = crates.read_crates()
    level = layers(needs)
    out = ["# Map", "", "Made by `python3 tools/map.py > docs/MAP.md` from crates.txt and the first line of each crate's code.", ""]
    out += ["A crate that others call has the specification's word for its name. A crate under it begins with the part that it serves: `step_links` is under `step`. A crate stands only on crates of lower layers. Definitions are in specs/ of a crate, code in src/, proofs in proofs/; what is written of the proof of a function f of a module m is in proofs/m/f.", ""]
    out += ["## The way of a file's bytes to the printed lines", ""] + list(walk(FILE_WALK)) + [""]
    out += ["## The way of a step request", ""] + list(walk(STEP_WALK)) + [""]
    out += ["## Who decides a refusal", "", "| No. | What | Function | Definition | Proof |", "|--:|---|---|---|---|"]
    for number, what, crate, file, name, spec, place, definition in DECIDES:
        has_function(crate, file, name)
        path = f"crates/{spec}/specs/{place}.antt"
        if not re.search(rf"\bpub {definition}\b", open(path, encoding="utf-8").read()):
            stop(f"{path} does not define {definition}")
        out.append(f"| {number} | {what} | `{name}` in crates/{crate}/src/{file} | `{definition}` in {path} | {proof(crate, file, name)} |")
    out += [""]
    for title, lines in parts():
        heading = re.split("[:.,]", title)[0]
        told = [] if title.rstrip(".") == heading else [title, ""]
        out += [f"## {heading}", "", *told, "| Crate | Layer | What it is | Stands on |", "|---|--:|---|---|"]
        for crate in lines:
            below = ", ".join(f"`{d}`" for d in needs[crate])
            out.append(f"| `{crate}` | {level[crate]} | {first_line(crate)} | {below} |")
        out += [""]
    print("\n".join(out).rstrip())


main()
