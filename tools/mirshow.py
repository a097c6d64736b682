#!/usr/bin/env python3
"""The MIR of functions of libraries, readable: python3 tools/mirshow.py CRATE::FN..

It reads what stands in crates/CRATE/out/rlib: `rt lib` in the crate's folder makes it, and `rt check` in that of a crate above. Prints the
locals with their types, and the statements: a check grows as their numbers, multiplied. A program leaves no MIR there. No part of any proof."""
import json
import os
import sys

sys.dont_write_bytecode = True
from crates import read_crates  # it goes to the root of the tree


def stop(text):
    sys.exit("mirshow.py: " + text)


def functions(crate):
    """The functions of a library by their names."""
    if crate not in read_crates():
        stop(f"crates.txt has no crate {crate}")
    path = f"crates/{crate}/out/rlib/{crate}.rlib/toolchain/mir.json"
    if not os.path.exists(path):
        stop(f"{path} is not there: run rt lib in crates/{crate}")
    with open(path, encoding="utf-8") as it:
        return dict(json.load(it))


def of(x):
    """What a node is, and what it holds."""
    return (x, None) if isinstance(x, str) else next(iter(x.items()))


def type_text(t):
    head, body = of(t)
    if head == "Int":
        return f"w{body}"
    if head == "Ref":
        return f"&{'mut ' if body[1] == 'Mut' else ''}{type_text(body[2])}"
    if head == "Struct" and body[0] == "&[]":
        return f"{type_text(body[1][0])[:-len(type_text(of(body[1][0])[1][2]))]}[{type_text(of(body[1][0])[1][2])}]"
    if head == "Array":
        return f"[{type_text(body[0])}; {body[1]}]"
    return head if body is None else f"{head} {body if isinstance(body, (str, int)) else json.dumps(body)}"


def place(x):
    """A place: a local, its fields and what it points to."""
    text = f"_{x['local']}"
    for step in x["steps"]:
        head, body = of(step)
        text = f"(*{text})" if head == "Deref" else f"{text}.{body}" if head == "Field" else f"{text}.{head}"
    return text


def operand(x):
    """An operand: a place that is read, or a number."""
    head, body = of(x)
    if head in ("Copy", "Move"):
        return place(body)
    return f"{body['value']}:w{body['width']}" if head == "Int" else head if body is None else f"{head} {json.dumps(body)}"


def operation(x):
    head, body = of(x)
    return head if body is None else f"{head} {body if isinstance(body, str) else ' '.join(map(str, body))}"


def value(x):
    """What an assignment computes."""
    head, body = of(x)
    if head == "Opd":
        return operand(body)
    if head in ("Op1", "Op2"):
        return f"{operation(body[0])}({', '.join(map(operand, body[1:]))})"
    if head == "AddrOf":
        return f"&{place(body) if isinstance(body, dict) and 'local' in body else json.dumps(body)}"
    return head if body is None else f"{head} {json.dumps(body)}"


def call(body):
    named = body[0][0] if isinstance(body[0], list) else body[0]
    head, of_it = of(named)
    name = of_it[0] if head == "Fn" else operand(named)
    return f"{place(body[2])} = CALL {name}({', '.join(map(operand, body[1]))})"


def show(body, at, depth):
    """The statement that begins at a place of a body, indented by the blocks around it; how many statements it is, and where the next begins."""
    head, of_it = of(body[at])
    pad, at, count = "  " * depth, at + 1, 1
    parts = {"Seq": 2, "Block": 1, "Loop": 1, "If": 2}
    if head == "Assign":
        print(f"{pad}{place(of_it[0])} = {value(of_it[1])}")
    elif head == "Call":
        print(pad + call(of_it))
    elif head == "If":
        print(f"{pad}if {operand(of_it)}")
    elif head == "Switch":
        parts["Switch"] = len(of_it[1]) + of_it[2]
        print(f"{pad}switch {operand(of_it[0])}, arms {' '.join('|'.join(map(str, arm)) for arm in of_it[1])}{' and any other' if of_it[2] else ''}")
    elif head != "Seq":
        print(pad + (head if of_it is None else f"{head} {of_it if isinstance(of_it, int) else json.dumps(of_it)}"))
    for part in range(parts.get(head, 0)):
        if head == "If" and part == 1 and of(body[at])[0] != "Skip":
            print(pad + "else")
        inside = depth if head == "Seq" else depth + 1
        if of(body[at])[0] == "Skip":
            at += 1
            continue
        more, at = show(body, at, inside)
        count += more
    return count - (head == "Seq"), at


def main():
    if not sys.argv[1:] or sys.argv[1] in ("-h", "--help"):
        stop("give CRATE::FN")
    for name in sys.argv[1:]:
        fn = functions(name.split("::")[0]).get(name) or stop(f"no function {name}")
        print(f"{name}: parameters _1 to _{fn['params']}, {len(fn['locals'])} locals")
        for i, local in enumerate(fn["locals"]):
            print(f"  _{i} : {type_text(local['ty'])}{'' if local['home'] == 'ValueLocal' else '  (in memory)'}")
        count, end = show(fn["body"], 0, 0)
        if end != len(fn["body"]):
            stop(f"the statements of {name} are not read to their end: the kit writes them in another form")
        print(f"{count} statements")


main()
