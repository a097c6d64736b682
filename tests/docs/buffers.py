"""buffers.py: where 02 §5 is not kept. The crates that read, write and look up codes have no array of bytes but the two or four of which
a word is made, and each of their local buffers is in the table of docs/DECISIONS.md, "Code digits", with its function, name and element; each row of it is of a buffer."""
import os
import re
import sys

sys.dont_write_bytecode = True
sys.path.insert(0, os.path.join(os.path.dirname(os.path.abspath(__file__)), "../../tools"))
from contracts import functions, plain_code, present  # it goes to the root of the tree

CRATES = (
    "slices", "file_bytes", "file_sums", "file_digits", "file_blocks", "file_codes", "writer_names", "writer_checks", "reader", "writer_bytes", "writer", "index_lookup", "index", "bag_keys", "bag_standing",
)
WORD = re.compile(r"\bu(?:16|32)::from_le_bytes\(\[(?:f\[at(?: \+ [123])?\](?:, )?)+\]\)")  # a word of a file, made of its two or four bytes
BUFFER = re.compile(r"let mut (\w+)(?:: \[(\w+); \w+\])? = \[[\d_]+(\w*); \w+\];")


def local_buffers(name, body):
    """(function, buffer, element) of each array that a body makes; one that is not made by `let mut` with a typed 0 is told."""
    found = []
    rest = WORD.sub("", body)
    for b in BUFFER.finditer(body):
        element = b.group(3) or b.group(2)
        if not re.fullmatch(r"[ui]\d+", element or ""):
            print(f"{name}: no element is written in {b.group()}")
        found.append((name, b.group(1), element or "?"))
        rest = rest.replace(b.group(), "")
    for array in re.finditer(r"(?<![\w)\]])\[[^\]]*", rest):  # a bracket behind a name is an index
        print(f"{name}: an array that is no named buffer: {array.group()}]")
    if re.search(r"\bb\"", rest):
        print(f"{name}: bytes of its own")
    return found


def rows():
    """The rows of the table in docs/DECISIONS.md."""
    text = open("docs/DECISIONS.md", encoding="utf-8").read()
    part = re.search(r"(?ms)^## Code digits\n(.*?)(?=^## |\Z)", text)
    return re.findall(r"(?m)^\| `([\w:]+)` \| `(\w+)` \| `(\w+)` \| [^|]+ \|$", part.group(1) if part else "")


def main():
    made = []
    for path, text in present().items():
        if path.split("/")[1] not in CRATES or not path.endswith(".rt"):
            continue
        for bytes_of_own in re.findall(r"(?<!&)\[[^\[\]]*u8\s*;[^\]]*\]", plain_code(text)):  # one that is lent is no buffer
            print(f"{path}: an array of bytes, {bytes_of_own}")
        for name, _, _, body in functions(path, text):
            made += local_buffers(name, body)
    told = rows()
    for row in sorted(set(made) - set(told)):
        print("not in docs/DECISIONS.md:", *row)
    for row in sorted(set(told) - set(made)):
        print("in docs/DECISIONS.md, and no such buffer:", *row)
    for row in sorted(r for r in set(made + told) if made.count(r) > 1 or told.count(r) > 1):
        print("twice:", *row)


main()
