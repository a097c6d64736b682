"""What each crate of crates.txt stands on, for the tools that ask; it goes to the root of the tree."""
import os
import sys

sys.dont_write_bytecode = True
os.chdir(os.path.dirname(os.path.dirname(os.path.abspath(__file__))))


def read_crates():
    """What each crate of crates.txt stands on."""
    needs = {}
    for line in open("crates.txt", encoding="utf-8"):
        name, colon, rest = line.split("#")[0].partition(":")
        if colon:
            needs[name.split()[0]] = rest.split()
    return needs
