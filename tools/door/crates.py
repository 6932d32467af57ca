"""What crates.txt lists: each crate, and the libraries that it uses.

    tools/below CRATE..     prints these crates and all below them, one a line

Those are the crates to copy for their use in another repository. Names without a folder in crates/
are the kit's.
"""
import os
import sys

ROOT = os.path.dirname(os.path.dirname(os.path.dirname(os.path.abspath(__file__))))
BUILD = os.path.join(ROOT, "build")


class Crates:
    """The lines of a crates.txt."""

    def __init__(self, text):
        lines = [line.partition("#")[0].strip() for line in text.splitlines()]
        self.lines = {line.split()[0].rstrip(":"): line for line in lines if ":" in line}

    def uses(self, crate):
        """Returns the libraries that a crate uses. One of the kit uses none."""
        return self.lines.get(crate, "").partition(":")[2].split()

    def is_library(self, crate):
        """Returns whether a crate is a static library."""
        return "staticlib" in self.lines[crate].partition(":")[0].split()

    def walk(self, crates):
        """Returns these crates and all libraries below them, also the kit's, nearest first."""
        names = dict.fromkeys(crates)
        queue = list(names)
        for crate in queue:
            queue += [it for it in self.uses(crate) if it not in names]
            names |= dict.fromkeys(queue)
        return list(names)

    def below(self, crates):
        """Returns those of these crates that are listed, and all listed ones below them."""
        return {it for it in self.walk(crates) if it in self.lines}


def read(*names):
    """Returns the text of a file of the tree."""
    with open(os.path.join(ROOT, *names), encoding="utf-8") as file:
        return file.read()


CRATES = Crates(read("crates.txt"))


def main(words):
    if not words:
        sys.exit("below: the names of crates")
    for crate in words:
        if crate not in CRATES.lines:
            sys.exit(f"below: crates.txt has no {crate}")
    print("\n".join(CRATES.walk(words)))
