"""Copies of some crates with all crates below them, for runs of rt beside the tree."""
import os
import shutil

from crates import CRATES, ROOT

# What a crate is made of, and what its program reads and has to print.
PARTS = ("src", "specs", "proofs", "data", "args", "stdin", "stdout", "status")


class Copy:
    """A copy of some crates and all crates below them, without their wrong bodies."""

    def __init__(self, folder, wanted):
        self.folder, self.wanted, self.crates = folder, wanted, CRATES.below(wanted)

    def lay_out(self):
        """Makes the copy. What was there goes."""
        shutil.rmtree(self.folder, ignore_errors=True)
        for crate in self.crates:
            for part in PARTS:
                self.take(crate, part, part)
        # rt works at the top of a repository
        os.mkdir(os.path.join(self.folder, ".git"))
        shutil.copy(os.path.join(ROOT, "HANDLES"), self.folder)
        self.list_crates(self.crates)

    def list_crates(self, crates):
        """Writes the crates.txt of the copy: these crates."""
        with open(os.path.join(self.folder, "crates.txt"), "w", encoding="utf-8") as file:
            file.writelines(f"{CRATES.lines[crate]}\n" for crate in sorted(crates))

    def take(self, crate, part, name):
        """Copies a file or folder of a crate, if it is there, under this name."""
        source = os.path.join(ROOT, "crates", crate, part)
        to = os.path.join(self.folder, "crates", crate, name)
        if os.path.isdir(source):
            shutil.copytree(source, to)
        elif os.path.exists(source):
            os.makedirs(os.path.dirname(to), exist_ok=True)
            shutil.copy(source, to)
