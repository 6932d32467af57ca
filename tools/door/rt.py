"""What the command `rt` of the kit prints, and how it is called. Nothing else in the tree reads its
lines."""
import functools
import os
import re
import shutil
import subprocess
import sys

# A line of `rt ci` about a crate that it has proved, or that an earlier run has.
PROVED = re.compile(r"rt: (\w+) (?:proved$|is kept:)")
# Words of a line about what did not pass.
WRONG = ("NOT PROVED", "FAILED")
# A line of a program or of tests that were run, which comes after all proofs.
RAN = re.compile(r"rt: \w+(?:: its tests (?:passed|FAILED)| ran\b)")
REFUSED = "refused, as it must be"
COUNTS = re.compile(r"(\d+) passed, (\d+) failed")
# The last line of `rt try`, if the program ended, and the lines between this and what the program
# said.
ENDED = re.compile(rb"run=ended status=(\d+) .*proved=no")
ABOUT_A_TRY = re.compile(rb"(?:interpreter|checked|races): ")
# What `rt --help` prints if the kit keeps what passed, and so takes names.
TAKES_NAMES = re.compile(r"^\s*rt ci +\[?NAME", re.MULTILINE)
# The status if there is no rt, as shells have it.
NO_RT = 127


def want():
    """Ends if there is no rt."""
    if not shutil.which("rt"):
        print("The command rt of the Rattle kit is not on the PATH.", file=sys.stderr)
        sys.exit(NO_RT)


@functools.lru_cache(maxsize=None)
def kit():
    """Returns the folder of the kit: its page to read first is at its top."""
    want()
    return os.path.dirname(subprocess.run(["rt", "doc"], check=True, stdout=subprocess.PIPE, text=True).stdout.strip())


def keeps():
    """Returns whether the kit keeps what `rt ci` passed, and takes the names of crates."""
    said = subprocess.run(["rt", "--help"], stdin=subprocess.DEVNULL, capture_output=True, text=True, errors="replace",
                          check=False)
    return bool(TAKES_NAMES.search(said.stdout + said.stderr))


class Log:
    """The file of what a run of `rt ci` prints, which is read as it grows."""

    def __init__(self, path):
        self.path, self.at = path, 0
        # which crates are proved, how many edits were refused, whether programs or tests ran, and
        # what did not pass
        self.proved, self.refused, self.ran, self.wrong = set(), 0, False, []
        # how many passed and failed, at the end
        self.counts = None

    def read(self, ended=False):
        """Reads on to the end of the last whole line, or of all, and returns what is new."""
        with open(self.path, "rb") as file:
            file.seek(self.at)
            new = file.read()
        new = new if ended else new[:new.rfind(b"\n") + 1]
        self.at += len(new)
        text = new.decode(errors="replace")
        for line in text.splitlines():
            self.take(line)
        return text

    def take(self, line):
        """Takes what a line says."""
        if named := PROVED.match(line):
            self.proved.add(named[1])
        elif counts := COUNTS.match(line):
            self.counts = (int(counts[1]), int(counts[2]))
        if any(it in line for it in WRONG):
            self.wrong.append(line)
        self.ran |= bool(RAN.match(line))
        self.refused += REFUSED in line

    def end_of(self, lines):
        """Returns the last lines of the file."""
        with open(self.path, encoding="utf-8", errors="replace") as file:
            return file.read().splitlines()[-lines:]


def try_words(words, files):
    """Returns the command that runs the program of a folder unproved, beside these files."""
    return ["rt", "try", *[it for name, path in files.items() for it in ("--data", f"{name}={path}")], "--", *words]


def said_by_try(text):
    """Returns what a program wrote on standard error under `rt try`, and its status if it ended."""
    lines = text.splitlines(keepends=True)
    ended = ENDED.match(lines.pop()) if lines else None
    while lines and ABOUT_A_TRY.match(lines[-1]):
        lines.pop()
    while lines and lines[0].startswith(b"rt: "):
        lines.pop(0)
    return b"".join(lines), int(ended[1]) if ended else None
