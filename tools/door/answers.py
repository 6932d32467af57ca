"""The first answer of a program that is not built yet: at a terminal, without a proof, and the
proved one later.

The unproved program runs beside the first proofs. Once the proved one is there, it runs on the same
input, and the two answers are compared: what is on standard output, the status, and the first line
on standard error. If they differ, both are shown, and the status is 70.
"""
import os
import re
import subprocess
import sys
import tempfile
from dataclasses import dataclass

import rt
from build import build, product
from crates import ROOT
from jobs import Job, ended_at_last

DIFFERENT = 70
# The programs that answer people.
PROGRAMS = ("qlock", "qlock_show")
# The commands that read standard input, if no file is named.
READERS = {"plan", "check", "deal", "world", "run", "replay", "report", "without", "resilience", "near", "bridge",
           "picture"}
HELP = {"-h", "--help", "-V", "--version"}
# A program reads 16 MiB at most, and refuses what is longer.
LONGEST_INPUT = (16 << 20) + 1
# Names that a file may not have, or not begin with, where `rt try` runs a program.
NO_NAME = re.compile(r"/|-|program|stdin|stdout|stderr|(.*/)?\.\.(/|$)|.*=", re.DOTALL)


class Words:
    """The words of a call: its files, its command, and whether it reads standard input."""

    def __init__(self, words):
        self.words, self.behind_f, plain, left = words, set(), [], iter(enumerate(words))
        for at, word in left:
            if word == "--":
                break
            if word == "-f" and (file := next(left, None)):
                self.behind_f.add(file[0])
            else:
                plain.append(word)
        commands = [it for it in plain if it[:1] != "-"]
        # `fault` is followed by the words of another command
        self.command = (commands[1:] if commands[:1] == ["fault"] else commands)[:1]
        self.wants_help = bool(HELP.intersection(plain))

    def named(self):
        """Returns the files that are named by -f."""
        return [self.words[at] for at in sorted(self.behind_f)]

    def reads(self):
        """Returns whether standard input is read."""
        if self.behind_f:
            return "-" in self.named()
        return bool(READERS.intersection(self.command)) and not self.wants_help

    def files(self):
        """Returns the words that are regular files, with their places."""
        return {at: it for at, it in enumerate(self.words)
                if os.path.isfile(it) and (at in self.behind_f or it[:1] != "-")}

    def are_once(self):
        """Returns whether a file can be read only once, as a pipe."""
        return any(os.path.exists(it) and not os.path.isfile(it) and not os.path.isdir(it) for it in self.words)


class Moved:
    """The words as a program gets them where `rt try` runs it, with copies of its files."""

    def __init__(self, words, crate):
        self.words, self.copies = list(words.words), {}
        # (there the program is named so in what clap says)
        self.names = {b"Usage: program": b"Usage: " + crate.encode()}
        for at, word in words.files().items():
            name = word
            if NO_NAME.match(word):
                name = f"file-{at}-" + re.sub(r"[^\w.+-]", "_", os.path.basename(word))
                self.names[os.fsencode(name)] = os.fsencode(word)
            self.words[at] = name
            self.copies[name] = os.path.realpath(word)

    def back(self, text):
        """Returns a text in which the files and the program have their own names."""
        for name, word in self.names.items():
            text = text.replace(name, word)
        return text


@dataclass
class Answer:
    """What a program printed, and its status."""

    out: bytes
    err: bytes
    status: int

    def is_like(self, other):
        """Returns whether both say the same. (What follows a fault may be on where it ran.)"""
        return self.said() == other.said()

    def said(self):
        return self.out, self.err.partition(b"\n")[0], self.status

    def show(self):
        for stream, text in ((sys.stdout, self.out), (sys.stderr, self.err)):
            stream.flush()
            stream.buffer.write(text)
            stream.buffer.flush()


def are_wanted(crate, words):
    """Returns whether a call gets a first answer: of `run` each answer is another one."""
    words = Words(words)
    return (crate in PROGRAMS and sys.stdout.isatty() and not words.are_once()
            and (crate, words.command) != ("qlock", ["run"]))


def answer(crate, words):
    """Gives the first answer, proves and builds the program, and compares. Returns the status."""
    rt.want()
    with tempfile.TemporaryDirectory(prefix="qlock-answer-") as room:
        first = First(crate, words, room)
        if not first.has_input():
            return None
        with ended_at_last([first.job]):
            first.begin()
            build([crate], first.look, nicer=5)
        return first.compare()


class First:
    """A first answer, and the proved one."""

    def __init__(self, crate, words, room):
        self.crate, self.words, self.room = crate, Words(words), room
        self.name = crate.replace("_", "-")
        self.moved = Moved(self.words, crate)
        self.job = Job("rt try", rt.try_words(self.moved.words, self.moved.copies), self.at("err"),
                       os.path.join(ROOT, "crates", crate))
        self.is_over, self.answer = False, None

    def at(self, name):
        return os.path.join(self.room, name)

    def say(self, text):
        print(f"{self.name}: {text}", file=sys.stderr, flush=True)

    def begin(self):
        """Begins the unproved program."""
        self.say("it is not built yet. A first answer comes within three minutes, not proved "
                 "(--wait waits for the proof)")
        with open(self.at("input"), "rb") as stdin, open(self.at("out"), "wb") as stdout:
            self.job.begin(stdin, stdout)

    def has_input(self):
        """Reads standard input to its end, if the program does. Returns whether it can be read."""
        left = LONGEST_INPUT if self.words.reads() else 0
        if left and os.isatty(0):
            self.say("the input is read from the terminal, and ends with Ctrl-D. Files are named by -f FILE")
        try:
            with open(self.at("input"), "wb") as file:
                while left and (piece := os.read(0, min(left, 1 << 16))):
                    file.write(piece)
                    left -= len(piece)
        except OSError:
            return False
        return True

    def look(self):
        """Shows the first answer once it is there."""
        if self.is_over or self.job.status() is None:
            return
        self.is_over = True
        with open(self.at("out"), "rb") as out, open(self.at("err"), "rb") as err:
            text = err.read()
            said, status = rt.said_by_try(text)
            if status is None:
                self.say("there is no answer without a proof:")
                print(*text.decode(errors="replace").splitlines()[-20:], sep="\n", file=sys.stderr)
                return
            self.answer = Answer(self.moved.back(out.read()), self.moved.back(said), status)
        self.answer.show()
        self.say("this answer is not proved yet: proving it takes some 15 minutes on four cores. "
                 "Ctrl-C stops it, and what was proved is kept")

    def compare(self):
        """Runs the proved program, if there was a first answer, and returns the status."""
        with open(self.at("input"), "rb") as stdin:
            if not self.answer:
                os.dup2(stdin.fileno(), 0)
                return None
            words = [product(self.crate), *self.words.words]
            ran = subprocess.run(words, stdin=stdin, capture_output=True, check=False)
        proved = Answer(ran.stdout, ran.stderr, ran.returncode if ran.returncode >= 0 else 128 - ran.returncode)
        if proved.is_like(self.answer):
            self.say("proved, and the same answer")
            return proved.status
        self.say(f"the proved answer is another one, with status {proved.status} and not {self.answer.status}:")
        proved.show()
        self.say("the answers differ, and the second one is proved. If no file was changed meanwhile, "
                 "please report this")
        return DIFFERENT
