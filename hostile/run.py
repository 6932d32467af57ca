#!/usr/bin/env python3
"""Runs the programs as they are built where memory is refused and devices fail, and looks at what they print and how they end.

    hostile/run.py [WORD]      (tries the cases alone whose label has the word, where one is given)

Each case is a command with its input. It is run again and again, for N = 1, 2 and so on until a run meets nothing:

- the Nth growth of memory is refused, once, and then each one from the Nth on. The command has to write what it always
  writes, or nothing with `O1 OutOfMemory` and status 4. `run` may also write another record, which `replay` has to accept, as
  a message that finds no memory is lost. It has more turns than it could use up, so it has to end by itself;
- the Nth read fails, and the Nth write, each of one byte: nothing is written with `I3 ReadFault` and status 3, or a beginning
  of the answer with `I4 WriteFault` and status 3;
- each read and each write moves one byte, once: the command has to write what it always writes.

After these comes a program of its own, `crates/demo_members`. Two members of a running cluster go through the lock while a gate
holds the second one up at one of four places. A growth that is refused once has to end the program with `O1 OutOfMemory`, or to
change nothing, or to lose exactly one message. Each run has to end: the first member makes up for the loss by a reminder, or spends
its turns. How many runs lose a message, and how they end, is known for each hold. The same goes for the calls of one member: each
kind of call counts the message that it lost.

Says for each case how many runs there were, prints each run that was wrong, and ends with `N runs, M wrong`, with status 1
where M is not 0. It needs a C compiler and glibc (Debian: gcc, libc6-dev) for `refuse.c`, which refuses, fails, and stops a run that
takes longer than half a minute.
"""

import os
import re
import shutil
import signal
import subprocess
import sys
import tempfile
from collections import Counter
from concurrent.futures import ProcessPoolExecutor
from dataclasses import dataclass, field
from itertools import count
from pathlib import Path

HERE = Path(__file__).resolve().parent
ROOT = HERE.parent
QLOCK = ROOT / "build" / "qlock"
SHOW = ROOT / "build" / "qlock_show"
MEMBERS = ROOT / "build" / "demo_members"
NO_MEMORY = "O1 OutOfMemory"
WAYS = ("growth, once", "growth, for good", "read", "write")


@dataclass(frozen=True)
class Case:
    """A command with its input."""

    program: Path
    label: str
    words: str
    input: Path = Path(os.devnull)
    # how many passes the record of `run` has to have
    passes: int | None = None
    # the line of a read that failed; behind -f it has the name of the file
    unread: str = "I3 ReadFault"


@dataclass(frozen=True)
class Run:
    """What a run wrote, its status, and whether anything was refused or failed."""

    out: bytes
    err: str
    status: int
    met: bool

    def ended_by(self, line, status):
        """Whether the run wrote nothing, and ended by this line and status."""
        return not self.out and self.err == line + "\n" and self.status == status

    def said(self, line):
        """Whether the run wrote this line and nothing else, with status 0."""
        return self.out == line.encode() + b"\n" and not self.err and self.status == 0


@dataclass
class Tally:
    """How many runs there were, and a line for each that was wrong."""

    runs: int = 0
    wrong: list = field(default_factory=list)

    def add(self, other):
        self.runs += other.runs
        self.wrong += other.wrong

    def look(self, run, is_right, label, what):
        """Counts a run, and notes it if it was wrong."""
        self.runs += 1
        if not is_right:
            first = run.err.split("\n")[0]
            self.wrong.append(f"{label}: {what}: status {run.status}, {len(run.out)} bytes written, {first}")


def run_of(case, work, **settings):
    """Runs a case with these settings."""
    met = work / "met"
    env = {**os.environ, **{f"HOSTILE_{name.upper()}": str(value) for name, value in settings.items()}}
    env |= {"HOSTILE_MET": str(met), "LD_PRELOAD": str(work.parent / "refuse.so")}
    with open(case.input, "rb") as given, open(work / "out", "w+b") as out, open(work / "err", "w+b") as err:
        status = subprocess.call([case.program, *case.words.split()], stdin=given, stdout=out, stderr=err, env=env)
        out.seek(0)
        err.seek(0)
        return Run(out.read(), err.read().decode(errors="replace"), status, met.stat().st_size > 0)


def answered(case, run, usual):
    """Whether the run wrote what the command always writes; `run` writes some record of all passes that is accepted."""
    if run.status != 0 or run.err:
        return False
    if case.passes is None:
        return run.out == usual
    replayed = subprocess.run([QLOCK, "replay"], input=case.input.read_bytes() + b"%%\n" + run.out, capture_output=True)
    return f"register {case.passes}" in replayed.stdout.decode().split("\n")


def begun(case, run, usual):
    """Whether what was written is a beginning of what the command always writes; of a record its first line has to be."""
    if case.passes is None:
        return usual.startswith(run.out)
    return b"quorum-record 1"[: len(run.out)] == run.out[:15]


def is_right(case, way, run, usual):
    """Whether a run that was refused memory, or whose device failed, ended as it may."""
    match way:
        case "read":
            return run.ended_by(case.unread, 3)
        case "write":
            return run.status == 3 and run.err == "I4 WriteFault\n" and begun(case, run, usual)
        case _:
            return answered(case, run, usual) or run.ended_by(NO_MEMORY, 4)


def settings_of(way, number):
    """The settings of a way of failing, at this growth, read or write."""
    match way:
        case "growth, once":
            return {"growth": number}
        case "growth, for good":
            return {"growth": number, "for_good": 1}
        case _:
            return {way: number, "bytes": 1}


def try_way(case, way, room):
    """Runs a case for each growth, each read or each write, until a run meets nothing."""
    tally = Tally()
    work = Path(tempfile.mkdtemp(dir=room))
    with open(case.input, "rb") as given:
        usual = subprocess.run([case.program, *case.words.split()], stdin=given, capture_output=True).stdout
    for number in count(1):
        run = run_of(case, work, **settings_of(way, number))
        if not run.met:
            tally.look(run, answered(case, run, usual), case.label, f"{way}: nothing was met")
            return tally
        tally.look(run, is_right(case, way, run, usual), case.label, f"{way} {number}")


def written(path, *parts):
    """Writes texts to a file, a line %% between any two, and returns the file."""
    path.write_bytes(b"%%\n".join(part.encode() if isinstance(part, str) else part for part in parts))
    return path


def said_by(words, given=b""):
    """Returns what `qlock` writes for an input."""
    return subprocess.run([QLOCK, *words.split()], input=given, capture_output=True, check=True).stdout


def cases_of_qlock(room):
    """The cases of the program `qlock`."""
    for shape in ("majority 3", "wheel 3", "tree 2", "grid 2 2", "cyclic 7 0 1 3"):
        yield Case(QLOCK, f"make {shape}", f"make {shape}")
    coteries = {name: said_by(f"make {name} {size}") for name, size in SIZES.items()}
    coteries["capacities"] = (ROOT / "examples" / "wheel-3-fast-hub.toml").read_bytes()
    plans = {name: said_by("plan", coterie) for name, coterie in coteries.items()}
    planned = {name: written(room / name, coteries[name], plans[name]) for name in coteries}
    for name, coterie in coteries.items():
        yield Case(QLOCK, f"plan {name}", "plan", written(room / f"{name}.toml", coterie))
        yield Case(QLOCK, f"check {name}", "check", planned[name])
    for tickets in (0, 5, 7, 10):
        yield Case(QLOCK, f"deal {tickets} wheel", f"deal {tickets}", planned["wheel"])
    yield Case(QLOCK, "deal 7 capacities", "deal 7", planned["capacities"])
    of_grid = f"check -f {room / 'grid.toml'} -f -"
    yield Case(QLOCK, "check grid, from files", of_grid, written(room / "plan", plans["grid"]), unread='I3 ReadFault "-"')
    yield Case(QLOCK, "world majority", "world", written(room / "script", planned["majority"].read_bytes(), SCRIPT))
    yield Case(QLOCK, "run 2 2 grid", "run 2 2 1000000000000", planned["grid"], passes=4)
    record = said_by("run 2 2 100000", planned["grid"].read_bytes())
    yield Case(QLOCK, "replay grid", "replay", written(room / "run", planned["grid"].read_bytes(), record))
    yield Case(QLOCK, "replay majority", "replay", written(room / "record", planned["majority"].read_bytes(), RECORD))


def cases_of_show(room):
    """The cases of the program `qlock-show`, over the files of those of `qlock`."""

    def case(label, words, given=Path(os.devnull), **more):
        return Case(SHOW, f"show {label}", words, given, **more)

    examples = ROOT / "examples"
    majority, wheel = ((room / f"{name}.toml").read_bytes() for name in ("majority", "wheel"))
    yield case("plan majority", "plan", room / "majority")
    yield case("deal 3 majority", "deal 3", room / "majority")
    yield case("deal --even 3 majority", "deal --even 3", room / "majority")
    yield case("world majority", "world", room / "script")
    story = written(room / "story", (room / "majority").read_bytes(), (room / "majority").read_bytes(), STORY)
    yield case("story", "world", story)
    yield case("picture load majority", "picture load", room / "majority")
    yield case("report majority", "report", room / "majority")
    yield case("without", "without v0", room / "majority.toml")
    yield case("without, none left", "without v0 v1", room / "majority.toml")
    yield case("resilience", "resilience", examples / "three-racks.toml")
    yield case("bridge", "bridge", written(room / "bridge", majority, wheel))
    yield case("resilience of a plan", "resilience", examples / "wheel-3-planned.txt")
    yield case("plan, JSON", "plan --json", examples / "wheel-3-planned.txt")
    yield case("deal 5, names", "deal --names 5", examples / "wheel-3-planned.txt")
    yield case("deal 5, JSON", "deal --json 5", examples / "wheel-3-planned.txt")
    yield case("deal --even 5, JSON", "deal --even --json 5", examples / "wheel-3-planned.txt")
    yield case("near", "near", examples / "wheel-3.toml")
    yield case("near, cycles of 3", "near --cycle 3", examples / "wheel-3.toml")
    yield case("near, as a text", "near --cycle 3 --text", examples / "wheel-3.toml")
    yield case("check of weights", "check", examples / "wheel-3-near.txt")
    yield case("coterie", "coterie votes 3 2 2 1 1 --capacity 3 2 2 1 1")
    yield case("fault check", "fault check", examples / "refused-plan.txt")
    cycle = re.sub(r"(?m)^cycle .*$", "cycle 05", (room / "plan").read_text())
    of_grid = f"fault check -f {room / 'grid.toml'} -f -"
    yield case("fault check, from files", of_grid, written(room / "cycle", cycle), unread='I3 ReadFault "-"')
    yield case("waiting", "waiting 5 2 --round 2")
    yield case("waiting, live rounds", "waiting 5 2 --down 1 --dead 2")
    yield case("explain E7", "explain E7")


SIZES = {"majority": "3", "wheel": "3", "tree": "2", "grid": "2 2"}
RECORD = "quorum-record 1\ndraw 0 0 0\ndraw 1 2 2\ndraw 0 1 1\npass 0 0\npass 1 1\nregister 2\n"
STORY = "# a note\nworld 1 9\nask 0\nexchange\ndeliver 0\ndeliver 2\ncrash-client 0\ncrash-voter 0\ndeliver 2\n"
SCRIPT = (
    "world 2 1000\nask 0\nask 1\ndeliver 2\ndeliver 0\ndeliver 3\ndeliver 4\ndeliver 6\ndeliver 5\nleave 1\ndeliver 7\n"
)

# For each word of the program of the members: the line that it prints where nothing is lost, and each other line that it may print,
# with how many runs have to print it.
#
# The logs of two voters and the mailbox grow for the member that asks first, and one log and the mailbox for the other one. With
# 'drawn', if voter 0 loses the first member's request, it gives its vote to the second one, which is held up. With 'inside', voter 0
# gets five messages, as the first member reminds, so its log grows for the second one's RELEASE. If there is no memory for a thread,
# the first member works before the second one, and the gate is late. With 'calls' the logs of three voters and the mailbox grow as
# messages come; a receipt and a pass number need memory, and the call is made again.
HOLDS = {
    "before": (
        "passed passed, lost 0 0, register 2",
        {"passed passed, lost 1 0, register 2": 3, "passed passed, lost 0 1, register 2": 2},
    ),
    "drawn": (
        "passed passed, lost 0 0, register 2",
        {
            "passed passed, lost 1 0, register 2": 2,
            "K2 passed, lost 1 0, register 1": 1,
            "passed passed, lost 0 1, register 2": 2,
            "passed passed, lost 0 0, register 2, late": 2,
        },
    ),
    "inside": (
        "K2 passed, lost 0 0, register 1",
        {
            "K2 passed, lost 1 0, register 1": 2,
            "K2 passed, lost 0 1, register 1": 4,
            "passed passed, lost 0 0, register 2, late": 2,
        },
    ),
    "shut": (
        "passed K2, lost 0 0, register 1",
        {
            "passed K2, lost 1 0, register 1": 2,
            "passed K2, lost 0 1, register 1": 3,
            "passed K2, lost 0 0, register 1, late": 2,
        },
    ),
    "calls": (
        "2 passes, ask 0, pump 0, remind 0, leave 0, give_up 0, refused 0",
        {
            "2 passes, ask 1, pump 0, remind 0, leave 0, give_up 0, refused 0": 4,
            "2 passes, ask 0, pump 1, remind 0, leave 0, give_up 0, refused 0": 3,
            "2 passes, ask 0, pump 0, remind 1, leave 0, give_up 0, refused 0": 2,
            "2 passes, ask 0, pump 0, remind 0, leave 1, give_up 0, refused 0": 3,
            "2 passes, ask 0, pump 0, remind 0, leave 0, give_up 1, refused 0": 3,
            "2 passes, ask 0, pump 0, remind 0, leave 0, give_up 0, refused 1": 2,
        },
    ),
}


def try_members(case, usual, others, room):
    """Refuses each growth of the program of the members, once and for good."""
    tally = Tally()
    work = Path(tempfile.mkdtemp(dir=room))
    found = Counter()
    for number in count(1):
        run = run_of(case, work, growth=number)
        is_usual = run.said(usual)
        is_other = run.met and run.status == 0 and not run.err
        is_refused = run.met and run.ended_by(NO_MEMORY, 4)
        tally.look(run, is_usual or is_other or is_refused, case.label, f"growth, once {number}")
        if is_other and not is_usual:
            found[run.out.decode().rstrip("\n")] += 1
        if not run.met:
            break
    if found != others:
        tally.wrong.append(f"{case.label}: other runs end in other ways: {dict(found)}")
    for number in count(1):
        run = run_of(case, work, growth=number, for_good=1)
        is_fit = run.ended_by(NO_MEMORY, 4) if run.met else run.said(usual)
        tally.look(run, is_fit, case.label, f"growth, for good {number}")
        if not run.met:
            return tally


def tell(label, tally):
    """Prints how many runs a case had, and each that was wrong."""
    print(f"{label:<40} {tally.runs:6d} runs", flush=True)
    for line in tally.wrong:
        print(f"wrong: {line}", flush=True)


def build():
    """Builds the programs where they have to be."""
    subprocess.run([ROOT / "qlock", "make", "majority", "3"], stdout=subprocess.DEVNULL, check=True)
    subprocess.run([ROOT / "qlock-show", "explain", "E7"], stdout=subprocess.DEVNULL, check=True)
    subprocess.run([ROOT / "tools" / "run", "demo_members"], stdout=subprocess.DEVNULL, check=True)


def compile_refuse(room):
    """Compiles the library that refuses and fails."""
    compiler = os.environ.get("CC", "cc")
    if not shutil.which(compiler):
        sys.exit(f"hostile/run.py: there is no C compiler {compiler} (Debian: gcc, libc6-dev)")
    command = [compiler, "-O2", "-shared", "-fPIC", "-o", room / "refuse.so", HERE / "refuse.c"]
    subprocess.run(command, check=True)


def try_all(word, room):
    """Tries the cases whose label has the word, and returns the tally of all."""
    whole = Tally()
    cases = [it for it in [*cases_of_qlock(room), *cases_of_show(room)] if word in it.label]
    with ProcessPoolExecutor() as lanes:
        ways = {it: [lanes.submit(try_way, it, way, room) for way in WAYS] for it in cases}
        for case, tried in ways.items():
            tally = Tally()
            for it in tried:
                tally.add(it.result())
            tell(case.label, tally)
            whole.add(tally)
    # the members wait for each other, so their cases run one after the other
    for hold, (usual, others) in HOLDS.items():
        case = Case(MEMBERS, f"members: {hold}", hold)
        if word in case.label:
            tally = try_members(case, usual, others, room)
            tell(case.label, tally)
            whole.add(tally)
    return whole


def main():
    word = sys.argv[1] if len(sys.argv) > 1 else ""
    # (the folder goes then, too)
    signal.signal(signal.SIGTERM, lambda *_: sys.exit(143))
    with tempfile.TemporaryDirectory() as name:
        room = Path(name)
        build()
        compile_refuse(room)
        whole = try_all(word, room)
    print(f"{whole.runs} runs, {len(whole.wrong)} wrong")
    sys.exit(bool(whole.wrong))


if __name__ == "__main__":
    main()
