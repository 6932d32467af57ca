"""Proves programs and static libraries of crates/, and builds them: build/CRATE, or
build/libCRATE.a.

It works on copies of the crates without their wrong bodies, in a temporary folder outside of the
checkout: `rt ci` refuses a checkout that has another one inside. All is proved by `rt ci`, which
proves independent crates side by side. Each static library has a copy of its own, where the kit's
`rattle build` makes the archive over what was proved there.

Some kits keep what `rt ci` passed, here or in the gate, and then take it as it is. Such a kit
proves the crates that are named (`rt ci NAME..`), and gives a crate several processors if no other
crate of its run is ready. So the longest chains of crates have a run of their own each, and one run
has what lies beside them. The last run takes what all of these passed, and proves the rest. A kit
that keeps nothing proves all in one run.

What `rt ci` has proved in the checkout itself, as the gate does, is in its crates. An archive is made
over that, if it is there.
"""
import os
import shutil
import sys
import tempfile
import time

import rt
from copies import Copy
from crates import BUILD, CRATES, ROOT
from jobs import SIGNALLED, Job, ended_at_last

# What a crate costs before its first line is proved, in lines: reading the crates below it.
LINES_OF_A_START = 1500
# How many seconds pass between two looks at how far it is.
PAUSE = 0.5
# How many seconds a run has to take the crates below it, before the next one comes to them.
HEAD_START = 2
# The ends of the longest chains of crates: plans that are dealt, scripts, and threads.
CHAINS = ("dealer", "replay", "cluster")
# The name of the run for the crates beside these chains.
BESIDE = "beside"
# The runs before the last one, and which of them each waits for.
RUNS = {it: () for it in (*CHAINS, BESIDE)} | {"commands": ("replay", BESIDE), "runs": ("replay", "cluster")}
# Those that leave others the way, by how much: both other chains depend on the first one.
NICE = {"replay": 5, "cluster": 5, BESIDE: 10}


def product(crate):
    """Returns what is built of a crate, in build/."""
    return os.path.join(BUILD, f"lib{crate}.a" if CRATES.is_library(crate) else crate)


def sources(crate):
    """Returns the folders of the sources of a crate and of all crates below it."""
    return [os.path.join(ROOT, "crates", it, "src") for it in sorted(CRATES.below([crate]))]


def is_current(crate, file):
    """Returns whether a file that was built of a crate is there, and no source is newer."""
    return os.path.exists(file) and all(newest(it) <= os.stat(file).st_mtime_ns for it in sources(crate))


def newest(folder):
    """Returns when a folder, or what is in it, last changed."""
    files = (os.path.join(place, name) for place, _, names in os.walk(folder) for name in (".", *names))
    return max((os.stat(it).st_mtime_ns for it in files), default=0)


def statements(root, crate):
    """Returns the file that a crate has which `rt` has proved there, and at no other time."""
    return os.path.join(root, "crates", crate, "out", "rlib", f"{crate}.rlib", "format")


def is_proved(crate):
    """Returns whether a crate of the checkout is proved as its sources are, and all below it."""
    file, parts = statements(ROOT, crate), ("src", "specs", "proofs")
    folders = [os.path.join(ROOT, "crates", it, part) for it in CRATES.below([crate]) for part in parts]
    return os.path.exists(file) and all(newest(it) <= os.stat(file).st_mtime_ns for it in folders if os.path.exists(it))


def archive_words(root, crate):
    """Returns the command that proves a static library over what is proved there, and archives it."""
    kit = rt.kit()
    own = sorted(CRATES.below([crate]) - {crate})
    # a library that crates.txt does not list is the kit's
    uses = {use for it in (*own, crate) for use in CRATES.uses(it)}
    words = [f"{kit}/bin/rattle", "build", "--crate-name", crate, "src/lib.rt", "--crate-type", "staticlib"]
    places = {it: f"{kit}/rlibs" for it in ["std", *sorted(uses - {*CRATES.lines})]}
    places |= {it: os.path.join(root, "crates", it, "out", "rlib") for it in own}
    words += [word for it, place in places.items() for word in ("--extern", f"{it}={place}/{it}.rlib")]
    words += [word for place in dict.fromkeys(places.values()) for word in ("-L", f"dependency={place}")]
    words += ["--antt-project", f"{kit}/rattle/logic/antt-project.json", "--logic-built", f"{kit}/logic_built"]
    return [*words, "--toolchain", f"{kit}/toolchain", "--backend", "llvm", "--jobs", "2", "-o", f"out/lib{crate}.a"]


def weight(crate):
    """Returns about how long a crate takes, in lines."""
    total = LINES_OF_A_START
    for part in ("src", "specs", "proofs"):
        for folder, _, files in os.walk(os.path.join(ROOT, "crates", crate, part)):
            for name in files:
                with open(os.path.join(folder, name), "rb") as file:
                    total += file.read().count(b"\n")
    return total


class Build(Copy):
    """A copy in which these crates are proved."""

    def __init__(self, room, name, wanted, keeps, nicer):
        super().__init__(os.path.join(room, name), wanted)
        # a static library is proved as its archive is made, and is beside the copy
        self.archived = {it: os.path.join(room, f"{it}-archive") for it in wanted if CRATES.is_library(it)}
        self.below_is_proved = all(is_proved(it) for it in self.crates - {*wanted}) and self.archived.keys() >= {*wanted}
        self.weights = {it: weight(it) for it in (wanted if self.below_is_proved else self.crates)}
        log = os.path.join(BUILD, f"{name}.log")
        before = RUNS if keeps and CRATES.below(RUNS) <= self.crates else {}
        self.runs = {it: Job(it, self.words(it, nicer), f"{log}.{it}", self.folder, needs)
                     for it, needs in before.items()}
        self.last = Job(name, self.last_words(), log, self.folder, tuple(before))
        self.logs = {}

    def words(self, name, nicer):
        """Returns the command of a run before the last one: some crates, and all below them."""
        beside = (it for it in self.crates - CRATES.below(CHAINS) if not CRATES.below([it]) & {*CHAINS})
        names = [name] if name != BESIDE else sorted(beside)
        return ["nice", "-n", str(NICE.get(name, 0) + nicer), "rt", "ci", *names]

    def last_words(self):
        """Returns the command of the last run."""
        crate = self.wanted[0]
        if not CRATES.is_library(crate):
            return ["rt", "ci"]
        first, root = (":", ROOT) if self.below_is_proved else ("rt ci", self.folder)
        return ["sh", "-c", f'{first} && cd "$0" && exec "$@"', self.place(crate), *archive_words(root, crate)]

    def lay_out(self):
        super().lay_out()
        for crate, folder in self.archived.items():
            os.rename(os.path.join(self.folder, "crates", crate), folder)
            os.mkdir(os.path.join(folder, "out"))
            self.list_crates(self.crates - {crate})

    def place(self, crate):
        """Returns the folder of a crate that is built."""
        return self.archived.get(crate) or os.path.join(self.folder, "crates", crate)

    def jobs(self):
        return [*self.runs.values(), self.last]

    def go_on(self):
        """Begins the runs that need not wait any more. Returns whether the last one has ended."""
        for run in self.jobs():
            if not run.process and all(self.runs[it].status() is not None for it in run.needs):
                run.begin()
                self.logs[run.name] = rt.Log(run.log)
                if run is not self.last:
                    time.sleep(HEAD_START)
        return self.last.status() is not None

    def done(self):
        """Returns which crates are proved: those that the runs name, or that have statements."""
        if self.last.status() == 0:
            return self.weights.keys()
        for log in self.logs.values():
            log.read()
        named = set().union(*(log.proved for log in self.logs.values()))
        return {it for it in self.weights if it in named or os.path.exists(statements(self.folder, it))}

    def keep(self):
        """Puts what was built into build/."""
        for crate in self.wanted:
            put(os.path.join(self.place(crate), "out", os.path.basename(product(crate))), product(crate))

    def complain(self):
        """Prints what was not proved, and ends."""
        log = self.logs[self.last.name]
        log.read(ended=True)
        print(*log.wrong[:5] or log.end_of(20), sep="\n", file=sys.stderr)
        sys.exit(f"{', '.join(self.wanted)}: not all was proved; the whole output is in {log.path}")


def put(file, to):
    """Puts a copy of a file there in one step: whoever uses the one before still can."""
    os.makedirs(os.path.dirname(to), exist_ok=True)
    new = f"{to}.{os.getpid()}"
    shutil.copy(file, new)
    os.replace(new, to)


def minutes(seconds):
    """Returns a number of minutes in words."""
    number = round(seconds / 60)
    return f"{number} minute{'s' * (number != 1)}"


class Building:
    """The proofs and builds of some programs and libraries, which go on when they are looked at."""

    def __init__(self, room, wanted, nicer):
        self.names, self.began, self.said = ", ".join(wanted), time.time(), None
        keeps, programs = rt.keeps(), [it for it in wanted if not CRATES.is_library(it)]
        os.makedirs(BUILD, exist_ok=True)
        self.copies = [Build(room, "-".join(programs), programs, keeps, nicer)] if programs else []
        self.copies += [Build(room, it, [it], keeps, nicer) for it in wanted if CRATES.is_library(it)]
        for copy in self.copies:
            copy.lay_out()

    def jobs(self):
        return [job for copy in self.copies for job in copy.jobs()]

    def go_on(self):
        """Begins what is ready, and says how far it is. Returns whether all is proved and built."""
        if not all([copy.go_on() for copy in self.copies]):
            self.say()
            return False
        for copy in self.copies:
            if copy.last.status() != 0:
                copy.complain()
            copy.keep()
        print(f"{self.names}: proved and built in {minutes(time.time() - self.began)}", file=sys.stderr)
        return True

    def say(self):
        """Prints how many crates are proved, and about how long the rest takes, if that changed."""
        done = [copy.weights[it] for copy in self.copies for it in copy.done()]
        every = [weight for copy in self.copies for weight in copy.weights.values()]
        spent = time.time() - self.began
        if len(done) != self.said:
            line = f"{self.names}: {len(done)} of {len(every)} crates proved"
            if done and len(done) < len(every) and spent > 30:
                left = max(60, (sum(every) - sum(done)) / sum(done) * spent)
                line += f", about {minutes(left)} left if nothing else runs here"
            print(line, file=sys.stderr, flush=True)
        self.said = len(done)


def build(wanted, at_each_look=lambda: None, nicer=0):
    """Proves and builds these programs and libraries, and leaves others the way by so much more."""
    rt.want()
    # (the folder goes at signals, too)
    with tempfile.TemporaryDirectory(prefix="qlock-build-") as room:
        try:
            building = Building(room, wanted, nicer)
            with ended_at_last(building.jobs()):
                while not building.go_on():
                    at_each_look()
                    time.sleep(PAUSE)
        except SystemExit as end:
            if end.code in SIGNALLED:
                print(f"{', '.join(wanted)}: stopped; what was proved is taken the next time, where the kit keeps it",
                      file=sys.stderr)
            raise
