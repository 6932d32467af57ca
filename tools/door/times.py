"""The processor seconds of what a run of `rt ci` began, by crate and by what it was for.

`rt` begins a process for each proof, wrong body, proof of tests and build. Each is looked at until
it ends, so the last half second of it is left out. The total is what the system counted.
"""
import os
import re

PROC = "/proc"
TICKS = os.sysconf("SC_CLK_TCK")
CRATE = re.compile(r"--crate-name\0(\w+)\0")
# What a process is for: the first of these that its folder and its words have. A build of a library
# is its proof.
KINDS = (("edits", re.compile(r"/rt-edit-")), ("tests", re.compile(r"\0--test\0")), ("build", re.compile(r"\0--backend\0")),
         ("proof", CRATE))
NAMES = ("proof", "edits", "tests", "build")
# How many crates are printed.
MOST = 20


def stat(pid):
    """Returns the parent, the start, and the processor seconds of a process."""
    with open(f"{PROC}/{pid}/stat", encoding="utf-8", errors="replace") as file:
        fields = file.read().rpartition(")")[2].split()
    return int(fields[1]), fields[19], (int(fields[11]) + int(fields[12])) / TICKS


def use(pid):
    """Returns for which crate a process works, and what it is for, or None if for no crate."""
    with open(f"{PROC}/{pid}/cmdline", encoding="utf-8", errors="replace") as file:
        words = file.read()
    crate = CRATE.search(words)
    if not crate:
        return None
    all_words = f"{os.readlink(f'{PROC}/{pid}/cwd')}\0{words}"
    return crate[1], next(kind for kind, shape in KINDS if shape.search(all_words))


class Times:
    """The seconds of the processes below a job."""

    def __init__(self):
        # of each process, by its number and its start: its use, and its seconds so far
        self.of = {}

    def look(self, top):
        """Looks at all processes below one."""
        below, processes = {top}, {}
        for name in os.listdir(PROC):
            if name.isdigit():
                try:
                    processes[int(name)] = stat(name)
                except OSError:
                    pass
        # a process has a greater number than its parent, until numbers begin anew
        for pid, (parent, start, seconds) in sorted(processes.items()):
            if parent in below:
                below.add(pid)
                self.note(pid, start, seconds)

    def note(self, pid, start, seconds):
        """Notes the seconds of a process. Its words may change once, as it becomes another program."""
        known = self.of.get((pid, start))
        try:
            self.of[pid, start] = (known and known[0] or use(pid), seconds)
        except OSError:
            pass

    def by_crate(self):
        """Returns the seconds of each crate, by what they were for."""
        crates = {}
        for it, seconds in self.of.values():
            if it:
                row = crates.setdefault(it[0], dict.fromkeys(NAMES, 0.0))
                row[it[1]] += seconds
        return crates

    def lines(self, total):
        """Returns the table: the sums of a run that took `total` seconds, and the dearest crates."""
        crates = self.by_crate()
        sums = {name: sum(row[name] for row in crates.values()) for name in NAMES}
        rest = max(0.0, total - sum(sums.values()))
        yield f"processor seconds: {total:.0f} ({', '.join(f'{name} {sums[name]:.0f}' for name in NAMES)}, rest {rest:.0f})"
        dearest = sorted(crates, key=lambda it: -sum(crates[it].values()))[:MOST]
        if dearest:
            yield f"{'':20}{'all':>7}" + "".join(f"{name:>7}" for name in NAMES)
        for crate in dearest:
            row = crates[crate]
            yield f"{crate:20}{sum(row.values()):7.0f}" + "".join(f"{row[name]:7.0f}" for name in NAMES)
