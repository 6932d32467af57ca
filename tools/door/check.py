"""Runs all checks of the repository, and says which one runs, and which passed.

    ./check

`rt ci` proves every crate and its tests, has the prover refuse wrong bodies, and runs tests and
programs. It takes nearly all of the time. The other checks (CHECKS) run beside it, each once all
that it needs is there. What ran beside others is printed at the end, then which crates took the
most processor seconds. The run ends with the first check that is found to have failed, and with its
status. Lines of a check that begin with "note:" are said once more at the end: what was left out,
and what needed a second try.
"""
import os
import sys
import tempfile
import time

import rt
from build import minutes
from jobs import Job, ended_at_last
from times import Times

# The word for all that is to be proved. Programs and tests run after it, one at a time.
PROOFS = "proofs"
# A check is a line: its name, its command, and what it needs. That is crates, which have to be
# proved, earlier checks, which have to have passed, or the proofs. (The first three need fewer
# crates, but the longest chain of crates goes first. The service is built again for its package.
# Embedding has leases of milliseconds.)
CHECKS = (
    ("tools", "python3 -m unittest discover -q -s tools/door/tests", ""),
    ("must-not-compile", "must-not-compile/run.sh", "qlock"),
    ("examples", "examples/check.sh", "qlock qlock_show"),
    ("hostile", "hostile/run.py", "qlock qlock_show demo_members"),
    ("library", "./library", "qlock_c qlock_session_c qlock_plan_c"),
    ("service", "service/check.sh", "library"),
    ("packaging", "packaging/check.sh", "service qlock qlock_show"),
    ("embedding", "examples/embed/check.sh", "proofs examples hostile packaging"),
)
# How many seconds pass between two looks at what has ended.
PAUSE = 0.5
# How a line begins that is said once more at the end.
NOTE = "note: "


class Run:
    """A run of all checks, whose outputs are in this folder."""

    def __init__(self, room, checks):
        self.jobs = [Job(name, command.split(), os.path.join(room, f"{name}.log"), needs=needs.split())
                     for name, command, needs in checks]
        self.named = {job.name: job for job in self.jobs}
        self.proofs = Job("rt ci", ["rt", "ci"], os.path.join(room, f"{PROOFS}.log"))
        self.log, self.times = rt.Log(self.proofs.log), Times()
        # those whose end was reported
        self.reported = set()

    def is_there(self, need):
        """Returns whether a check has passed, or what is to be proved is."""
        if need in self.named:
            return self.named[need].status() == 0
        return self.proofs.status() == 0 or (self.log.ran if need == PROOFS else need in self.log.proved)

    def look(self):
        """Passes on what `rt ci` printed, and begins each check that need not wait any more."""
        ended = self.proofs.status() is not None
        if not ended:
            self.times.look(self.proofs.process.pid)
        print(self.log.read(ended), end="", flush=True)
        for job in self.jobs:
            if not job.process and all(self.is_there(it) for it in job.needs):
                job.begin()

    def wait_for(self, job):
        """Waits until a job has ended, and reports it. Ends the run if it failed."""
        while job.status() is None:
            self.look()
            time.sleep(PAUSE)
        self.look()
        self.reported.add(job)
        if job is not self.proofs:
            print(job.printed(), end="", flush=True)
        if job.status() != 0:
            print(f"check: {job.name} failed", file=sys.stderr)
            sys.exit(job.status())

    def pass_all(self):
        """Runs all checks."""
        total = len(self.jobs) + 1
        for number, job in enumerate(self.jobs, 1):
            print(f"check: {number} of {total}, beside others: {job.name}")
        print(f"check: {total} of {total}: rt ci", flush=True)
        began = time.monotonic()
        self.proofs.begin()
        self.wait_for(self.proofs)
        print(f"check: rt ci passed in {minutes(time.monotonic() - began)}", flush=True)
        for job in self.jobs:
            self.wait_for(job)
            print(f"check: {job.name}, which ran beside others, passed in {job.seconds:.0f} processor seconds", flush=True)
        print(*(f"check: {line}" for line in self.times.lines(self.proofs.seconds)), sep="\n", flush=True)
        for job in self.jobs:
            for line in job.printed().splitlines():
                if line.startswith(NOTE):
                    print(f"check: {job.name}: {line[len(NOTE):]}", flush=True)

    def tell_of_the_rest(self, running):
        """Prints what those printed that were ended, or failed unreported."""
        for job in self.jobs:
            if job in running and job.printed():
                print(f"check: {job.name} was ended; so far it printed:\n{job.printed()}", end="")
            elif job.status() and job not in running and job not in self.reported:
                print(f"check: {job.name} failed:\n{job.printed()}", end="")
        sys.stdout.flush()


def main(_):
    with tempfile.TemporaryDirectory(prefix="qlock-check-") as room:
        run = Run(room, CHECKS)
        with ended_at_last([*run.jobs, run.proofs], run.tell_of_the_rest):
            run.pass_all()
