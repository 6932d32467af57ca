"""Commands in groups of processes of their own, which end with the run that began them."""
import contextlib
import os
import signal
import subprocess
import sys
import time

from crates import ROOT

STOPS = (signal.SIGHUP, signal.SIGINT, signal.SIGPIPE, signal.SIGTERM)
# The statuses of a run that one of them ended.
SIGNALLED = tuple(128 + it for it in STOPS)
# How many seconds a job has to end once it is told to.
PATIENCE = 20
# The signals that came while a job was begun.
_late = None


def _stop(number, _):
    if _late is None:
        sys.exit(128 + number)
    _late.append(number)


def end_at_signals():
    """Has each signal that ends the run end it as a fault does, so that nothing is left behind."""
    for it in STOPS:
        # one that nobody wants to hear of, as under nohup, stays so; Python itself ignores SIGPIPE
        if signal.getsignal(it) != signal.SIG_IGN or it == signal.SIGPIPE:
            signal.signal(it, _stop)


@contextlib.contextmanager
def undisturbed():
    """Has signals wait until a step is done."""
    global _late
    _late = []
    try:
        yield
    finally:
        came, _late = _late, None
    if came:
        sys.exit(128 + came[0])


class Job:
    """A command. What it prints goes to a file."""

    def __init__(self, name, words, log, folder=ROOT, needs=()):
        self.name, self.words, self.log, self.folder, self.needs = name, words, log, folder, needs
        self.process = None
        # the processor seconds of all its processes, once it has ended
        self.seconds = 0.0

    def begin(self, stdin=subprocess.DEVNULL, stdout=None):
        """Begins the command, whose standard output goes to another file if there is one."""
        with undisturbed(), open(self.log, "wb") as log:
            self.process = subprocess.Popen(self.words, cwd=self.folder, stdin=stdin, stdout=stdout or log, stderr=log,
                                            start_new_session=True)

    def status(self):
        """Returns the exit status, as a shell has it, or None before the end."""
        if not self.process or self.is_running():
            return None
        return self.process.returncode if self.process.returncode >= 0 else 128 - self.process.returncode

    def is_running(self):
        """Returns whether the command is still there. Notes its processor seconds at its end."""
        if self.process and self.process.returncode is None:
            pid, status, usage = os.wait4(self.process.pid, os.WNOHANG)
            if pid:
                self.process.returncode = os.waitstatus_to_exitcode(status)
                self.seconds = usage.ru_utime + usage.ru_stime
        return bool(self.process) and self.process.returncode is None

    def printed(self):
        """Returns what the command printed so far."""
        with open(self.log, encoding="utf-8", errors="replace") as file:
            return file.read()


def end(running):
    """Ends these jobs, with all their processes."""
    for number in (signal.SIGTERM, signal.SIGKILL):
        for job in running:
            with contextlib.suppress(ProcessLookupError):
                os.killpg(job.process.pid, number)
        until = time.monotonic() + PATIENCE
        for job in running:
            with contextlib.suppress(subprocess.TimeoutExpired):
                job.process.wait(max(0.1, until - time.monotonic()))
        running = [it for it in running if it.is_running()]


@contextlib.contextmanager
def ended_at_last(jobs, tell=lambda running: None):
    """Ends what runs of these jobs after a step, and tells of it, whatever signals come then."""
    try:
        yield
    finally:
        before = {it: signal.signal(it, signal.SIG_IGN) for it in STOPS}
        running = [it for it in jobs if it.is_running()]
        end(running)
        # (it may be that nobody reads any more)
        with contextlib.suppress(BrokenPipeError):
            tell(running)
        for it, action in before.items():
            signal.signal(it, action)
