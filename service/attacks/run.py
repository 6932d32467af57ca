#!/usr/bin/env python3
"""Attacks the service, on the loopback alone: each case makes a cluster of its own, and ends what it started.

    service/attacks/run.py NAME     one case; status 0: the service stands, 1: it is broken, 2: the trial itself failed
    service/attacks/run.py          all cases, three beside each other; --lanes N for another number
    service/attacks/run.py --list   the cases

With all cases, status 0 says that the service stands wherever it has to. The cases in `known-to-succeed` are attacks
that succeed: they are run and said, and change no status. A case that needs something that is not here has status 77.
A case whose trial failed is tried again once, alone, after all others. A case that is broken is not.

It needs service/out/bin (service/build cmd/qlock-voter cmd/qlockctl attacks/session), nats-server, openssl, and strace
for one case.
"""

import argparse
import os
import signal
import subprocess
import sys
import tempfile
import threading
import time
import traceback
from concurrent.futures import ThreadPoolExecutor
from pathlib import Path

import cases
import cluster

HERE = Path(__file__).resolve().parent
WORDS = {0: "stands", 1: "BROKEN", 2: "the trial failed", 77: "left out"}
TRIAL_FAILED, LEFT_OUT = 2, 77


def known() -> list[str]:
    """The cases of which it is known that the attack succeeds."""
    lines = (HERE / "known-to-succeed").read_text().splitlines()
    return [line.split()[0] for line in lines if line.strip() and not line.startswith("#")]


def run_one(name: str) -> int:
    """Runs a case in this process, and returns its status."""
    attack, limit = cases.CASES[name]

    def late() -> None:
        print(f"{name} took longer than {limit} s, and was ended", flush=True)
        cluster.end_all()
        os._exit(2)

    watchdog = threading.Timer(limit, late)
    watchdog.daemon = True
    watchdog.start()
    signal.signal(signal.SIGTERM, lambda *_: sys.exit(2))
    with tempfile.TemporaryDirectory(prefix="attack-", ignore_cleanup_errors=True) as room:
        try:
            return 0 if attack(Path(room)) else 1
        except cases.LeftOut as why:
            print(f"{name} is left out: {why}")
            return LEFT_OUT
        except Exception:
            traceback.print_exc(file=sys.stdout)
            return 2
        finally:
            cluster.end_all()


def run_apart(name: str) -> tuple[str, int, str, float]:
    """Runs a case in a process of its own."""
    began = time.monotonic()
    out = {"stdout": subprocess.PIPE, "stderr": subprocess.STDOUT, "stdin": subprocess.DEVNULL}
    p = subprocess.run([sys.executable, __file__, name], **out)
    return name, p.returncode, p.stdout.decode(errors="replace"), time.monotonic() - began


def note(status: int, is_known: bool) -> str:
    """What to say of a case that is in the list of those that succeed."""
    if not is_known or status not in (0, 1):
        return ""
    return ", as is known" if status == 1 else ", though it is in known-to-succeed"


def show(case: tuple[str, int, str, float], how: str = "") -> bool:
    """Prints how a case ended. Returns whether that is wrong."""
    name, status, text, took = case
    is_known = name in known()
    print(f"attack {name}: {WORDS.get(status, status)}{note(status, is_known)}{how} ({took:.0f} s)", flush=True)
    is_wrong = status not in (0, LEFT_OUT) and not (is_known and status == 1)
    if is_wrong:
        print(text, flush=True)
    return is_wrong


def run_all(lanes: int) -> int:
    """Runs all cases, and returns the status of all. A case whose trial failed says nothing of the service: it is tried
    again once, alone."""
    wrong, again = 0, []
    with ThreadPoolExecutor(lanes) as pool:
        for case in pool.map(run_apart, cases.CASES):
            if case[1] == TRIAL_FAILED:
                again.append(case[0])
                show(case, ", to be tried again")
            else:
                wrong += show(case)
    for name in again:
        wrong += show(run_apart(name), ", tried again")
    if again:
        print(f"note: attacks that were tried again: {' '.join(again)}")
    print(f"{len(cases.CASES)} attacks, {wrong} wrong; known to succeed: {', '.join(known()) or 'none'}")
    return 1 if wrong else 0


def main() -> None:
    """Runs one case, or all."""
    parser = argparse.ArgumentParser(description="Attacks the lock service, on the loopback.")
    parser.add_argument("name", nargs="?", choices=sorted(cases.CASES))
    parser.add_argument("--lanes", type=int, default=3)
    parser.add_argument("--list", action="store_true")
    words = parser.parse_args()
    if words.list:
        for name, (attack, _) in cases.CASES.items():
            print(f"{name:<28} {attack.__doc__}")
        return
    sys.exit(run_one(words.name) if words.name else run_all(words.lanes))


if __name__ == "__main__":
    main()
