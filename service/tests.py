#!/usr/bin/env python3
"""Runs tests of Go, and those that fail once more, alone.

    service/tests.py COMMAND PACKAGE ..      (COMMAND is one argument: `go test -race ..`)

Many tests of the service wait for times to pass, and a machine with much else to do may stand still for longer than they
allow. So tests that fail are run again, one package after the other, and have to pass then. What is no matter of time fails
at once: a data race, a panic, tests that take too long, what can't be built, or more than a few failures.
"""

import re
import subprocess
import sys

MOST = 5  # more tests than this don't fail by chance
NEVER_AGAIN = ("WARNING: DATA RACE", "race detected during execution", "panic:", "[build failed]", "[setup failed]",
               "fatal error:")
FAILED = re.compile(r"--- FAIL: (\w+)")
PACKAGE = re.compile(r"FAIL\t(\S+)\t")


def run(command):
    """Runs a command, shows what it prints, and returns its status and its lines."""
    lines = []
    with subprocess.Popen(command, stdout=subprocess.PIPE, stderr=subprocess.STDOUT, text=True, errors="replace") as process:
        for line in process.stdout:
            print(line, end="", flush=True)
            lines.append(line)
    return process.returncode, lines


def failures(lines):
    """Returns the tests that failed, by package, or None if they may not be tried again."""
    by_package, failed, packages = {}, [], 0
    for line in lines:
        if any(word in line for word in NEVER_AGAIN):
            return None
        if match := FAILED.match(line):
            failed.append(match[1])
        elif match := PACKAGE.match(line):
            if not failed:
                return None
            by_package[match[1]], failed = failed, []
    if failed or not by_package or sum(map(len, by_package.values())) > MOST:
        return None
    return by_package


def main(command, packages):
    command = command.split()
    status, lines = run([*command, *packages])
    if status == 0:
        return 0
    again = failures(lines)
    if again is None:
        return status
    for package, names in again.items():
        print(f"tests: once more, alone: {package} {' '.join(names)}", flush=True)
        status, _ = run([*command, "-run", f"^({'|'.join(names)})$", package])
        if status != 0:
            return status
    print(f"note: tests that passed at the second try: {' '.join(name for names in again.values() for name in names)}")
    return 0


if __name__ == "__main__":
    sys.exit(main(sys.argv[1], sys.argv[2:]))
