#!/usr/bin/env python3
"""Runs a program at a terminal of its own, types an input, and prints what the terminal shows.

    examples/terminal.py INPUT PROGRAM WORDS..
"""
import os
import pty
import subprocess
import sys
import termios

END_OF_INPUT = b"\x04"


def without_echo(terminal):
    """Has a terminal show what is written to it only, and newlines as they are."""
    settings = termios.tcgetattr(terminal)
    settings[1] &= ~termios.OPOST
    settings[3] &= ~termios.ECHO
    termios.tcsetattr(terminal, termios.TCSANOW, settings)


def shown(person):
    """Returns what the terminal shows until its last program has ended."""
    text = b""
    try:
        while piece := os.read(person, 4096):
            text += piece
    except OSError:  # the other end is closed
        pass
    return text


def main(path, words):
    person, terminal = pty.openpty()
    without_echo(terminal)
    with open(path, "rb") as file:
        typed = file.read()
    with subprocess.Popen(words, stdin=terminal, stdout=terminal, stderr=terminal) as run:
        os.close(terminal)
        os.write(person, typed + END_OF_INPUT)
        text = shown(person)
        status = run.wait()
    sys.stdout.buffer.write(text)
    print(f"status {status}")


if __name__ == "__main__":
    main(sys.argv[1], sys.argv[2:])
