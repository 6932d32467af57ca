"""Runs a program of crates/.

    tools/run CRATE [--wait] WORDS..     (./qlock and ./qlock-show are short for two of them)

The first call proves the program, builds it (build.py), and keeps the executable in build/. Later
calls just run it. After a change of the sources the next call proves and builds again. What `rt ci`
has proved and built is taken as it is.

At a terminal qlock and qlock-show give a first answer before the proof (answers.py), unless --wait
comes first.
"""
import os
import sys

import answers
from build import build, is_current, product, put, sources
from crates import CRATES, ROOT


def is_built(crate):
    """Returns whether a program is built as the sources are. Takes what `rt` built of them."""
    # rt puts the program here once it has proved it, and at no other time
    proved = os.path.join(ROOT, "crates", crate, "out", crate)
    if not is_current(crate, product(crate)) and is_current(crate, proved):
        put(proved, product(crate))
    return is_current(crate, product(crate))


def note_sources(crate):
    """Writes down for tools/run which folders the program is made of."""
    file = f"{product(crate)}.sources"
    with open(f"{file}.{os.getpid()}", "w", encoding="utf-8") as new:
        new.writelines(f"{os.path.relpath(it, ROOT)}\n" for it in sources(crate))
    os.replace(new.name, file)


def ready(crate):
    """Proves and builds a program if it has to be, and returns its file."""
    if not is_built(crate):
        print(f"{crate}: proving and building the program, once; README.md says how long this takes", file=sys.stderr)
        build([crate])
    note_sources(crate)
    return product(crate)


def main(words):
    crate, *words = words or [""]
    if crate not in CRATES.lines:
        sys.exit(f"run: crates.txt has no {crate}")
    waits = words[:1] == ["--wait"]
    words = words[waits:]
    if not waits and answers.are_wanted(crate, words) and not is_built(crate):
        status = answers.answer(crate, words)
        if status is not None:
            note_sources(crate)
            return status
    program = ready(crate)
    sys.stdout.flush()
    os.execv(program, [program, *words])


