"""Runs the program qlock or qlock-show within a minute or two, with nothing proved. It compiles
anew at each call.

    ./unproved deal 5 < examples/wheel-3-planned.txt
    ./unproved check -f examples/wheel-3.toml -f examples/wheel-3.plan
    ./unproved qlock-show plan < examples/wheel-3-planned.txt

The program runs in a folder of its own, and gets a copy of each file that a word names.
"""
import os
import subprocess
import sys

import rt
from answers import Moved, Words
from crates import ROOT

NO_FILE = 3


def main(words):
    rt.want()
    crate = "qlock"
    if words[:1] in (["qlock"], ["qlock-show"]):
        crate, words = words[0].replace("-", "_"), words[1:]
    call = Words(words)
    for file in call.named():
        if file != "-" and not os.path.exists(file):
            print(f"unproved: there is no file {file}", file=sys.stderr)
            return NO_FILE
    moved = Moved(call, crate)
    with subprocess.Popen(rt.try_words(moved.words, moved.copies), cwd=os.path.join(ROOT, "crates", crate)) as run:
        try:
            status = run.wait()
        finally:
            run.terminate()
    print("unproved: nothing was proved", file=sys.stderr)
    return status if status >= 0 else 128 - status
