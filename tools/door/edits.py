"""Tries the wrong bodies in crates/NAME/more-must-fail: the prover has to refuse each.

    tools/more-must-fail                all crates: as long as the gate, if nothing was proved before
    tools/more-must-fail NAME..         these crates
    tools/more-must-fail --since REV    the crates that were changed since a revision of git

`rt ci` at the top tries those in must-fail alone, which the crates that carry the promises have:
all of them together would take it too long. Run this before each version, and for each crate that
was changed.

It runs `rt ci` on a copy in which these edits take the place of the others, and passes on what that
prints. It ends with status 1 if an edit was not refused, or if something else did not pass.
"""
import os
import subprocess
import sys
import tempfile
import time

import rt
from copies import Copy
from crates import CRATES, ROOT
from jobs import Job, ended_at_last

EDITS = "more-must-fail"


def changed_since(revision):
    """Returns the crates whose files differ from those of a revision."""
    words = ["git", "-C", ROOT, "diff", "--name-only", "--relative", revision, "--", "crates"]
    try:
        said = subprocess.run(words, check=True, stdout=subprocess.PIPE, text=True)
    except subprocess.CalledProcessError as fault:
        sys.exit(fault.returncode)
    return {name.split("/")[1] for name in said.stdout.splitlines() if name.count("/") > 1}


def main(wanted):
    every = [it for it in CRATES.lines if os.path.isdir(os.path.join(ROOT, "crates", it, EDITS))]
    if wanted[:1] == ["--since"]:
        if len(wanted) != 2:
            sys.exit("more-must-fail: --since is followed by one revision")
        revision, changed = wanted[1], changed_since(wanted[1])
        wanted = [it for it in every if it in changed]
        if not wanted:
            print(f"more-must-fail: no crate with such edits was changed since {revision}")
            return 0
    for crate in wanted:
        if crate not in every:
            sys.exit(f"more-must-fail: there is no crates/{crate}/{EDITS}")
    with tempfile.TemporaryDirectory(prefix="more-must-fail-") as room:
        copy = Copy(os.path.join(room, "crates"), wanted or every)
        copy.lay_out()
        for crate in copy.wanted:
            copy.take(crate, EDITS, "must-fail")
        run = Job("rt ci", ["rt", "ci"], os.path.join(room, "log"), copy.folder)
        log = rt.Log(run.log)
        with ended_at_last([run]):
            run.begin()
            while run.status() is None:
                time.sleep(1)
                print(log.read(), end="", flush=True)
        print(log.read(ended=True), end="")
        print(f"more-must-fail: {log.refused} edits were refused in this run")
        return run.status()
