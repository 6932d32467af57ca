"""Begins a check of all, and ends it at its first proof: nothing that was built may be in its
way."""
import os
import tempfile
import time

import rt
from jobs import Job, ended_at_last


def main(_):
    with tempfile.TemporaryDirectory(prefix="qlock-again-") as room:
        job = Job("rt ci", ["rt", "ci"], os.path.join(room, "log"))
        log = rt.Log(job.log)
        with ended_at_last([job]):
            job.begin()
            while job.status() is None and not log.proved:
                time.sleep(1)
                log.read()
        log.read(ended=True)
        if not log.proved:
            print("a second check can't begin:", *log.end_of(5), sep="\n")
            return 1
    print("a second check begins as the first one did")
    return 0
