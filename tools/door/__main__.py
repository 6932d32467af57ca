"""The program behind ./qlock, ./library, ./check and others.

    python3 tools/door MODULE WORDS..     (each door names one of the modules beside this file)
"""
import importlib
import os
import signal
import subprocess
import sys

import jobs


def serve(module, words):
    """Has a module serve these words, and returns the status."""
    try:
        status = importlib.import_module(module).main(words)
        sys.stdout.flush()
        return status
    except subprocess.CalledProcessError as failed:
        sys.exit(f"{module}: {failed.cmd[0]} ended with status {failed.returncode}")
    except BrokenPipeError:
        return 128 + signal.SIGPIPE
    finally:
        forget_unread()


def forget_unread():
    """Drops what is yet to be written, if nobody reads any more."""
    signal.signal(signal.SIGPIPE, signal.SIG_IGN)
    try:
        sys.stdout.flush()
    except BrokenPipeError:
        os.dup2(os.open(os.devnull, os.O_WRONLY), sys.stdout.fileno())


if __name__ == "__main__":
    jobs.end_at_signals()
    for stream in (sys.stdout, sys.stderr):
        stream.reconfigure(errors="replace")
    sys.exit(serve(sys.argv[1], sys.argv[2:]))
