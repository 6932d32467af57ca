"""Tests of the processor seconds of a run."""
import subprocess
import sys
import time
import unittest

from place import Place
import times

# A process that works until it is told to end.
WORKS = "import sys\nprint(flush=True)\nwhile True: pass"


class TestTimes(Place):
    def begin(self, *words, folder="."):
        """Begins a process with these words, and waits until it works."""
        process = subprocess.Popen([sys.executable, "-c", WORKS, *words], cwd=folder, stdout=subprocess.PIPE)
        self.addCleanup(process.stdout.close)
        self.addCleanup(process.wait)
        self.addCleanup(process.kill)
        process.stdout.readline()
        return process

    def test_seconds_by_crate(self):
        self.write("rt-edit-1/file", "")
        own = times.Times()
        self.begin("build", "--crate-name", "numbers", "src/lib.rt")
        self.begin("build", "--crate-name", "numbers", "src/lib.rt", "--test", "x")
        self.begin("build", "--crate-name", "qlock", "src/main.rt", "--backend", "llvm")
        self.begin("check", "--crate-name", "voter", "src/lib.rt", folder=self.at("rt-edit-1"))
        self.begin("something", "else")
        time.sleep(1)
        own.look(times.os.getpid())
        rows = own.by_crate()
        worked = {(crate, kind) for crate, row in rows.items() for kind, seconds in row.items() if seconds > 0}
        self.assertEqual(worked, {("numbers", "proof"), ("numbers", "tests"), ("qlock", "build"), ("voter", "edits")})
        head, names, *table = own.lines(100)
        self.assertRegex(head, r"^processor seconds: 100 \(proof \d+, edits \d+, tests \d+, build \d+, rest 9\d\)$")
        self.assertEqual(names.split(), ["all", *times.NAMES])
        self.assertEqual({line.split()[0] for line in table}, {"numbers", "qlock", "voter"})

    def test_nothing_ran(self):
        self.assertEqual([*times.Times().lines(0)], ["processor seconds: 0 (proof 0, edits 0, tests 0, build 0, rest 0)"])


if __name__ == "__main__":
    unittest.main()
