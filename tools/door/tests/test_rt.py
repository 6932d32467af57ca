"""Tests of what rt prints."""
import os
import tempfile
import unittest

import place
import rt

SAID = b"""rt: numbers proved
rt: texts is kept: an earlier run on this machine proved the same files over the same libraries
rt: dealer: its tests are proved
rt: board NOT PROVED: its library voter failed
rt: numbers/never_adds: refused, as it must be
"""


class TestLog(unittest.TestCase):
    def setUp(self):
        with tempfile.NamedTemporaryFile(delete=False) as file:
            self.path = file.name
        self.addCleanup(os.unlink, self.path)
        self.log = rt.Log(self.path)

    def add(self, text):
        with open(self.path, "ab") as file:
            file.write(text)

    def test_proved(self):
        self.add(SAID)
        self.assertEqual(self.log.read(), SAID.decode())
        self.assertEqual(self.log.proved, {"numbers", "texts"})
        self.assertEqual(self.log.wrong, ["rt: board NOT PROVED: its library voter failed"])
        self.assertEqual(self.log.refused, 1)
        self.assertFalse(self.log.ran)

    def test_growing(self):
        self.add(b"rt: numbers pro")
        self.assertEqual(self.log.read(), "")
        self.add(b"ved\nrt: te")
        self.assertEqual(self.log.read(), "rt: numbers proved\n")
        self.assertEqual(self.log.read(), "")
        self.assertEqual(self.log.read(ended=True), "rt: te")
        self.assertEqual(self.log.proved, {"numbers"})

    def test_bytes(self):
        self.add(b"\xff\xfe\n")
        self.log.read()
        self.add(b"rt: numbers proved\n")
        self.assertEqual(self.log.read(), "rt: numbers proved\n")

    def test_runs(self):
        for line in (b"rt: test_texts: its tests passed", b"rt: test_texts: its tests FAILED",
                     b"rt: qlock ran, and wrote what its file stdout has"):
            log = rt.Log(self.path)
            log.take(line.decode())
            self.assertTrue(log.ran, line)

    def test_counts(self):
        self.add(b"rt: FAILED: board\n12 passed, 3 failed\n")
        self.log.read()
        self.assertEqual(self.log.counts, (12, 3))
        self.assertEqual(self.log.wrong, ["rt: FAILED: board"])

    def test_counts_of_names(self):
        self.log.take("7 passed, 0 failed (dealer and the crates below alone: not the gate)")
        self.assertEqual(self.log.counts, (7, 0))


class TestTry(unittest.TestCase):
    def test_words(self):
        self.assertEqual(rt.try_words(["check", "-f", "a"], {"a": "/b/c"}),
                         ["rt", "try", "--data", "a=/b/c", "--", "check", "-f", "a"])

    def test_ended(self):
        said = (b"rt: a check will refuse this: a name\nE7 Disjoint\nrt: what a program says\nchecked: ended status=1\n"
                b"races: not looked for, since a kit has no ThreadSanitizer\n"
                b"run=ended status=1 runners=1 races=unchecked proved=no\n")
        self.assertEqual(rt.said_by_try(said), (b"E7 Disjoint\nrt: what a program says\n", 1))

    def test_quiet(self):
        self.assertEqual(rt.said_by_try(b"checked: ended status=0\nrun=ended status=0 runners=1 proved=no\n"), (b"", 0))

    def test_no_answer(self):
        for said in (b"", b"src/main.rt: error\nrun=none proved=no\n", b"run=fault proved=no\n"):
            self.assertIsNone(rt.said_by_try(said)[1])


class TestKit(place.Place):
    def test_keeps(self):
        path, os.environ["PATH"] = os.environ["PATH"], self.given["PATH"]
        self.addCleanup(os.environ.update, {"PATH": path, "PLACE": ""})
        os.environ.update(PLACE=self.room, HELP="  rt ci   the gate")
        self.assertFalse(rt.keeps())
        os.environ["HELP"] = "  rt ci NAME..   some"
        self.addCleanup(os.environ.pop, "HELP")
        self.assertTrue(rt.keeps())


if __name__ == "__main__":
    unittest.main()
