"""Tests of crates.txt, and of the copies of crates."""
import os
import unittest

from place import Place
from copies import Copy
from crates import CRATES, Crates

LINES = """# layers
low:
left: low serde  # the kit's
right: low left
top staticlib: right left
apart:
"""


class TestCrates(unittest.TestCase):
    def setUp(self):
        self.crates = Crates(LINES)

    def test_lines(self):
        self.assertEqual(list(self.crates.lines), ["low", "left", "right", "top", "apart"])
        self.assertEqual(self.crates.lines["left"], "left: low serde")
        self.assertEqual(self.crates.uses("left"), ["low", "serde"])
        self.assertEqual(self.crates.uses("serde"), [])

    def test_libraries(self):
        self.assertTrue(self.crates.is_library("top"))
        self.assertFalse(self.crates.is_library("right"))

    def test_walk(self):
        self.assertEqual(self.crates.walk(["top"]), ["top", "right", "left", "low", "serde"])
        self.assertEqual(self.crates.walk(["apart", "low"]), ["apart", "low"])

    def test_below(self):
        self.assertEqual(self.crates.below(["right", "none"]), {"right", "left", "low"})
        self.assertEqual(self.crates.below([]), set())

    def test_of_tree(self):
        for crate in CRATES.lines:
            self.assertNotIn(crate, CRATES.walk(CRATES.uses(crate)), "a cycle")


class TestDoor(Place):
    def test_below(self):
        ran = self.run_door("tools/below", "qlock", "qlock_show")
        self.assertEqual((ran.stdout.split(), ran.returncode), (["qlock", "qlock_show", "numbers", "clap"], 0))

    def test_unlisted(self):
        ran = self.run_door("tools/below", "qlock", "none")
        self.assertEqual((ran.stdout, ran.stderr, ran.returncode), ("", "below: crates.txt has no none\n", 1))

    def test_copy(self):
        copy = Copy(os.path.join(self.room, "copy"), ["fence"])
        copy.lay_out()
        self.assertEqual(set(os.listdir(os.path.join(copy.folder, "crates"))), CRATES.below(["fence"]))
        self.assertFalse(os.path.exists(os.path.join(copy.folder, "crates", "fence", "must-fail")))


if __name__ == "__main__":
    unittest.main()
