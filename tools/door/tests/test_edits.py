"""The wrong bodies beside the gate."""
import subprocess
import unittest

from place import Place

EDIT = "file: src/lib.rt\nold: fn nothing() {}\nnew: fn nothing() { unreachable!() }\n"
# A run of `rt ci` in which each wrong body is refused, and something else is wrong.
REFUSES = """#!/bin/sh
for it in crates/*/must-fail/*; do echo "rt: $it: refused, as it must be"; done
exit 1
"""


class Edits(Place):
    def setUp(self):
        super().setUp()
        self.write("crates/numbers/more-must-fail/ends.edit", EDIT)
        self.git("init", "-q")
        self.git("add", "-A")
        self.git("-c", "user.name=n", "-c", "user.email=e", "commit", "-qm", "first")

    def git(self, *words):
        subprocess.run(["git", *words], cwd=self.tree, check=True)

    def test_crate_without_edits_is_refused(self):
        said = self.run_door("tools/more-must-fail", "qlock")
        self.assertEqual(said.stderr, "more-must-fail: there is no crates/qlock/more-must-fail\n")
        self.assertEqual(said.returncode, 1)
        self.assertEqual(self.calls(), [])

    def test_named_crates_are_tried(self):
        said = self.run_door("tools/more-must-fail", "numbers")
        self.assertEqual((said.returncode, self.calls()), (0, ["ci"]))
        self.assertIn("rt: numbers proved\n", said.stdout)

    def test_only_crates_that_were_changed_are_tried(self):
        said = self.run_door("tools/more-must-fail", "--since", "HEAD")
        self.assertEqual((said.returncode, self.calls()), (0, []))
        self.write("crates/qlock/src/lib.rt", "fn other() {}\n")
        said = self.run_door("tools/more-must-fail", "--since", "HEAD")
        self.assertEqual((said.returncode, self.calls()), (0, []))
        self.write("crates/numbers/src/lib.rt", "fn nothing() {}\n\nfn other() {}\n")
        said = self.run_door("tools/more-must-fail", "--since", "HEAD")
        self.assertEqual((said.returncode, self.calls()), (0, ["ci"]))
        self.assertIn("rt: numbers proved\n", said.stdout)
        self.assertNotIn("rt: qlock proved\n", said.stdout)

    def test_refused_edits_are_counted(self):
        # those of the gate are not in the copy
        self.write("crates/numbers/must-fail/gate.edit", EDIT)
        self.write("../bin/rt", REFUSES, 0o755)
        said = self.run_door("tools/more-must-fail")
        self.assertEqual((said.returncode, said.stdout.splitlines()), (1, [
            "rt: crates/numbers/must-fail/ends.edit: refused, as it must be",
            "more-must-fail: 1 edits were refused in this run"]))
        self.assert_nothing_is_left()

    def test_revision_that_is_not_there_is_a_fault(self):
        said = self.run_door("tools/more-must-fail", "--since", "nowhere")
        self.assertEqual((said.returncode, self.calls()), (128, []))


if __name__ == "__main__":
    unittest.main()
