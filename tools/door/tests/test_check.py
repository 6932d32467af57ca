"""Tests of jobs, and of the run of all checks."""
import os
import re
import signal
import time
import unittest

from place import Place
import check
from crates import CRATES, ROOT


class TestTable(unittest.TestCase):
    def test_needs(self):
        earlier = {check.PROOFS, *CRATES.lines}
        for name, command, needs in check.CHECKS:
            self.assertLessEqual({*needs.split()}, earlier, name)
            self.assertNotIn(name, earlier)
            earlier.add(name)
            first = command.split()[0]
            self.assertTrue(first == "python3" or os.access(os.path.join(ROOT, first), os.X_OK), first)


class TestCheck(Place):
    def setUp(self):
        super().setUp()
        self.rows = []

    def row(self, name, script, needs=""):
        """Adds a check."""
        self.write(f"checks/{name}", f"#!/bin/sh\n{script}\n", 0o755)
        self.rows.append((name, f"checks/{name}", needs))

    def lay(self):
        """Puts these checks into the table."""
        with open(self.at("tools/door/check.py"), encoding="utf-8") as file:
            text = file.read()
        table = re.sub(r"^CHECKS = \(.*?^\)$", f"CHECKS = {tuple(self.rows)!r}", text, flags=re.DOTALL | re.MULTILINE)
        self.write("tools/door/check.py", table)

    def all(self, **given):
        self.lay()
        ran = self.run_door("check", **given)
        self.assert_nothing_is_left()
        return ran

    def test_passed(self):
        self.row("first", "echo one")
        self.row("second", "echo two >&2", "qlock first")
        self.row("third", "echo three", "proofs second")
        ran = self.all()
        self.assertEqual((ran.returncode, ran.stderr), (0, ""))
        self.assertEqual(ran.stdout.splitlines()[:4], [
            "check: 1 of 4, beside others: first", "check: 2 of 4, beside others: second",
            "check: 3 of 4, beside others: third", "check: 4 of 4: rt ci"])
        self.assertIn("rt: qlock proved\n", ran.stdout)
        self.assertRegex(ran.stdout, "3 passed, 0 failed\ncheck: rt ci passed in 0 minutes\n"
                         "one\ncheck: first, which ran beside others, passed in 0 processor seconds\n"
                         "two\ncheck: second, which ran beside others, passed in 0 processor seconds\n"
                         "three\ncheck: third, which ran beside others, passed in 0 processor seconds\n"
                         r"check: processor seconds: \d+ \(proof 0, edits 0, tests 0, build 0, rest \d+\)\n")

    def test_notes(self):
        self.row("first", "echo note: a test passed at the second try; echo one")
        self.row("second", "echo a note: of nothing", "first")
        ran = self.all()
        *_, times, note = ran.stdout.splitlines()
        self.assertRegex(times, "^check: processor seconds: ")
        self.assertEqual(note, "check: first: a test passed at the second try")

    def test_needs(self):
        # each notes when it begins: nothing begins before what it needs is there
        self.row("first", "sleep 1; echo first >> $PLACE/order")
        self.row("second", "echo second >> $PLACE/order", "first")
        self.row("third", "echo third >> $PLACE/order", "qlock")
        self.assertEqual(self.all(SLOW="2").returncode, 0)
        with open(os.path.join(self.room, "order"), encoding="utf-8") as file:
            self.assertEqual(file.read().split(), ["first", "second", "third"])

    def test_failed(self):
        self.row("first", "echo one")
        self.row("second", "echo two; exit 7")
        self.row("third", "echo three; exit 8")
        self.row("fourth", "echo four; sleep 100")
        ran = self.all()
        self.assertEqual((ran.returncode, ran.stderr), (7, "check: second failed\n"))
        self.assertIn("two\n", ran.stdout)
        self.assertIn("check: third failed:\nthree\n", ran.stdout)
        self.assertIn("check: fourth was ended; so far it printed:\nfour\n", ran.stdout)

    def test_need_failed(self):
        self.row("first", "exit 3")
        self.row("second", "touch $PLACE/begun", "first")
        self.assertEqual(self.all().returncode, 3)
        self.assertFalse(os.path.exists(os.path.join(self.room, "begun")))

    def test_proofs_failed(self):
        self.row("first", "echo one; sleep 100")
        ran = self.all(FAILS="1", SLOW="1")
        self.assertEqual((ran.returncode, ran.stderr), (1, "check: rt ci failed\n"))
        self.assertIn("1 passed, 1 failed\n", ran.stdout)
        self.assertIn("check: first was ended; so far it printed:\none\n", ran.stdout)

    def test_killed(self):
        self.row("first", "kill -9 $$")
        self.assertEqual(self.all().returncode, 137)

    def test_signals(self):
        self.row("first", "echo one; sleep 100 & wait")
        self.row("second", "echo two", "proofs")
        self.lay()
        for number in (signal.SIGHUP, signal.SIGINT, signal.SIGPIPE, signal.SIGTERM):
            with self.subTest(number):
                run = self.begin("check", SLOW="100")
                self.wait_for_proof()
                time.sleep(0.5)
                run.send_signal(number)
                said = run.communicate(timeout=30)[0]
                self.assertEqual(run.returncode, 128 + number)
                self.assertIn("check: first was ended; so far it printed:\none\n", said)
                self.assertNotIn("second was ended", said)
                self.assert_nothing_is_left()

    def test_signal_within(self):
        # a door that proves ends its own proofs, too
        self.rows.append(("library", "./library", ""))
        self.lay()
        run = self.begin("check", SLOW="100")
        self.wait_for_proof(2)
        time.sleep(1)
        run.send_signal(signal.SIGTERM)
        self.assertIn("check: library was ended", run.communicate(timeout=30)[0])
        self.assert_nothing_is_left()

    def test_no_reader(self):
        self.row("first", "sleep 100")
        self.lay()
        run = self.begin("check", SLOW="2")
        run.stdout.close()
        self.assertEqual(run.wait(timeout=30), 128 + signal.SIGPIPE)
        self.assert_nothing_is_left()

    def test_stubborn(self):
        self.row("first", "trap '' TERM; echo one; sleep 3")
        self.row("second", "exit 4")
        self.rows.reverse()
        self.assertEqual(self.all().returncode, 4)


class TestAgain(Place):
    def test_begins(self):
        ran = self.run_door("tools/again-test")
        self.assertEqual((ran.stdout, ran.returncode), ("a second check begins as the first one did\n", 0))
        self.assert_nothing_is_left()

    def test_fails(self):
        self.write("crates.txt", "# none\n")
        ran = self.run_door("tools/again-test", FAILS="1")
        self.assertEqual((ran.stdout.splitlines()[0], ran.returncode), ("a second check can't begin:", 1))

    def setUp(self):
        super().setUp()
        self.write("tools/again-test", '#!/bin/sh\ncd "$PLACE/tree" && exec python3 tools/door again\n', 0o755)


if __name__ == "__main__":
    unittest.main()
