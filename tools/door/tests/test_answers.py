"""Tests of the programs' doors: the first answer, the proved one, and what is built."""
import os
import unittest

from place import Place
from answers import READERS, Words
from crates import read

FIRST = "qlock: it is not built yet. A first answer comes within three minutes, not proved"


class TestWords(unittest.TestCase):
    def test_readers(self):
        # the table of the commands has which of them read their input
        for line in read("docs", "commands.md").splitlines():
            if line.startswith("| `./qlock"):
                call, reads = line.split("|")[1:3]
                command = call.split()[1].rstrip("`,")
                if command not in ("fault", "compare"):
                    self.assertEqual(command in READERS, reads.strip() != "not read", line)

    def test_reads(self):
        for words in ("plan", "deal 5", "fault check", "check -f a -f -", "without -- -f", "picture load",
                      "near --deal 5", "check -f -- -f -"):
            self.assertTrue(Words(words.split()).reads(), words)
        for words in ("", "make wheel 3", "check -f a", "plan --help", "--version", "fault make grid 2", "explain E7",
                      "compare a b", "pln", "check -f --", "check -f -f"):
            self.assertFalse(Words(words.split()).reads(), words)


class TestFirstAnswer(Place):
    def setUp(self):
        super().setUp()
        # the proof takes longer than the first answer
        self.given["SLOW"] = "0.7"

    def test_same(self):
        shown, said, status = self.run_at_terminal("qlock", "deal", "5", stdin="input\n")
        self.assertEqual((shown, status), ("words deal 5\ninput\n", 0))
        lines = said.splitlines()
        self.assertEqual(lines[0], FIRST + " (--wait waits for the proof)")
        self.assertIn("qlock: this answer is not proved yet", said)
        self.assertIn("qlock: proved and built in", said)
        self.assertEqual(lines[-1], "qlock: proved, and the same answer")
        self.assert_nothing_is_left()

        # later calls just run the program, without Python
        self.assertTrue(os.path.exists(self.at("build", "qlock.sources")))
        calls = self.calls()
        self.assertEqual(self.run_at_terminal("qlock", "deal", "6", stdin="x"), ("words deal 6\nx", "", 0))
        self.assertEqual(self.run_at_terminal("qlock", "--wait", "deal", "6"), ("words deal 6\n", "", 0))
        self.assertEqual(self.calls(), calls)

        # until a source changes, also of a crate below
        os.utime(self.at("crates/numbers/src/lib.rt"))
        self.assertIn(FIRST, self.run_at_terminal("qlock", "deal", "6")[1])
        os.remove(self.at("crates/qlock/src/lib.rt"))
        self.assertIn(FIRST, self.run_at_terminal("qlock", "deal", "6")[1])
        os.utime(self.at("crates/qlock_show/src/lib.rt"))
        self.assertEqual(self.run_at_terminal("qlock", "deal", "6")[1], "")

    def test_status(self):
        refuses = "echo 'N1 NoPlan' >&2; exit 1"
        shown, said, status = self.run_at_terminal("qlock", "plan", UNPROVED=refuses, PROVED=refuses + " # at $PWD")
        self.assertEqual((shown, status), ("", 1))
        self.assertEqual(said.count("N1 NoPlan\n"), 1)
        self.assertTrue(said.endswith("proved, and the same answer\n"))

    def test_different(self):
        shown, said, status = self.run_at_terminal("qlock", "deal", "5", stdin="input\n", PROVED="echo another; exit 3")
        self.assertEqual((shown, status), ("words deal 5\ninput\nanother\n", 70))
        self.assertIn("qlock: the proved answer is another one, with status 3 and not 0:\n", said)
        self.assertIn("please report this", said)
        shown, said, status = self.run_at_terminal("qlock-show", "plan", PROVED="echo words plan; exit 3")
        self.assertEqual((shown, status), ("words plan\nwords plan\n", 70))

    def test_usage(self):
        says = 'echo "Usage: ${0##*/} plan"; echo "Usage: ${0##*/}" >&2'
        shown, said, status = self.run_at_terminal("qlock-show", "--help", UNPROVED=says, PROVED=says)
        self.assertEqual((shown, status), ("Usage: qlock_show plan\n", 0))
        self.assertIn("\nUsage: qlock_show\n", said)

    def test_another_fault(self):
        given = {"UNPROVED": "echo E7 >&2; exit 1", "PROVED": "echo E8 >&2; exit 1"}
        self.assertEqual(self.run_at_terminal("qlock", "plan", **given)[2], 70)

    def test_no_answer(self):
        shown, said, status = self.run_at_terminal("qlock", "deal", "5", stdin="input\n", UNPROVED="exit 99")
        self.assertEqual((shown, status), ("words deal 5\ninput\n", 0))
        self.assertIn("qlock: there is no answer without a proof:\nrun=none proved=no\n", said)
        self.assertNotIn("the same answer", said)
        self.assert_nothing_is_left()

    def test_proof_is_sooner(self):
        shown, said, status = self.run_at_terminal("qlock", "deal", "5", stdin="input\n", UNPROVED="sleep 100", SLOW="")
        self.assertEqual((shown, status), ("words deal 5\ninput\n", 0))
        self.assertNotIn("not proved yet", said)
        self.assert_nothing_is_left()

    def test_stopped(self):
        for given in ({"UNPROVED": "sleep 100 & wait"}, {}):
            _, said, status = self.run_at_terminal("qlock", "deal", "5", stopped=True, SLOW="100", **given)
            self.assertEqual(status, 130)
            self.assertIn("qlock: stopped; what was proved is taken the next time", said)
            self.assert_nothing_is_left()

    def test_unproved(self):
        shown, said, status = self.run_at_terminal("qlock", "deal", "5", FAILS="1")
        self.assertEqual((shown, status), ("words deal 5\n", 1))
        self.assertIn("rt: qlock NOT PROVED\n", said)

    def test_files(self):
        for name in ("a.toml", "folder/b.toml", "c=d e.toml", "-dash"):
            self.write(f"../{name}", f"file {name}\n")
        shown, said, status = self.run_at_terminal(
            "qlock", "check", "-f", "a.toml", "-f", "folder/b.toml", "-f", "-", "-f", f"{self.room}/a.toml",
            "-f", "c=d e.toml", "-f", "-dash", "-f", "folder/../a.toml", stdin="input\n")
        self.assertEqual(shown.splitlines()[0], f"words check -f a.toml -f folder/b.toml -f - -f {self.room}/a.toml "
                         "-f c=d e.toml -f -dash -f folder/../a.toml")
        self.assertIn("file folder/b.toml\nfile a.toml\nfile c=d e.toml\n", shown)
        self.assertTrue(said.endswith("proved, and the same answer\n"), shown + said)
        self.assertTrue(shown.endswith("input\n"))

    def test_unread_input(self):
        # of a command that reads none, standard input stays as it is
        shown, _, status = self.run_at_terminal("qlock", "make", "wheel", "3", stdin="input\n")
        self.assertEqual((shown, status), ("words make wheel 3\n", 0))


class TestProvedAnswer(Place):
    def assert_waits(self, ran, shown):
        self.assertNotIn("try", self.calls())
        self.assertEqual(ran[0], shown)
        self.assertTrue(ran[1].startswith("qlock: proving and building the program, once"), ran[1])
        self.assertEqual(ran[2], 0)
        self.assert_nothing_is_left()

    def test_pipe(self):
        ran = self.run_door("qlock", "deal", "5", stdin="input\n")
        self.assert_waits((ran.stdout, ran.stderr, ran.returncode), "words deal 5\ninput\n")

    def test_run(self):
        ran = self.run_at_terminal("qlock", "-f", "none", "run", "4", "1", "9")
        self.assert_waits(ran, "words -f none run 4 1 9\n")

    def test_wait(self):
        self.assert_waits(self.run_at_terminal("qlock", "--wait", "deal", "5"), "words deal 5\n")

    def test_pipe_as_file(self):
        os.mkfifo(os.path.join(self.room, "fifo"))
        self.assert_waits(self.run_at_terminal("qlock", "compare", "fifo"), "words compare fifo\n")

    def test_taken(self):
        # what rt has proved and built is taken as it is
        self.write("crates/qlock/out/qlock", "#!/bin/sh\necho proved by rt\n", 0o755)
        self.assertEqual(self.run_at_terminal("qlock", "deal", "5"), ("proved by rt\n", "", 0))
        self.assertEqual(self.calls(), [])

    def test_unlisted(self):
        ran = self.run_door("tools/run", "none")
        self.assertEqual((ran.stderr, ran.returncode), ("run: crates.txt has no none\n", 1))


class TestUnproved(Place):
    def test_runs(self):
        self.write("../a.toml", "file\n")
        ran = self.run_door("unproved", "qlock-show", "check", "-f", "a.toml", stdin="input\n")
        self.assertEqual((ran.stdout, ran.returncode), ("words check -f a.toml\nfile\ninput\n", 0))
        self.assertTrue(ran.stderr.endswith("proved=no\nunproved: nothing was proved\n"))
        self.assertEqual(self.calls(), ["try"])

    def test_no_file(self):
        ran = self.run_door("unproved", "check", "-f", "a.toml")
        self.assertEqual((ran.stderr, ran.returncode), ("unproved: there is no file a.toml\n", 3))


if __name__ == "__main__":
    unittest.main()
