"""Tests of the libraries for C, with a compiler and an archiver that write down their words."""
import os
import unittest

from place import Place
import libraries

CC = """#!/bin/sh
echo "$*" >> "$PLACE/linked"
while [ "$1" != -o ]; do shift; done
echo shared > "$2"
"""
AR = """#!/bin/sh
case $1 in
x) cp "$2" "$(basename "$2").o" ;;
rcs) shift; to=$1; shift; cat "$@" > "$to" ;;
esac
"""
# Runs of `rt ci` build no libraries: the command behind them does.
RATTLE = """#!/bin/sh
for to; do :; done
echo "archive of $to" > "$to"
"""


class TestTexts(unittest.TestCase):
    def test_in_the_tree(self):
        self.assertEqual(libraries.pc_text("qlock", "1.2.3", "/tree", "/tree/build", "/tree/include"), """\
prefix=/tree
libdir=/tree/build
includedir=/tree/include

Name: qlock
Description: The voter, the client and the guard of a voting lock
Version: 1.2.3
Libs: -L${libdir} -lqlock
Cflags: -I${includedir}
""")

    def test_installed(self):
        text = libraries.pc_text("qlock_plan", "1.2.3", "/usr", "${prefix}/lib/x86_64-linux-gnu", "${prefix}/include")
        self.assertIn("prefix=/usr\nlibdir=${prefix}/lib/x86_64-linux-gnu\nincludedir=${prefix}/include\n", text)
        self.assertIn("Libs: -L${libdir} -lqlock_plan\n", text)


class TestLibraries(Place):
    def setUp(self):
        super().setUp()
        for name, text in (("cc", CC), ("ar", AR), ("rattle", RATTLE)):
            self.write(f"../kit/bin/{name}", text, 0o755)
        self.write("../kit/c/liblibc_c.a", "malloc\n")
        self.given.update(CC=f"{self.room}/kit/bin/cc", AR=f"{self.room}/kit/bin/ar")

    def test_build(self):
        ran = self.run_door("library")
        self.assertEqual(ran.returncode, 0, ran.stderr)
        self.assertEqual(sorted(it for it in os.listdir(self.at("build")) if not it.endswith(".log")),
                         ["libqlock.a", "libqlock.so", "libqlock_c.a", "libqlock_plan.a", "libqlock_plan.so",
                          "libqlock_plan_c.a", "libqlock_session_c.a", "qlock.pc", "qlock_plan.pc"])
        with open(self.at("build", "libqlock.a"), encoding="utf-8") as file:
            self.assertEqual(file.read(), "archive of out/libqlock_c.a\narchive of out/libqlock_session_c.a\n")
        with open(self.at("build", "libqlock_plan.a"), encoding="utf-8") as file:
            self.assertEqual(file.read(), "malloc\narchive of out/libqlock_plan_c.a\n")
        with open(self.at("build", "qlock.pc"), encoding="utf-8") as file:
            self.assertIn(f"prefix={self.tree}\nlibdir={self.tree}/build\n", file.read())
        with open(os.path.join(self.room, "linked"), encoding="utf-8") as file:
            self.assertIn("-Wl,-soname,libqlock.so -Wl,--whole-archive", file.read())
        self.assert_nothing_is_left()

        # what is built is not proved again, until a source changes
        proofs = self.calls().count("ci")
        self.run_door("library")
        self.assertEqual(self.calls().count("ci"), proofs)
        os.utime(self.at("crates/numbers/src/lib.rt"))
        self.run_door("library")
        self.assertEqual(self.calls().count("ci"), 2 * proofs)

    def test_over_what_is_proved(self):
        # as `rt ci` leaves a crate that it has proved
        self.write("crates/numbers/out/rlib/numbers.rlib/format", "")
        ran = self.run_door("library")
        self.assertEqual(ran.returncode, 0, ran.stderr)
        self.assertNotIn("ci", self.calls())
        self.assertTrue(os.path.exists(self.at("build", "libqlock.a")))
        self.assert_nothing_is_left()

        # what changed since is proved
        self.write("crates/numbers/proofs/Lib.antt", "")
        os.utime(self.at("crates/numbers/src/lib.rt"))
        self.run_door("library")
        self.assertIn("ci", self.calls())

    def test_unproved(self):
        ran = self.run_door("library", FAILS="1")
        self.assertEqual(ran.returncode, 1)
        self.assertIn("not all was proved", ran.stderr)
        self.assertFalse(os.path.exists(self.at("build", "libqlock.a")))


if __name__ == "__main__":
    unittest.main()
