"""Tests of the version, and of the places that state it."""
import unittest

from place import Place
import version


class TestVersion(Place):
    def test_of_tree(self):
        self.assertEqual(version.checked(), version.of_tree())

    def test_write(self):
        places = {"crates/command_line/src/words.rt": 'const VERSION: &str = "1.0.0";\n',
                  "crates/qlock_c/src/version.rt": "const MAJOR: u32 = 1;\nconst MINOR: u32 = 0;\n"
                                                   "const PATCH: u32 = 0;\nensures { result ≡ 10000 }\n",
                  "include/qlock.h": "#define QLOCK_VERSION 10000\n",
                  "python/pyproject.toml": 'version = "1.0.0"\n', "python/qlock/__init__.py": '__version__ = "1.0.0"\n'}
        for name, text in places.items():
            self.write(name, text)
        ran = self.run_door("tools/version")
        self.assertEqual(ran.returncode, 1)
        self.assertIn("version: include/qlock.h: 10000, and not 10203\n", ran.stderr)
        self.assertEqual(self.run_door("tools/version", "--write").stdout, "1.2.3\n")
        self.assertEqual(self.run_door("tools/version").stdout, "1.2.3\n")


if __name__ == "__main__":
    unittest.main()
