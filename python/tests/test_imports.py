"""Coteries from the files of systems that run. The folder imports has files of each kind."""
import json
import os
import random
import subprocess
import sys
import unittest
from fractions import Fraction
from itertools import combinations, product

import qlock
from qlock import imports
from qlock.imports import imported, majorities, quorums_of

HERE = os.path.dirname(os.path.abspath(__file__))
EXPECTED = os.path.join(HERE, "..", "..", "examples", "expected")

# Each file, and the example of `qlock-show coterie` with the same numbers. `examples/check.sh` runs these, and its option
# --write writes what the program printed to examples/expected.
SAME = [
    ("zoo", "three-groups.cfg", "coterie-racks"),
    ("zoo", "with-observers.cfg", "coterie-any-3-5"),
    ("zoo", "with-weights.cfg", "coterie-votes"),
    ("etcd", "members.json", "coterie-any-3-5"),
    ("nodetool", "racks.status", "coterie-centres-3-2-3"),
    ("nodetool", "two-racks.status", "coterie-any-3-5"),
    ("nodetool", "centres.status", "coterie-centres"),
    ("nodetool", "ring.txt", "coterie-racks"),
    ("zones", "nodes.json", "coterie-centres-3-2-3"),
    ("zones", "nodes.txt", "coterie-centres-3-2-3"),
]


def content_of(file):
    """Returns the bytes of a file of the folder imports."""
    with open(os.path.join(HERE, "imports", file), "rb") as opened:
        return opened.read()


def coterie_in(text):
    """Returns the names and the quorums of a coterie's text, these as numbers of voters in ascending order."""
    lines = text.splitlines()
    (voters,) = (line for line in lines if line.startswith("voters = "))
    names = json.loads(voters.partition("= ")[2])
    quorums = [json.loads(line.strip(" ,")) for line in lines if line.startswith("  [")]
    return names, sorted(sorted(names.index(name) for name in quorum) for quorum in quorums)


def damage(content, choice):
    """Returns a file with some bytes at random places changed, and perhaps a part taken away, or there twice."""
    damaged = bytearray(content)
    for _ in range(choice.randrange(4)):
        damaged[choice.randrange(len(damaged))] = choice.choice(b'\0\n\r\t 019:;=|"[]{}-_.#aZ\xff')
    first, last = sorted(choice.randrange(len(damaged)) for _ in range(2))
    return bytes(damaged[: choice.choice((first, last))] + damaged[choice.choice((first, last)) :])


def run(*words, stdin=b"", **given):
    """Runs `python3 -m qlock` with these words."""
    return subprocess.run([sys.executable, "-m", "qlock", *words], input=stdin, capture_output=True, check=False, **given)


class Rule(unittest.TestCase):
    def test_majorities_are_the_minimal_sets_with_more_than_half(self):
        for votes in ([1], [1, 1], [1] * 5, [3, 2, 2, 1, 1], [1, 5, 2, 2], [1, 1, 4], [2, 1, 3, 1, 2, 7, 1]):
            places = range(len(votes))
            sets = [it for size in range(1, len(votes) + 1) for it in combinations(places, size)]
            enough = [set(it) for it in sets if 2 * sum(votes[place] for place in it) > sum(votes)]
            minimal = sorted(tuple(sorted(it)) for it in enough if not any(other < it for other in enough))
            with self.subTest(votes=votes):
                self.assertEqual(sorted(majorities(votes)), minimal)

    def test_quorums_are_majorities_of_a_majority_of_groups(self):
        groups = [[1, 1, 1], [2, 1], [1], [1, 1]]
        quorums = set(quorums_of(groups))
        # the groups have 3, 1, 1 and 1 majorities, and a quorum is of three groups
        self.assertEqual(len(quorums), 3 + 3 + 3 + 1)
        self.assertIn((0, 2, 3, 5), quorums)
        self.assertTrue(all(set(one) & set(other) for one, other in product(quorums, quorums)))


class Files(unittest.TestCase):
    def test_each_is_the_coterie_of_the_same_numbers(self):
        for kind, file, example in SAME:
            with open(os.path.join(EXPECTED, f"show-{example}.out"), encoding="ascii") as golden:
                wanted, wanted_quorums = coterie_in(golden.read())
            with self.subTest(file=file):
                names, quorums = coterie_in(imported(kind, content_of(file)))
                self.assertEqual((len(names), quorums), (len(wanted), wanted_quorums))

    def test_three_groups_have_the_load_of_three_racks(self):
        plan = qlock.Plan.find(imported("zoo", content_of("three-groups.cfg")))
        self.assertEqual(plan.load, Fraction(4, 9))

    def test_library_reads_each(self):
        for kind, file, _ in SAME:
            text = imported(kind, content_of(file))
            with self.subTest(file=file):
                self.assertEqual(qlock.names_of(text), coterie_in(text)[0])

    def test_first_line_is_the_rule(self):
        rules = [
            ("zoo", "three-groups.cfg", "ZooKeeper's servers, a majority of the weight in a majority of the groups: 9 voters, 27"),
            ("zoo", "with-observers.cfg", "ZooKeeper's servers, a majority: 5 voters, 10"),
            ("etcd", "members.json", "etcd's members without learners, a majority: 5 voters, 10"),
            ("nodetool", "racks.status", "Cassandra's nodes, a majority in a majority of the racks: 8 voters, 15"),
            ("nodetool", "two-racks.status", "Cassandra's nodes, a majority, as they have fewer than three racks: 5 voters, 10"),
            ("nodetool", "centres.status", "Cassandra's nodes, a majority in a majority of the data centres: 13 voters, 160"),
            ("zones", "nodes.json", "nodes, a majority in a majority of the zones: 8 voters, 15"),
        ]
        for kind, file, rule in rules:
            self.assertEqual(imported(kind, content_of(file)).splitlines()[0], f"# {rule} quorums")

    def test_names_are_those_of_the_file(self):
        names = {file: coterie_in(imported(kind, content_of(file)))[0] for kind, file, _ in SAME}
        self.assertEqual(names["with-weights.cfg"], [f"server.{number}" for number in range(11, 16)])
        self.assertEqual(names["members.json"], ["infra0", "infra1", "infra2", "91bc3c398fb3c146", "infra-4"])
        self.assertEqual(names["racks.status"][:3], ["10.20.0.11", "10.20.0.12", "10.20.0.13"])
        self.assertEqual(names["nodes.txt"], [f"worker-{letter}" for letter in "adgbecfh"])

    def test_notes_say_which_server_it_is(self):
        text = imported("zoo", content_of("with-observers.cfg"))
        self.assertIn("\n# server.2 is 10.0.0.2:2888:3888\n", text)
        self.assertIn("\n# server.4 is -2001:db8::4-:2888:3888\n", text)

    def test_names_keep_what_a_name_can_have(self):
        self.assertEqual(imports.name_of("aZ09_-.:/\n\"#é"), "aZ09_-.:-----")
        self.assertEqual((imports.name_of("x" * 65), imports.name_of("")), ("x" * 64, "-"))


class Faults(unittest.TestCase):
    def test_each_fault_of_a_file(self):
        majority_of_15 = "".join(f"server.{number}=zoo{number}:2888:3888\n" for number in range(15))
        three = "server.1=a:1:2\nserver.2=b:1:2\nserver.3=c:1:2\n"
        many = "".join(f"node-{number} zone-{number % 3}\n" for number in range(65))
        cases = [
            ("zoo", b"\xff", "NotText", "UTF-8"),
            ("zoo", b"", "NoVoters", ""),
            ("zoo", b"tickTime=2000\ndynamicConfigFile=/etc/zoo.cfg.dynamic\n", "NoVoters", ""),
            ("zoo", b"server.1=a:1:2:observer\n", "NoVoters", ""),
            ("zoo", b"server.one=a:1:2\n", "BadLine", "line 1 "),
            ("zoo", b"\nserver.1=\n", "BadLine", "line 2 "),
            ("zoo", (three + "group.1=1:2:three\n").encode(), "BadLine", "line 4 "),
            ("zoo", (three + "group.1=1:2:3\nweight.1=-1\n").encode(), "BadLine", "line 5 "),
            ("zoo", ("server.1=a:1:2\nserver.01=b:1:2\n").encode(), "RepeatedKey", "line 2 has server.01"),
            ("zoo", (three + "group.1=1:2\n").encode(), "NoGroup", "server 3 "),
            ("zoo", (three + "weight.1=2\n").encode(), "NoGroup", "server 1 "),
            ("zoo", (three + "group.1=1:2:3\ngroup.2=3\n").encode(), "TwoGroups", "server 3 2 times"),
            ("zoo", (three + "group.1=1:2:3:4\n").encode(), "UnknownServer", "server 4"),
            ("zoo", (three + "server.4=d:1:2:observer\ngroup.1=1:2:3:4\n").encode(), "UnknownServer", "server 4"),
            ("zoo", (three + "group.1=1:2:3\nweight.1=0\nweight.2=0\nweight.3=0").encode(), "NoVoters", ""),
            ("zoo", majority_of_15.encode(), "TooManyQuorums", '15 voters have more than 4096 quorums'),
            ("zoo", majority_of_15.encode(), "TooManyQuorums", 'docs/choosing.md has coteries with few quorums, as "cyclic N"'),
            ("etcd", b"{", "NotJson", ""),
            ("etcd", b"[" * 100000, "NotJson", ""),
            ("etcd", b"[]", "MissingKey", '"members"'),
            ("etcd", b'{"members": {}}', "MissingKey", '"members"'),
            ("etcd", b'{"members": [{"name": ""}]}', "MissingKey", '"ID"'),
            ("etcd", b'{"members": [3]}', "MissingKey", '"ID"'),
            ("etcd", b'{"members": []}', "NoVoters", ""),
            ("etcd", b'{"members": [{"name": "a/b"}, {"name": "a b"}]}', "RepeatedName", "2 voters have the name a-b"),
            ("nodetool", b"nodetool: Failed to connect to '127.0.0.1:7199'\n", "NoVoters", ""),
            ("zones", b"{", "NotJson", ""),
            ("zones", b'{"kind": "Node"}', "MissingKey", '"items"'),
            ("zones", b'{"items": [{}]}', "MissingKey", '"metadata"'),
            ("zones", b'{"items": [{"metadata": {}}]}', "MissingKey", '"name"'),
            ("zones", b'{"items": [{"metadata": {"name": "a", "labels": {"zone": "z"}}}]}', "NoZone", "node a "),
            ("zones", b"a west\nb <none>\n", "NoZone", "node b "),
            ("zones", b"a west\nb\n", "BadLine", "line 2 "),
            ("zones", b"a west\nb west Ready\n", "BadLine", "line 2 "),
            ("zones", b"a west\na east\n", "RepeatedName", "the name a"),
            ("zones", many.encode(), "TooManyVoters", "65 voters, and a coterie has at most 64"),
            ("zones", many.encode(), "TooManyVoters", '"cyclic N"'),
        ]
        for kind, content, name, said in cases:
            with self.subTest(kind=kind, fault=name, content=content[:40]), self.assertRaises(imports.ImportFault) as raised:
                imported(kind, content)
            self.assertIs(type(raised.exception), getattr(imports, name))
            self.assertIn(said, str(raised.exception))
            self.assertNotIn("\n", str(raised.exception))

    def test_damaged_files_give_a_coterie_or_a_fault(self):
        choice, faults = random.Random(1), set()
        for kind, file, _ in SAME:
            content = content_of(file)
            for _ in range(60):
                damaged = damage(content, choice)
                try:
                    text = imported(kind, damaged)
                except imports.ImportFault as fault:
                    faults.add(type(fault))
                else:
                    self.assertEqual(qlock.names_of(text), coterie_in(text)[0], damaged)
        self.assertGreater(len(faults), 5)

    def test_most_voters_and_quorums_that_are_allowed(self):
        zones = "".join(f"node-{number} zone-{min(number, 2)}\n" for number in range(15))
        names, quorums = coterie_in(imported("zones", zones.encode()))
        self.assertEqual((len(names), len(quorums)), (15, 1 + 2 * 1716))
        servers = "".join(f"server.{number}=a:1:2\n" for number in range(64))
        groups = "group.1=" + ":".join(map(str, range(64))) + "\nweight.0=64\n"
        names, quorums = coterie_in(imported("zoo", (servers + groups).encode()))
        self.assertEqual((len(names), quorums), (64, [[0]]))

    def test_great_groups_are_refused_at_once(self):
        zones = "".join(f"node-{number} zone-{min(number, 2)}\n" for number in range(64))
        with self.assertRaises(imports.TooManyQuorums):
            imported("zones", zones.encode())


class Command(unittest.TestCase):
    def test_coterie_goes_to_standard_output(self):
        for kind, file, _ in SAME:
            done = run("import", kind, os.path.join(HERE, "imports", file))
            with self.subTest(file=file):
                self.assertEqual((done.returncode, done.stderr), (0, b""))
                self.assertEqual(done.stdout.decode(), imported(kind, content_of(file)))

    def test_standard_input_is_a_file(self):
        done = run("import", "etcd", "-", stdin=content_of("members.json"))
        self.assertEqual((done.returncode, done.stdout.decode()), (0, imported("etcd", content_of("members.json"))))

    def test_fault_is_one_line_and_nothing_is_written(self):
        done = run("import", "zones", "-", stdin=b"a west\na east\n")
        self.assertEqual((done.returncode, done.stdout), (1, b""))
        self.assertEqual(done.stderr, b"RepeatedName: 2 voters have the name a\n")

    def test_file_that_is_not_read(self):
        done = run("import", "zoo", "no-such.cfg")
        self.assertEqual((done.returncode, done.stdout), (3, b""))
        self.assertEqual(done.stderr, b'I3 ReadFault "no-such.cfg"\nno-such.cfg: No such file or directory\n')

    def test_output_that_is_not_written(self):
        words = [sys.executable, "-m", "qlock", "import", "etcd", os.path.join(HERE, "imports", "members.json")]
        with open("/dev/full", "wb") as full:
            done = subprocess.run(words, stdout=full, stderr=subprocess.PIPE, check=False)
        self.assertEqual((done.returncode, done.stderr), (3, b"I4 WriteFault\nNo space left on device\n"))

    def test_nobody_reads_the_output(self):
        words = [sys.executable, "-m", "qlock", "import", "etcd", os.path.join(HERE, "imports", "members.json")]
        reader, writer = os.pipe()
        os.close(reader)
        done = subprocess.run(words, stdout=writer, stderr=subprocess.PIPE, check=False)
        os.close(writer)
        self.assertEqual((done.returncode, done.stderr), (0, b""))

    def test_wrong_command_lines(self):
        for words in ((), ("import",), ("import", "zoo"), ("import", "redis", "-"), ("export", "zoo", "-")):
            done = run(*words)
            self.assertEqual((done.returncode, done.stdout), (2, b""), words)

    def test_no_library_is_needed(self):
        without = {**os.environ, "QLOCK_LIBRARY": "/no/libqlock.so", "QLOCK_PLAN_LIBRARY": "/no/libqlock_plan.so"}
        done = run("import", "etcd", "-", stdin=content_of("members.json"), env=without)
        self.assertEqual(done.returncode, 0, done.stderr)


if __name__ == "__main__":
    unittest.main()
