"""What a guard may rely on, and what it may not: runs on the library's voters, clients and guard."""
from __future__ import annotations

import itertools
import unittest
from typing import NamedTuple

import qlock


class Show(NamedTuple):
    """A pass that is shown to a guard: whose request it is, and the grants of voters 0 to 2, 0 for none."""
    client: int
    stamp: int
    grants: tuple[int, int, int]

    def text(self) -> bytes:
        """Returns the pass as a guard reads it."""
        return b"".join(grant.to_bytes(8, "little") for grant in (*self.grants, *[0] * 61))


class Evict(NamedTuple):
    """A voter lets the grant with this number go."""
    voter: int
    grant: int


class Reborn(NamedTuple):
    """A voter lost its state, and comes back above this number of grants."""
    voter: int
    above: int


def grants_in(lines: list[bytes]) -> set[tuple[int, ...]]:
    """Returns the grants that these lines give: voter, client, stamp, number."""
    words = [line.split() for line in lines]
    return {tuple(int(number) for number in line[1:5]) for line in words if line[0] == b"locked"}


class OneRequestWithTwoPasses(unittest.TestCase):
    """A request may have two passes, none of an honest client's, with another request's between them: in each run the guard
    admits the first, the other one, and the second. Any two of the three voters are a quorum."""

    def play(self, moves: list[str | Evict | Reborn], shows: list[Show]) -> None:
        voters, given = [qlock.Voter(number) for number in range(3)], set()
        for move in moves:
            if isinstance(move, Evict):
                given |= grants_in(voters[move.voter].evict(move.grant))
            elif isinstance(move, Reborn):
                voters[move.voter] = qlock.Voter.reborn(move.voter, move.above)
            else:
                given |= grants_in(voters[int(move.split()[2])].take(move.encode()))
        for show in shows:
            shown = {(voter, show.client, show.stamp, grant) for voter, grant in enumerate(show.grants) if grant}
            self.assertLessEqual(shown, given)
            self.assertEqual(len(shown), 2)
        guard = qlock.Fence()
        self.assertEqual([guard.admit(show.text()) for show in shows], [1, 2, 3])

    def test_vote_is_given_back_and_comes_again(self):
        moves = ["request 0 0 2", "request 0 1 2", "request 1 0 1", "relinquish 0 0 1", "request 1 2 1", "release 1 0 1"]
        self.play(moves, [Show(0, 2, (1, 1, 0)), Show(1, 1, (2, 0, 1)), Show(0, 2, (3, 1, 0))])

    def test_two_quorums_are_asked_under_one_stamp(self):
        moves = ["request 0 0 1", "request 0 1 1", Evict(0, 1), "request 1 0 2", "request 1 2 2", "request 0 2 1", "release 1 2 2"]
        self.play(moves, [Show(0, 1, (1, 1, 0)), Show(1, 2, (2, 0, 1)), Show(0, 1, (0, 1, 2))])

    def test_reborn_voter_grants_a_repeated_request_again(self):
        moves = ["request 0 0 1", "request 0 1 1", Evict(0, 1), Reborn(0, 1), "request 1 0 2", "request 1 2 2", "release 1 0 2",
                 "request 0 0 1"]
        self.play(moves, [Show(0, 1, (1, 1, 0)), Show(1, 2, (2, 0, 1)), Show(0, 1, (3, 1, 0))])


class OldProcess(unittest.TestCase):
    """A number is given on while its old process lives. Processes `old` and, after it, `new` have number 5; `other` is client 7.
    The old one enters after the new one left, by a grant that was given because the new one left."""

    def setUp(self):
        self.voters = [qlock.Voter(number) for number in range(3)]
        self.clients = {"old": qlock.Client(5), "new": qlock.Client.anew(5, 100), "other": qlock.Client(7)}
        self.numbers = {"old": 5, "new": 5, "other": 7}

    def send(self, voter: int, lines: list[bytes]) -> list[bytes]:
        """Delivers those of these lines that are for this voter. Returns its replies."""
        return [reply for line in lines if line.split()[2] == b"%d" % voter for reply in self.voters[voter].take(line)]

    def hear(self, name: str, replies: list[bytes]) -> None:
        """Delivers those of these replies that are for this process."""
        for reply in replies:
            if int(reply.split()[2]) == self.numbers[name]:
                self.clients[name].take(reply)

    def passes(self) -> dict[str, bytes]:
        """Plays the run. Returns the pass that each process had while it was inside."""
        shown = {}
        late = self.clients["other"].ask([1, 2])
        self.hear("other", self.send(2, late))
        asked = self.clients["old"].ask([0, 2])
        self.hear("old", self.send(0, asked))
        self.hear("old", self.send(2, asked))
        self.voters[0].evict(1)  # the number is given on; voter 2 is not reached
        asked = self.clients["new"].ask([0, 1])
        self.hear("new", self.send(0, asked))
        self.hear("new", self.send(1, asked))
        shown["new"] = self.clients["new"].show_pass()
        self.send(1, late)
        left = self.clients["new"].leave()
        self.send(0, left)
        self.hear("other", self.send(1, left))
        shown["other"] = self.clients["other"].show_pass()
        left = self.clients["other"].leave()
        self.send(1, left)
        self.hear("old", self.send(2, left))
        shown["old"] = self.clients["old"].show_pass()
        return shown

    def test_no_two_of_its_passes_interleave(self):
        shown, admitted = self.passes(), 0
        for order in itertools.product(shown, repeat=5):
            guard = qlock.Fence()
            try:
                turns = [guard.admit(shown[name]) for name in order]
            except qlock.OlderGrant:
                continue
            admitted += 1
            runs = [name for name, _ in itertools.groupby(order)]
            self.assertEqual(len(runs), len(set(runs)), order)
            self.assertEqual(turns, sorted(turns))
            self.assertEqual(len(set(turns)), len(runs))
        self.assertEqual(admitted, 15)


if __name__ == "__main__":
    unittest.main()
