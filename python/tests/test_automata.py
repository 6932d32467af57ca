"""The voter, the client and the guard through the library."""
import random
import unittest

import qlock


def play(voters, clients, lines):
    """Delivers lines until none is on the way. Returns the clients that entered, in order."""
    entered = []
    while lines:
        line = lines.pop(0)
        word, _, to = line.split()[:3]
        if word in (b"request", b"release", b"relinquish"):
            lines.extend(voters[int(to)].take(line))
        else:
            taken = clients[int(to)].take(line)
            lines.extend(taken.lines)
            if taken.entered:
                entered.append(int(to))
    return entered


class Races(unittest.TestCase):
    def setUp(self):
        self.voters = [qlock.Voter(v) for v in range(3)]
        self.clients = [qlock.Client(c) for c in range(2)]

    def test_two_clients_enter_one_after_the_other(self):
        lines = self.clients[0].ask([0, 1]) + self.clients[1].ask([1, 2])
        self.assertEqual(play(self.voters, self.clients, lines), [0])
        self.assertEqual(self.clients[0].shows(), (qlock.Phase.INSIDE, 1, [0, 1]))
        self.assertEqual(self.voters[1].held(), (0, 1, 1))
        self.assertEqual(play(self.voters, self.clients, self.clients[0].leave()), [1])
        self.assertEqual(self.clients[1].grant(1), 2)
        self.assertIsNone(self.clients[1].grant(0))
        self.assertEqual(play(self.voters, self.clients, self.clients[1].leave()), [])
        self.assertEqual([voter.held() for voter in self.voters], [None] * 3)

    def test_lost_messages_come_back_by_reminders(self):
        self.clients[0].ask([0, 1])
        lines = self.clients[0].remind()
        self.assertEqual(len(lines), 2)
        for line in lines:
            self.voters[int(line.split()[2])].take(line)
        lines = self.voters[0].remind() + self.voters[1].remind()
        self.assertEqual(play(self.voters, self.clients, lines), [0])

    def test_client_that_was_saved_inside_is_still_inside(self):
        play(self.voters, self.clients, self.clients[0].ask([0, 1]))
        again = qlock.Client.restore(self.clients[0].state)
        self.assertEqual(again.shows().phase, qlock.Phase.INSIDE)
        self.assertEqual(again.leave(), self.clients[0].leave())

    def test_client_that_forgets_is_idle_and_keeps_its_stamp(self):
        self.clients[0].ask([0, 1])
        self.clients[0].forget()
        self.assertEqual(self.clients[0].shows(), (qlock.Phase.IDLE, 1, []))
        self.assertTrue(self.clients[0].ask([0])[0].endswith(b" 2"))

    def test_client_that_gave_up_gives_late_votes_back(self):
        asked = self.clients[0].ask([0])
        self.clients[0].give_up()
        late = self.voters[0].take(asked[0])
        self.assertEqual(self.clients[0].take(late[0]), ([b"release 0 0 1"], False))

    def test_all_voters_of_a_great_quorum_are_asked(self):
        for quorum in (range(12), range(64), [0, 63]):
            client = qlock.Client(5)
            lines = client.ask(quorum)
            self.assertEqual([int(line.split()[2]) for line in lines], list(quorum))
            self.assertEqual(client.shows().quorum, list(quorum))

    def test_message_may_be_a_text(self):
        asked = self.clients[0].ask([0])
        self.assertEqual(self.voters[0].take(asked[0].decode()), [b"locked 0 0 1 1 1"])
        with self.assertRaises(qlock.BadMessage):
            self.voters[0].take("r\u00e9quest")
        with self.assertRaises(qlock.BadMessage):
            self.voters[0].take("request \ud800")
        with self.assertRaises(TypeError):
            self.voters[0].take(1)

    def test_guard_refuses_older_grants(self):
        play(self.voters, self.clients, self.clients[0].ask([0, 1]))
        first = self.clients[0].show_pass()
        play(self.voters, self.clients, self.clients[0].leave())
        play(self.voters, self.clients, self.clients[1].ask([1, 2]))
        fence = qlock.Fence()
        with self.assertRaises(qlock.NotInside):
            self.clients[0].show_pass()
        with self.assertRaises(qlock.NoPass):
            fence.admit(bytes(qlock.PASS_BYTES))
        fence.admit(first)
        fence.admit(self.clients[1].show_pass())
        again = qlock.Fence.restore(fence.state)
        for guard in (fence, again):
            with self.assertRaises(qlock.OlderGrant):
                guard.admit(first)


    def test_turns_have_64_bits(self):
        play(self.voters, self.clients, self.clients[0].ask([0, 1]))
        for turn in (1 << 32, (1 << 63) + 5):
            guard = qlock.Fence.restore(turn.to_bytes(8, "little") + bytes(8 * 64))
            self.assertEqual(guard.admit(self.clients[0].show_pass()), turn + 1)


class Leases(unittest.TestCase):
    """Grants that are let go, and voters and clients without their states."""

    def setUp(self):
        self.voters = [qlock.Voter(0, limit=100)]
        self.clients = [qlock.Client(c) for c in range(2)]

    def test_guard_goes_by_turns_after_an_eviction(self):
        play(self.voters, self.clients, self.clients[0].ask([0]))
        first = self.clients[0].show_pass()
        play(self.voters, self.clients, self.clients[1].ask([0]))
        self.assertEqual(self.voters[0].evict(7), [])
        self.assertEqual(self.voters[0].knows(1), qlock.Known(1, 0, 1))
        play(self.voters, self.clients, self.voters[0].evict(1))
        self.assertEqual(self.voters[0].knows(0), qlock.Known(None, 1, 1))
        self.assertEqual([client.shows().phase for client in self.clients], [qlock.Phase.INSIDE] * 2)
        fence = qlock.Fence()
        self.assertEqual([fence.admit(first), fence.admit(first), fence.admit(self.clients[1].show_pass())], [1, 1, 2])
        with self.assertRaises(qlock.OlderGrant):
            fence.admit(first)
        self.assertEqual(self.clients[1].renew(), [b"request 1 0 1"])
        self.assertEqual(self.clients[0].renew(), [b"request 0 0 1"])

    def test_reborn_voter_goes_on_above_its_grants(self):
        voter = qlock.Voter.reborn(0, 100, 200)
        self.assertEqual(voter.take(b"request 0 0 1"), [b"locked 0 0 1 101 1"])
        voter.extend(300)
        with self.assertRaises(qlock.BadArgument):
            voter.extend(200)

    def test_voter_goes_on_above_a_number_and_keeps_its_grant(self):
        play(self.voters, self.clients, self.clients[0].ask([0]))
        self.voters[0].raise_above(50)
        self.assertEqual(self.voters[0].held(), (0, 1, 1))
        play(self.voters, self.clients, self.clients[0].leave())
        play(self.voters, self.clients, self.clients[1].ask([0]))
        self.assertEqual(self.clients[1].grant(0), 51)
        for above in (50, 101, qlock.MAX_STAMP + 1):
            with self.assertRaises(qlock.BadArgument):
                self.voters[0].raise_above(above)

    def test_client_anew_ends_its_requests(self):
        play(self.voters, self.clients, self.clients[0].ask([0]))
        again = qlock.Client.anew(0, 5)
        with self.assertRaises(qlock.Busy):
            self.clients[0].disclaim([0])
        play(self.voters, self.clients, again.disclaim([0]))
        self.assertIsNone(self.voters[0].held())
        self.assertEqual(self.voters[0].knows(0).finished, 5)
        again.raise_clock(9)
        self.assertEqual(again.ask([0]), [b"request 0 0 10"])


class Saves(unittest.TestCase):
    """What a voter has to save that forgets at each start."""

    def test_only_a_new_grant_has_to_be_saved(self):
        voter = qlock.Voter(0)
        saved = voter.state
        self.assertFalse(voter.must_save(saved))
        voter.take(b"request 0 0 1")
        self.assertTrue(voter.must_save(saved))
        saved = voter.state
        self.assertEqual(voter.take(b"request 1 0 2"), [b"fail 0 1 2 2"])
        self.assertNotEqual(voter.state, saved)
        self.assertFalse(voter.must_save(saved))
        voter.take(b"release 0 0 1")
        self.assertTrue(voter.must_save(saved))
        with self.assertRaises(qlock.BadState):
            voter.must_save(b"")

    def test_vote_that_became_free_has_to_be_saved(self):
        voter = qlock.Voter(0)
        voter.take(b"request 0 0 1")
        saved = voter.state
        voter.take(b"release 0 0 1")
        self.assertIsNone(voter.held())
        self.assertTrue(voter.must_save(saved))

    def test_voter_that_forgets_keeps_its_grant(self):
        voter = qlock.Voter(0)
        voter.take(b"request 0 0 1")
        voter.take(b"request 1 0 2")
        voter.forget()
        self.assertEqual(voter.held(), (0, 1, 1))
        self.assertEqual(voter.knows(1), qlock.Known(None, 0, 0))
        self.assertEqual(voter.take(b"release 0 0 1"), [])
        self.assertEqual(voter.take(b"request 1 0 2"), [b"locked 0 1 2 2 2"])


class Quorums(unittest.TestCase):
    def test_voters_that_are_there_have_a_quorum(self):
        wheel = [[0, 1], [0, 2], [0, 3], [1, 2, 3]]
        self.assertTrue(qlock.has_quorum(wheel, [0, 3]))
        self.assertTrue(qlock.has_quorum(wheel, [1, 2, 3]))
        self.assertFalse(qlock.has_quorum(wheel, [2, 3]))
        self.assertFalse(qlock.has_quorum(wheel, []))

    def test_bridge_is_between_coteries_that_meet(self):
        self.assertTrue(qlock.is_bridge([[0, 1], [0, 2], [1, 2]], [[0, 1], [0, 2], [1, 2, 63]]))
        self.assertFalse(qlock.is_bridge([[0, 1], [1, 2]], [[63]]))

    def test_nothing_is_said_of_no_quorums(self):
        for call in (lambda: qlock.has_quorum([], [0]), lambda: qlock.is_bridge([[0]], []), lambda: qlock.has_quorum([[0], []], [0])):
            with self.assertRaises(qlock.BadArgument):
                call()


class Crashes(unittest.TestCase):
    """Random runs of three clients: messages are lost, repeated, late and out of order, and voters and clients crash, which
    undoes steps that sent nothing since the last save. Clients also forget. At most one is inside, and then votes come back."""

    QUORUMS = ([0, 1], [0, 2], [1, 2])

    def setUp(self):
        self.nodes = [qlock.Voter(v) for v in range(3)] + [qlock.Client(c) for c in range(3)]
        self.saved = [node.state for node in self.nodes]
        self.lines = []

    def send(self, place, lines):
        """Sends lines, each with the place of its receiver. What sends is saved before."""
        if lines or place > 2 and self.nodes[place].shows().phase == qlock.Phase.INSIDE:
            self.saved[place] = self.nodes[place].state
        self.lines += [(int(line.split()[2]) + (3 if place < 3 else 0), line) for line in lines]

    def take(self, place, line):
        taken = self.nodes[place].take(line)
        self.send(place, taken if place < 3 else taken.lines)

    def restart(self, place, forgets):
        kind = qlock.Voter if place < 3 else qlock.Client
        self.nodes[place] = kind.restore(self.saved[place])
        if forgets and place > 2:
            self.nodes[place].forget()
            self.saved[place] = self.nodes[place].state

    def step(self, choice):
        """Does something at random."""
        place = choice.randrange(3, 6)
        client, kind = self.nodes[place], choice.random()
        if kind < 0.55 and self.lines:
            line = choice.choice(self.lines)
            self.take(*line)
        elif kind < 0.6:
            self.restart(choice.randrange(6), choice.random() < 0.3)
        elif kind < 0.7:
            place = choice.randrange(6)
            self.send(place, self.nodes[place].remind())
        elif client.shows().phase == qlock.Phase.IDLE:
            self.send(place, client.ask(choice.choice(self.QUORUMS)))
        elif kind < 0.8:
            inside = client.shows().phase == qlock.Phase.INSIDE
            self.send(place, client.leave() if inside else client.give_up())
            self.saved[place] = client.state

    def inside(self):
        return [place for place in range(3, 6) if self.nodes[place].shows().phase == qlock.Phase.INSIDE]

    def hop(self, choice):
        """Everybody is reminded, and what was sent then arrives, in any order."""
        self.lines = []
        for place, node in enumerate(self.nodes):
            self.send(place, node.remind())
        lines, self.lines = self.lines, []
        choice.shuffle(lines)
        for line in lines:
            self.take(*line)
        lines, self.lines = self.lines, []
        for line in lines:
            self.take(*line)

    def test_one_is_inside_and_votes_come_back(self):
        restored = 0
        for seed in range(150):
            choice = random.Random(seed)
            self.setUp()
            for _ in range(150):
                self.step(choice)
                self.assertLessEqual(len(self.inside()), 1, seed)
            for place in range(3, 6):
                if self.nodes[place].shows().phase == qlock.Phase.IDLE:
                    self.send(place, self.nodes[place].ask(choice.choice(self.QUORUMS)))
            hops = 0
            while not self.inside():
                self.hop(choice)
                hops += 1
                self.assertLess(hops, 40, seed)
            self.assertEqual(len(self.inside()), 1, seed)
            restored += hops > 0
        self.assertGreater(restored, 50)


class Refusals(unittest.TestCase):
    def test_each_refusal_has_its_exception_and_changes_nothing(self):
        voter, client = qlock.Voter(0, limit=1), qlock.Client(0, limit=1)
        cases = [
            (qlock.BadMessage, lambda: voter.take(b"request 0 1 1"), voter),
            (qlock.BadMessage, lambda: voter.take(b""), voter),
            (qlock.BadMessage, lambda: client.take(b"request 0 0 1"), client),
            (qlock.BadArgument, lambda: client.ask([]), client),
            (qlock.BadArgument, lambda: client.ask([64]), client),
            (qlock.BadArgument, lambda: client.grant(64), client),
            (qlock.NotInside, client.leave, client),
            (qlock.NotAsking, client.give_up, client),
        ]
        for fault, call, who in cases:
            before = who.state
            with self.subTest(fault=fault.__name__), self.assertRaises(fault):
                call()
            self.assertEqual(who.state, before)

    def test_busy_and_spent(self):
        voter, client = qlock.Voter(0, limit=1), qlock.Client(0, limit=1)
        lines = client.ask([0])
        with self.assertRaises(qlock.Busy):
            client.ask([0])
        voter.take(lines[0])
        for line in client.give_up():
            voter.take(line)
        with self.assertRaises(qlock.StampsSpent):
            client.ask([0])
        with self.assertRaises(qlock.GrantsSpent):
            voter.take(b"request 1 0 1")

    def test_numbers_out_of_range(self):
        for make in (lambda: qlock.Voter(64), lambda: qlock.Voter(-1), lambda: qlock.Voter(0, 0),
                     lambda: qlock.Client(64), lambda: qlock.Client(0, qlock.MAX_STAMP + 1)):
            with self.assertRaises(qlock.BadArgument):
                make()

    def test_bytes_that_are_no_state(self):
        state = qlock.Voter(0).state
        for wrong in (b"", state[:-1], state + b"\0", bytes(len(state)), qlock.Client(0).state):
            with self.assertRaises(qlock.BadState):
                qlock.Voter.restore(wrong)
        with self.assertRaises(qlock.BadState):
            qlock.Client.restore(state)
        with self.assertRaises(qlock.BadState):
            qlock.Fence.restore(state)
        with self.assertRaises(qlock.BadArgument):
            qlock.Fence().admit(b"")


if __name__ == "__main__":
    unittest.main()
