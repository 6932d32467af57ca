"""Plans, their quorums ticket by ticket, and why texts are refused."""
import os
import subprocess
import sys
import unittest
from collections import Counter
from fractions import Fraction
from itertools import combinations, islice, product

import qlock
from qlock import Order, Plan, refusals

WHEEL = """voters = ["hub", "rim1", "rim2", "rim3"]
quorums = [["hub", "rim1"], ["hub", "rim2"], ["hub", "rim3"], ["rim1", "rim2", "rim3"]]
"""
PLAN = "quorum-plan 1\nload 3/5\ncycle 5\nquorum 1 1 1 2\nvoter 2 1 1 1\n"
# with a cycle of at most 4 tickets
NEAR = "quorum-weights 1\nload 2/3\nbound 3/5\ncycle 3\nquorum 0 1 1 1\nvoter 2 1 1 1\n"
QUORUMS = [(0, 1), (0, 2), (0, 3), (1, 2, 3)]
# the minimal sets with more than half of the votes 3, 2, 2, 1 and 1: its two orders differ
VOTES = """voters = ["a", "b", "c", "d", "e"]
quorums = [["a", "b"], ["a", "c"], ["a", "d", "e"], ["b", "c", "d"], ["b", "c", "e"]]
"""
FAST = 'voters = ["a", "b", "c"]\nquorums = [["a", "b"], ["a", "c"], ["b", "c"]]\ncapacity = [2, 1, 1]\n'


def majority_of_5():
    """Returns the coterie of all sets of three of five voters."""
    sets = [(a, b, c) for a in range(5) for b in range(a + 1, 5) for c in range(b + 1, 5)]
    voters = ", ".join(f'"v{v}"' for v in range(5))
    quorums = ", ".join("[" + ", ".join(f'"v{v}"' for v in q) + "]" for q in sets)
    return f"voters = [{voters}]\nquorums = [{quorums}]\n"


class Plans(unittest.TestCase):
    def test_plan_is_found_and_read(self):
        plan = Plan.find(WHEEL)
        self.assertEqual(plan.text, PLAN)
        for again in (plan, Plan(WHEEL, PLAN), Plan.parse(WHEEL + "%%\n" + PLAN)):
            self.assertEqual((again.load, again.cycle, again.names), (Fraction(3, 5), 5, ["hub", "rim1", "rim2", "rim3"]))
            self.assertEqual(again.shares(), [Fraction(3, 5)] * 4)

    def test_short_cycle_has_a_load_above_its_bound(self):
        plan = Plan.find(WHEEL, cycle=4)
        self.assertEqual((plan.load, plan.bound, plan.gap), (Fraction(2, 3), Fraction(3, 5), Fraction(1, 9)))
        self.assertEqual((plan.is_optimal, plan.cycle, plan.text), (False, 3, NEAR))
        self.assertEqual(Plan(WHEEL, NEAR).loads(), plan.loads())
        self.assertEqual(max(plan.loads()), plan.load)
        with self.assertRaises(refusals.BadText):
            plan.mask(0, Order.BY_ROUNDS)

    def test_optimal_plan_comes_if_its_cycle_is_short_enough(self):
        plan = Plan.find(WHEEL, cycle=5)
        self.assertEqual((plan.text, plan.is_optimal, plan.gap), (PLAN, True, 0))
        for cycle in (0, -1, qlock.plans.MAX_CYCLE + 1):
            with self.assertRaises(qlock.BadArgument):
                Plan.find(WHEEL, cycle=cycle)

    def test_bound_of_0_shows_nothing(self):
        plan = Plan(WHEEL, "quorum-weights 1\nload 1/1\nbound 0/1\ncycle 1\nquorum 1 0 0 0\nvoter 0 1 0 0\n")
        self.assertIsNone(plan.gap)

    def test_capacities_count(self):
        plan = Plan.find(FAST)
        self.assertTrue(plan.text.startswith("quorum-plan 2\n"))
        self.assertEqual((plan.capacities, Plan.find(WHEEL).capacities), ([2, 1, 1], [1, 1, 1, 1]))
        self.assertEqual(plan.load, max(share / capacity for share, capacity in zip(plan.shares(), (2, 1, 1))))

    def test_loads_are_shares_divided_by_capacities(self):
        self.assertEqual(Plan.find(WHEEL).loads(), [Fraction(3, 5)] * 4)
        plan = Plan.find(FAST)
        self.assertEqual(plan.loads(), [plan.shares()[0] / 2, *plan.shares()[1:]])
        self.assertEqual(max(plan.loads()), plan.load)

    def test_loads_after_tickets(self):
        plan = Plan.parse(WHEEL + "%%\n" + PLAN)
        by_rounds = [Fraction(1), Fraction(1), Fraction(1), Fraction(3, 4), Fraction(3, 5)]
        self.assertEqual(plan.loads_after(5, order=Order.BY_ROUNDS), by_rounds)
        self.assertEqual(plan.loads_after(2, 3, Order.BY_ROUNDS), [1, 1])
        self.assertEqual((plan.loads_after(0), plan.loads_after(1)), ([], [1]))
        self.assertEqual(plan.loads_after(2 * plan.cycle)[4::5], [plan.load] * 2)

    def test_loads_after_tickets_are_those_of_their_quorums(self):
        for plan, order, first in product(map(Plan.find, (FAST, VOTES)), Order, (0, 3, 10**12)):
            tickets = list(islice(plan.quorums(first, order), plan.cycle + 2))
            loads = plan.loads_after(len(tickets), first, order)
            for n in range(1, len(tickets) + 1):
                counts = Counter(voter for quorum in tickets[:n] for voter in quorum)
                self.assertEqual(loads[n - 1], max(Fraction(count, plan.capacities[v] * n) for v, count in counts.items()))

    def test_tickets_by_rounds_are_those_of_deal(self):
        plan = Plan.parse(WHEEL + "%%\n" + PLAN)
        dealt = [QUORUMS[j] for j in (0, 1, 2, 3, 3)]
        self.assertEqual([plan.quorum(t, Order.BY_ROUNDS) for t in range(10)], dealt * 2)
        self.assertEqual(list(islice(plan.quorums(3, Order.BY_ROUNDS), 4)), dealt[3:] + dealt[:2])

    def test_whole_cycles_of_both_orders_are_the_same_from_any_ticket(self):
        plan = Plan.find(majority_of_5())
        first = Counter(plan.quorum(t, Order.BY_ROUNDS) for t in range(plan.cycle))
        for start in (0, 1, 7, 10**12):
            self.assertEqual(Counter(islice(plan.quorums(start), plan.cycle)), first)

    def test_even_order_keeps_its_slack(self):
        plan = Plan.find(majority_of_5())
        slack = plan.slack()
        most = Fraction(0)
        for first in range(plan.cycle):
            used = [0] * len(plan.names)
            for n, quorum in enumerate(islice(plan.quorums(first), 2 * plan.cycle), 1):
                for voter in quorum:
                    used[voter] += 1
                most = max(most, max(used) - n * plan.load)
        self.assertEqual(most, slack.value)

    def test_processes_keep_their_slacks_together(self):
        for coterie in (FAST, WHEEL, majority_of_5()):
            plan = Plan.find(coterie)
            used, starts = [0] * len(plan.names), [0, 2, 5, 7, 11]
            tickets = [first + i for first in starts for i in range(first)]
            for ticket in tickets:
                for voter in plan.quorum(ticket):
                    used[voter] += 1
            most = plan.most_uses(len(tickets), len(starts))
            self.assertTrue(all(count <= bound for count, bound in zip(used, most)), (used, most))

    def test_ticket_goes_by_the_stride(self):
        plan = Plan.find(WHEEL)
        places = [j for j, weight in enumerate((1, 1, 1, 2)) for _ in range(weight)]
        stride = plan.slack().stride
        self.assertEqual([plan.quorum(t) for t in range(12)], [QUORUMS[places[t * stride % 5]] for t in range(12)])

    def test_masks_of_the_library_are_those_of_tickets(self):
        plan = Plan.find(WHEEL)
        for order in Order:
            for first, count in ((0, 0), (0, 1), (3, 9), (qlock.MAX_TICKETS - 3, 3)):
                masks = plan.masks(first, count, order)
                self.assertEqual(list(masks), [plan.mask(first + i, order) for i in range(count)])

    def test_numbers_out_of_range(self):
        plan = Plan.find(WHEEL)
        for first, count in ((-1, 1), (qlock.MAX_TICKETS, 1), (qlock.MAX_TICKETS - 1, 2), (0, -1)):
            with self.assertRaises(qlock.BadArgument):
                plan.masks(first, count)
        with self.assertRaises(qlock.BadArgument):
            plan.quorum(-1)
        with self.assertRaises(qlock.BadArgument):
            plan.masks(0, 1, 2)

    def test_bytes_are_texts(self):
        plan = Plan.find(WHEEL)
        self.assertEqual(Plan.find(WHEEL.encode()).text, plan.text)
        self.assertEqual(Plan(WHEEL.encode(), plan.text.encode()).load, plan.load)
        with self.assertRaises(qlock.refusals.NotToml):
            Plan.find(b"\xff")
        with self.assertRaises(qlock.refusals.NotToml):
            Plan.find("\ud800")
        with self.assertRaises(TypeError):
            Plan.find(3)

    def test_client_asks_the_quorum_of_a_ticket(self):
        plan, client = Plan.find(WHEEL), qlock.Client(0)
        client.ask(plan.quorum(4))
        self.assertEqual(tuple(client.shows().quorum), plan.quorum(4))


class Failures(unittest.TestCase):
    """What is left of a plan while voters are down."""

    def test_wheel_keeps_two_of_five_tickets(self):
        plan = Plan.find(WHEEL)
        kept = [qlock.Failure((), Fraction(1), Fraction(3, 5))]
        kept += [qlock.Failure((voter,), Fraction(2, 5), Fraction(1)) for voter in range(4)]
        self.assertEqual((plan.failures(0), plan.failures()), (kept[:1], kept))
        # two rims leave one of the hub's quorums, and the hub and a rim leave none
        kept += [qlock.Failure(down, Fraction(1, 5), Fraction(1)) for down in ((1, 2), (1, 3), (2, 3))]
        self.assertEqual((plan.failures(2), plan.failures(4)), (kept, kept))

    def test_they_are_those_of_the_tickets_that_are_left(self):
        for coterie in (WHEEL, FAST, VOTES, majority_of_5()):
            plan = Plan.find(coterie)
            tickets = list(islice(plan.quorums(), plan.cycle))
            found = {it.down: it for it in plan.failures(3)}
            for down in (it for size in range(4) for it in combinations(range(len(plan.names)), size)):
                left = [quorum for quorum in tickets if not set(quorum) & set(down)]
                if left:
                    counts = Counter(voter for quorum in left for voter in quorum)
                    load = max(Fraction(count, plan.capacities[voter] * len(left)) for voter, count in counts.items())
                    self.assertEqual(found.pop(down), (down, Fraction(len(left), plan.cycle), load))
            self.assertEqual(found, {})

    def test_one_voter_costs_at_most_the_load_if_capacities_are_1(self):
        for coterie in (WHEEL, majority_of_5()):
            plan = Plan.find(coterie)
            self.assertEqual(max(1 - it.left for it in plan.failures(1)), plan.load)

    def test_numbers_below_0(self):
        with self.assertRaises(qlock.BadArgument):
            Plan.find(WHEEL).failures(-1)


class Refusals(unittest.TestCase):
    def test_each_fault_of_a_coterie(self):
        cases = [
            ("voters = [", "NotToml", ()),
            ("", "Keys", ()),
            ('voters = ["a", "a b"]\nquorums = [["a"]]', "BadName", (1,)),
            ('voters = ["a", "a"]\nquorums = [["a"]]', "RepeatedName", (1,)),
            ('voters = ["a"]\nquorums = [["a"], ["b"]]', "UnknownName", (1,)),
            ('voters = ["a"]\nquorums = [["a", "a"]]', "RepeatedMember", (0,)),
            ('voters = ["a"]\nquorums = [["a"]]\ncapacity = [1, 2]', "CapacityCount", (2,)),
            ('voters = ["a"]\nquorums = [["a"]]\ncapacity = [0]', "BadCapacity", (0,)),
            ("voters = []\nquorums = []", "NoVoters", ()),
            (f"voters = {[f'v{i}' for i in range(65)]}\nquorums = [['v0']]", "TooManyVoters", ()),
            ('voters = ["a"]\nquorums = []', "NoQuorums", ()),
            ("voters = ['a']\nquorums = [" + "['a']," * 4097 + "]", "TooManyQuorums", ()),
            ('voters = ["a"]\nquorums = [[]]', "EmptyQuorum", (0,)),
            ('voters = ["a", "b"]\nquorums = [["a"], ["b"]]', "Disjoint", (0, 1)),
            ('voters = ["a", "b"]\nquorums = [["a"], ["a", "b"]]', "Contained", (0, 1)),
        ]
        for coterie, name, numbers in cases:
            for call in (qlock.names_of, Plan.find, lambda text: Plan(text, PLAN)):
                with self.subTest(fault=name), self.assertRaises(refusals.CoterieRefused) as raised:
                    call(coterie)
                self.assertIs(type(raised.exception), getattr(refusals, name))
                self.assertEqual(raised.exception.numbers, numbers)

    def test_each_fault_of_a_plan(self):
        cases = [
            ("", "BadText", (1,)),
            (PLAN[:-1], "BadText", (5,)),
            (PLAN.replace("voter 2 1 1 1", "voter 2 1 1"), "WrongLength", ()),
            (PLAN.replace("quorum 1 1 1 2", "quorum 1 1 1 999999"), "TooLarge", ()),
            (PLAN.replace("quorum 1 1 1 2", "quorum 0 0 0 0"), "Empty", ()),
            (PLAN.replace("quorum 1 1 1 2", "quorum 1 1 1 1"), "NotOptimal", (3, 5, 3, 4)),
            (PLAN.replace("3/5", "4/5"), "WrongLoad", ()),
            (PLAN.replace("cycle 5", "cycle 6"), "WrongCycle", ()),
            (Plan.find(FAST).text, "WrongLength", ()),
            (PLAN.replace("plan 1", "plan 2").replace("cycle 5\n", "cycle 5\ncapacity 2 1 1 1\n"), "WrongCapacity", ()),
            (NEAR.replace("bound 3/5", "bound 6/10"), "WrongBound", ()),
            (NEAR.replace("weights 1", "weights 3"), "BadText", (1,)),
        ]
        for text, name, numbers in cases:
            with self.subTest(fault=name), self.assertRaises(qlock.Refused) as raised:
                Plan(WHEEL, text)
            fault = raised.exception
            if name != "WrongLength" or "quorum-plan 1" in text:
                self.assertIs(type(fault), getattr(refusals, name))
                self.assertEqual(fault.numbers, numbers)
            self.assertIsInstance(fault, (refusals.PlanRefused, ValueError))

    def test_line_is_that_of_the_fault(self):
        with self.assertRaises(refusals.Disjoint) as raised:
            Plan.find('voters = ["a", "b"]\nquorums = [["a"], ["b"]]')
        self.assertEqual((raised.exception.code, str(raised.exception)), ("E7", "E7 Disjoint 0 1"))

    def test_no_plan_has_a_cause(self):
        fault = refusals.refusal_of("N1 NoPlan S1")
        self.assertEqual((type(fault), fault.cause, fault.numbers), (refusals.NoPlan, "S1", ()))

    def test_text_without_a_mark(self):
        with self.assertRaises(qlock.BadArgument):
            Plan.parse(WHEEL + PLAN)

    def test_codes_are_those_of_the_list_of_faults(self):
        expected = os.path.join(os.path.dirname(__file__), "..", "..", "examples", "expected", "show-explain-list.out")
        with open(expected, encoding="utf-8") as file:
            listed = {tuple(line.split()[:2]) for line in file}
        for code, kind in refusals.KINDS.items():
            self.assertIn((code, kind.__name__), listed)


class Libraries(unittest.TestCase):
    def test_library_is_found_beside_the_other(self):
        program = "import qlock; print(qlock.names_of('voters = [\"a\"]\\nquorums = [[\"a\"]]'))"
        environment = {name: value for name, value in os.environ.items() if name != "QLOCK_PLAN_LIBRARY"}
        done = subprocess.run([sys.executable, "-c", program], env=environment, capture_output=True, text=True, check=False)
        self.assertEqual((done.returncode, done.stdout), (0, "['a']\n"), done.stderr)


if __name__ == "__main__":
    unittest.main()
