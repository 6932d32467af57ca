"""Figures of plans. What is drawn is looked at only if matplotlib is there."""
import importlib.util
import sys
import unittest
from fractions import Fraction
from unittest import mock

from qlock import Failure, Order, Plan, figures

WHEEL = """voters = ["hub", "rim1", "rim2", "rim3"]
quorums = [["hub", "rim1"], ["hub", "rim2"], ["hub", "rim3"], ["rim1", "rim2", "rim3"]]
"""
# its two orders differ
VOTES = """voters = ["a", "b", "c", "d", "e"]
quorums = [["a", "b"], ["a", "c"], ["a", "d", "e"], ["b", "c", "d"], ["b", "c", "e"]]
"""
STAR = 'voters = ["a", "b"]\nquorums = [["a"]]\n'
HAS_MATPLOTLIB = importlib.util.find_spec("matplotlib") is not None


class Numbers(unittest.TestCase):
    def test_load_in_words(self):
        self.assertEqual(figures.load_text(Plan.find(WHEEL)), "load 3/5, 60.0 %")
        self.assertEqual(figures.load_text(Plan.find(WHEEL + "capacity = [2, 1, 1, 1]\n")), "load 3/7")

    def test_each_voter_alone(self):
        plan = Plan.find(WHEEL)
        self.assertEqual(figures.of_each_voter(plan, plan.failures(2)), [(Fraction(2, 5), Fraction(1))] * 4)

    def test_voter_without_which_no_ticket_is_left(self):
        plan = Plan.find(STAR)
        self.assertEqual(plan.failures(), [Failure((), Fraction(1), Fraction(1)), Failure((1,), Fraction(1), Fraction(1))])
        self.assertEqual(figures.of_each_voter(plan, plan.failures()), [(0, None), (1, 1)])

    def test_fault_without_matplotlib_says_what_to_install(self):
        with mock.patch.dict(sys.modules, {"matplotlib": None}), self.assertRaises(ImportError) as raised:
            figures.loads(Plan.find(WHEEL))
        self.assertIn("apt-get install python3-matplotlib", str(raised.exception))


@unittest.skipUnless(HAS_MATPLOTLIB, "matplotlib is not there")
class Drawings(unittest.TestCase):
    def setUp(self):
        import matplotlib
        from matplotlib import pyplot

        matplotlib.use("Agg")
        self.addCleanup(pyplot.close, "all")
        self.pyplot = pyplot

    def has_load(self, axes, load, at):
        """Checks that the axes have a line at the load, named in the legend."""
        self.assertEqual(set(at(axes.lines[-1])), {float(load)})
        self.assertEqual([it.get_text() for it in axes.get_legend().get_texts()], [axes.lines[-1].get_label()])

    def has_bars(self, axes, values, texts):
        """Checks that the axes have bars of these lengths with these texts."""
        self.assertEqual([bar.get_width() for bar in axes.patches], [float(value) for value in values])
        self.assertEqual([it.get_text() for it in axes.texts], texts)

    def has_names(self, axes, plan):
        """Checks that the axes have the voters' names, the first one at the top."""
        self.assertEqual([it.get_text() for it in axes.get_yticklabels()], plan.names)
        self.assertTrue(axes.yaxis_inverted())

    def test_loads(self):
        for capacity, text, unit in (("1, 1", "60.0 %", "share of the requests"), ("2, 1", "0.429", "divided by the capacity")):
            plan = Plan.find(WHEEL + f"capacity = [{capacity}, 1, 1]\n")
            axes = figures.loads(plan)
            self.has_bars(axes, plan.loads(), [text] * 4)
            self.has_names(axes, plan)
            self.has_load(axes, plan.load, lambda line: line.get_xdata())
            self.assertTrue(axes.get_xlabel().endswith(unit))
            axes.figure.canvas.draw()

    def test_tickets(self):
        plan = Plan.find(VOTES)
        for order in Order:
            axes = figures.tickets(plan, 12, 3, order)
            self.assertEqual(list(axes.lines[0].get_xdata()), list(range(1, 13)))
            self.assertEqual(list(axes.lines[0].get_ydata()), [float(it) for it in plan.loads_after(12, 3, order)])
            self.has_load(axes, plan.load, lambda line: line.get_ydata())
            axes.figure.canvas.draw()

    def test_failures(self):
        cases = [
            (WHEEL, [Fraction(2, 5)] * 4, ["40.0 %"] * 4, [1] * 4, ["100.0 %"] * 4),
            (STAR, [0, 1], ["0.0 %", "100.0 %"], [0, 1], ["-", "100.0 %"]),
        ]
        for coterie, shares, share_texts, values, texts in cases:
            plan = Plan.find(coterie)
            left, rest = figures.failures(plan)
            self.has_bars(left, shares, share_texts)
            self.has_bars(rest, values, texts)
            self.has_names(left, plan)
            self.has_load(rest, plan.load, lambda line: line.get_xdata())
            left.figure.canvas.draw()
            self.assertEqual([rest.xaxis.get_major_formatter()(it, 0) for it in (0, 0.125, 1, 1.2)], ["0 %", "12.5 %", "100 %", ""])

    def test_axes_that_are_given_are_drawn_into(self):
        plan, (first, second, *others) = Plan.find(WHEEL), self.pyplot.subplots(4)[1]
        self.assertIs(figures.loads(plan, first), first)
        self.assertIs(figures.tickets(plan, 3, axes=second), second)
        self.assertEqual(figures.failures(plan, others), tuple(others))
        self.assertEqual(len(self.pyplot.get_fignums()), 1)


if __name__ == "__main__":
    unittest.main()
