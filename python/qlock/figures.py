"""Figures of a plan for a notebook, by matplotlib (Debian: python3-matplotlib). Nothing else in this package needs it.

    from qlock import Plan, figures
    figures.loads(Plan.find(coterie))

Each function draws into the axes that it is given, or into those of a new figure, and returns them. The numbers are exact ones
of the plan: `Plan.loads`, `Plan.loads_after` and `Plan.failures`.
"""
from fractions import Fraction
from typing import Any, List, Optional, Sequence, Tuple

from .plans import Failure, Order, Plan

_BAR, _LINE = "#4c78a8", "#c0392b"


def load_text(plan: Plan) -> str:
    """Returns the load in words."""
    return f"load {plan.load}, {_text(plan.load, True)}" if _is_share(plan) else f"load {plan.load}"


def of_each_voter(plan: Plan, failures: Sequence[Failure]) -> List[Tuple[Fraction, Optional[Fraction]]]:
    """Returns for each voter what is left if it alone is down: the share of the tickets and their load, which is `None` if no
    ticket is left."""
    alone = {it.down[0]: (it.left, it.load) for it in failures if len(it.down) == 1}
    return [alone.get(voter, (Fraction(0), None)) for voter in range(len(plan.names))]


def _is_share(plan: Plan) -> bool:
    """Returns whether the load is a share of the requests: it is if no voter has a capacity but 1."""
    return set(plan.capacities) == {1}


def _text(value: Optional[Fraction], is_share: bool) -> str:
    if value is None:
        return "-"
    return f"{100 * float(value):.1f} %" if is_share else f"{float(value):.3g}"


def _new_axes(columns: int, rows: int) -> Any:
    """Returns axes side by side, with room for this many rows."""
    try:
        from matplotlib import pyplot
    except ImportError:
        raise ImportError("qlock.figures needs matplotlib: apt-get install python3-matplotlib, or pip install matplotlib") from None
    size = (1.6 + 4.8 * columns, 1.4 + 0.26 * rows)
    return pyplot.subplots(1, columns, figsize=size, sharey=True, layout="constrained")[1]


def _trim(axes: Any, axis: Any, is_share: bool) -> None:
    """Takes away lines that say nothing, and writes shares along this axis as percentages. There are none above 100 %."""
    axes.spines[["top", "right"]].set_visible(False)
    if is_share:
        axis.set_major_formatter(lambda value, _: f"{100 * value:g} %" if value < 1.001 else "")


def _draw_bars(axes: Any, plan: Plan, values: Sequence[Optional[Fraction]], is_share: bool) -> None:
    """Draws a bar for each voter, the first one at the top, with its value behind it."""
    bars = axes.barh(plan.names, [float(value or 0) for value in values], color=_BAR, height=0.7)
    axes.bar_label(bars, [_text(value, is_share) for value in values], padding=3, fontsize=8)
    axes.set_ylim(len(values) - 0.4, -0.6)
    axes.margins(x=0.2)
    _trim(axes, axes.xaxis, is_share)


def _draw_load(axes: Any, plan: Plan, along: Any) -> None:
    """Draws the load of the plan as a line, and names it above the axes."""
    along(float(plan.load), color=_LINE, linewidth=1.5, label=load_text(plan))
    axes.legend(loc="lower right", bbox_to_anchor=(1, 1), frameon=False, borderaxespad=0.2)


def loads(plan: Plan, axes: Any = None) -> Any:
    """Draws each voter's load as a bar, and the load of the plan as a line."""
    axes = _new_axes(1, len(plan.names)) if axes is None else axes
    _draw_bars(axes, plan, plan.loads(), _is_share(plan))
    _draw_load(axes, plan, axes.axvline)
    axes.set_xlabel("share of the requests" + ("" if _is_share(plan) else ", divided by the capacity"))
    return axes


def tickets(plan: Plan, count: int, first: int = 0, order: Order = Order.EVEN, axes: Any = None) -> Any:
    """Draws the loads of 1, 2, .. and `count` tickets in a row, from this first one on, and the load of the plan as a line."""
    axes = _new_axes(1, 10) if axes is None else axes
    axes.plot(range(1, count + 1), [float(it) for it in plan.loads_after(count, first, order)], color=_BAR)
    axes.set_ylim(bottom=0)
    axes.set_xlabel("tickets" if first == 0 else f"tickets from {first} on")
    axes.set_ylabel("load of the tickets so far")
    _draw_load(axes, plan, axes.axhline)
    _trim(axes, axes.yaxis, _is_share(plan))
    return axes


def failures(plan: Plan, axes: Any = None) -> Any:
    """Draws for each voter that is down alone how many tickets are left, and their load, beside the load of the plan. Given axes
    are two."""
    left, rest = _new_axes(2, len(plan.names)) if axes is None else axes
    each = of_each_voter(plan, plan.failures(1))
    _draw_bars(left, plan, [share for share, _ in each], True)
    _draw_bars(rest, plan, [load for _, load in each], _is_share(plan))
    _draw_load(rest, plan, rest.axvline)
    left.set_xlabel("tickets that are left without this voter")
    rest.set_xlabel("load of these tickets")
    return left, rest
