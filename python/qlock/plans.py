"""Plans of coteries, and the quorums of tickets."""
import ctypes
import enum
import sys
from array import array
from collections import Counter
from fractions import Fraction
from itertools import combinations, islice
from typing import Dict, Iterator, List, Mapping, NamedTuple, Optional, Tuple, Union

from .faults import BadArgument
from .library import call_plan

MAX_TICKETS = 1 << 63
MAX_CYCLE = 1_000_000
_FAULT_OUT = 128
_NAMES_OUT = 4160
_PLAN_OUT = 34816
_MARK = "%%\n"

Quorum = Tuple[int, ...]
"""The numbers of the voters of a quorum, in ascending order."""


class Order(enum.IntEnum):
    """An order of a plan's tickets. In both, the tickets of whole cycles use each quorum as often as the plan says."""

    BY_ROUNDS = 0
    """of an optimal plan alone, as `qlock deal`: each quorum of weight 1 or more once, then those of weight 2 or more once more, and so on"""
    EVEN = 1
    """even from the first ticket, whichever it is: `Plan.slack` says how even"""


class Slack(NamedTuple):
    """How even `Order.EVEN` is. Any n tickets in a row, from any first one, use no voter more often than n times the load plus
    the slack, times the voter's capacity. The slacks of several processes add up."""

    stride: int
    """how many places of the cycle further on each ticket is than the one before"""
    excess: int
    """the slack's numerator"""
    unit: int
    """the slack's denominator"""

    @property
    def value(self) -> Fraction:
        """The slack as a fraction."""
        return Fraction(self.excess, self.unit)


class Failure(NamedTuple):
    """What is left of a plan while some voters are down, and who draws a ticket with one of them takes the next ticket instead."""

    down: Quorum
    """the voters that are down"""
    left: Fraction
    """the share of the tickets whose quorum has none of them"""
    load: Fraction
    """the load of the tickets that are left"""


def _voters(mask: int) -> Quorum:
    return tuple(voter for voter in range(64) if mask >> voter & 1)


def _text_of(text: Union[str, bytes]) -> str:
    """Returns a text. Bytes are taken as UTF-8; those that are none are kept, so that the library refuses them."""
    if isinstance(text, bytes):
        return text.decode(errors="surrogateescape")
    if isinstance(text, str):
        return text
    raise TypeError(f"a coterie or a plan is a text or bytes, and not {type(text).__name__}")


def _bytes_of(text: str) -> bytes:
    """Returns the bytes of a text. Halves of characters, which no file of UTF-8 has, stay as they are."""
    try:
        return text.encode(errors="surrogateescape")
    except UnicodeEncodeError:
        return text.encode(errors="surrogatepass")


def names_of(coterie: Union[str, bytes]) -> List[str]:
    """Returns the names of the voters of a coterie, in the order of their numbers. Raises the fault of a text that describes
    none, of `qlock.refusals`."""
    text = _bytes_of(_text_of(coterie))
    return call_plan("names", _NAMES_OUT, text, len(text)).decode("ascii").splitlines()


class Plan:
    """A plan of a coterie: how often to use each quorum, so that the busiest voter is asked as seldom as possible, or nearly.

    `Plan.find(coterie)` finds an optimal one, and `Plan.find(coterie, cycle=1000)` one with a cycle of at most so many tickets,
    whose load may be above its bound. `Plan(coterie, text)` reads and checks the text of one, and `Plan.parse(planned)` reads
    both from one text. Ticket n has the quorum `plan.quorum(n)`. A process begins at a ticket of its own, and keeps its place:

        plan = Plan.find(open("coterie.toml").read())
        for quorum in plan.quorums(first=place):
            lines = client.ask(quorum)
    """

    def __init__(self, coterie: Union[str, bytes], text: Union[str, bytes]) -> None:
        """Reads a plan. Raises the fault of the text, of `qlock.refusals`."""
        coterie, text = _text_of(coterie), _text_of(text)
        self.coterie = coterie
        """the text of the coterie"""
        self.text = text
        """the text of the plan"""
        self._texts = (_bytes_of(coterie), _bytes_of(text))
        load_p, load_q, bound_p, bound_q, cycle = self._numbers("check_weights", 5)
        self.load = Fraction(load_p, load_q)
        """the share of the requests that use the busiest voter, divided by its capacity"""
        self.bound = Fraction(bound_p, bound_q)
        """no plan of the coterie has a load below it"""
        self.cycle = cycle
        """how many tickets one cycle has"""
        self.names = names_of(coterie)
        """the names of the voters, in the order of their numbers"""
        self.capacities = self._capacities()
        """the capacities of the voters: one of capacity 2 may be asked twice as often as one of capacity 1 for the same load"""
        self._masks: Dict[Order, "array[int]"] = {}
        self._quorums: Dict[int, Quorum] = {}

    @classmethod
    def find(cls, coterie: Union[str, bytes], cycle: Optional[int] = None) -> "Plan":
        """Returns an optimal plan of a coterie, the same each time. Raises the fault of a text that describes no coterie, or
        `NoPlan`. With `cycle` it returns a plan with a cycle of at most so many tickets, 1 to 1,000,000: an optimal one if one
        with so short a cycle is found, else one whose load is near its bound."""
        text = _bytes_of(_text_of(coterie))
        if cycle is None:
            return cls(coterie, call_plan("plan", _PLAN_OUT, text, len(text)).decode("ascii"))
        if not 1 <= cycle <= MAX_CYCLE:
            raise BadArgument(f"a cycle has 1 to {MAX_CYCLE} tickets, and not {cycle}")
        return cls(coterie, call_plan("weights", _PLAN_OUT, text, len(text), cycle).decode("ascii"))

    @property
    def gap(self) -> Optional[Fraction]:
        """By which share of the bound the load is above it: 0 of an optimal plan, and `None` if the bound is 0."""
        return self.load / self.bound - 1 if self.bound else None

    @property
    def is_optimal(self) -> bool:
        """Whether no plan of the coterie has a smaller load."""
        return self.load == self.bound

    @classmethod
    def parse(cls, planned: Union[str, bytes]) -> "Plan":
        """Reads a coterie, a line `%%` and a plan of it, as `qlock check` does. Raises `BadArgument` if there is no such line."""
        coterie, mark, text = ("\n" + _text_of(planned)).partition("\n" + _MARK)
        if not mark:
            raise BadArgument("there is no line %% between a coterie and a plan")
        return cls((coterie + "\n")[1:], text)

    def _capacities(self) -> List[int]:
        for line in self.text.splitlines():
            word, *numbers = line.split(" ")
            if word == "capacity":
                return [int(number) for number in numbers]
        return [1] * len(self.names)

    def _given(self) -> Tuple[bytes, int, bytes, int]:
        coterie, text = self._texts
        return coterie, len(coterie), text, len(text)

    def _numbers(self, name: str, count: int) -> List[int]:
        numbers = [ctypes.c_uint64() for _ in range(count)]
        call_plan(name, _FAULT_OUT, *self._given(), *(ctypes.byref(number) for number in numbers))
        return [number.value for number in numbers]

    def masks(self, first: int, count: int, order: Order = Order.EVEN) -> "array[int]":
        """Returns the masks of the quorums of tickets in a row, from the library: bit i is 1 if voter i is a member. Each call
        reads the texts anew. Raises `BadArgument` if a ticket is not in 0 to 2^63 - 1."""
        if not (0 <= first and 0 <= count and first + count <= MAX_TICKETS):
            raise BadArgument(f"{count} tickets from {first} on are not all in 0 to 2^63 - 1")
        block = ctypes.create_string_buffer(max(8 * count, 1))
        call_plan("quorums", _FAULT_OUT, *self._given(), order, first, block, 8 * count)
        masks = array("Q", block.raw[: 8 * count])
        if sys.byteorder == "big":
            masks.byteswap()
        return masks

    def mask(self, ticket: int, order: Order = Order.EVEN) -> int:
        """Returns the mask of a ticket's quorum. The first use of an order reads the masks of one whole cycle."""
        if ticket < 0:
            raise BadArgument(f"there is no ticket {ticket}")
        if order not in self._masks:
            self._masks[order] = self.masks(0, self.cycle, order)
        return self._masks[order][ticket % self.cycle]

    def quorum(self, ticket: int, order: Order = Order.EVEN) -> Quorum:
        """Returns the quorum of a ticket: the numbers of its voters."""
        mask = self.mask(ticket, order)
        if mask not in self._quorums:
            self._quorums[mask] = _voters(mask)
        return self._quorums[mask]

    def quorums(self, first: int = 0, order: Order = Order.EVEN) -> Iterator[Quorum]:
        """Returns the quorums of the tickets from this one on, without end."""
        ticket = first
        while True:
            yield self.quorum(ticket, order)
            ticket += 1

    def slack(self) -> Slack:
        """Returns how even `Order.EVEN` is."""
        return Slack(*self._numbers("slack", 3))

    def most_uses(self, requests: int, processes: int = 1) -> List[int]:
        """Returns for each voter how often it is used at most by this many requests, if each of the processes used tickets of
        `Order.EVEN` in a row, from whatever first one: `slacks_add_up`, in the crate `even`."""
        most = requests * self.load + processes * self.slack().value
        return [int(capacity * most) for capacity in self.capacities]

    def _weights(self) -> Dict[Quorum, int]:
        """Returns how many tickets of a cycle each quorum has, if it has any."""
        order = Order.BY_ROUNDS if self.text.startswith("quorum-plan") else Order.EVEN
        tickets = Counter(self.masks(0, self.cycle, order))
        return {_voters(mask): weight for mask, weight in tickets.items()}

    def _shares(self, weights: Mapping[Quorum, int]) -> List[Fraction]:
        """Returns for each voter the share of the tickets that use it, if each quorum has as many as its weight."""
        used = [0] * len(self.names)
        for quorum, weight in weights.items():
            for voter in quorum:
                used[voter] += weight
        return [Fraction(count, sum(weights.values())) for count in used]

    def _loads(self, weights: Mapping[Quorum, int]) -> List[Fraction]:
        return [share / capacity for share, capacity in zip(self._shares(weights), self.capacities)]

    def shares(self) -> List[Fraction]:
        """Returns for each voter the share of the requests that use it."""
        return self._shares(self._weights())

    def loads(self) -> List[Fraction]:
        """Returns for each voter the share of the requests that use it, divided by its capacity. The greatest is the load."""
        return self._loads(self._weights())

    def loads_after(self, count: int, first: int = 0, order: Order = Order.EVEN) -> List[Fraction]:
        """Returns the loads of 1, 2, .. and `count` tickets in a row, from this first one on: after n tickets how often the
        busiest voter was used, divided by its capacity and by n."""
        used, busiest, loads = [0] * len(self.names), Fraction(0), []
        for tickets, quorum in enumerate(islice(self.quorums(first, order), count), 1):
            for voter in quorum:
                used[voter] += 1
                busiest = max(busiest, Fraction(used[voter], self.capacities[voter]))
            loads.append(busiest / tickets)
        return loads

    def failures(self, most: int = 1) -> List[Failure]:
        """Returns what is left for each set of at most this many voters that are down, smaller sets first. A set that leaves no
        quorum with a ticket is not there. The first set is empty: it leaves all tickets, and the load of the plan."""
        if most < 0:
            raise BadArgument(f"no set has {most} voters")
        weights, failures = self._weights(), []
        for down in (it for size in range(most + 1) for it in combinations(range(len(self.names)), size)):
            left = {quorum: weight for quorum, weight in weights.items() if not set(down).intersection(quorum)}
            if left:
                failures.append(Failure(down, Fraction(sum(left.values()), self.cycle), max(self._loads(left))))
        return failures
