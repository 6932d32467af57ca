"""Why a call was refused. A call that was refused has changed nothing."""
from typing import Dict, Tuple, Type


class Fault(Exception):
    """A call was refused. `number` is what the library returned."""

    number = -1


class BadArgument(Fault, ValueError):
    """A number is out of range, or the quorum is empty."""

    number = 1


class BadState(Fault, ValueError):
    """The bytes are no saved voter, client or guard."""

    number = 2


class BadMessage(Fault, ValueError):
    """The line is no message to this voter or client. Drop it."""

    number = 3


class NoRoom(Fault):
    """There is too little room for the lines. The classes here always give enough."""

    number = 4


class Busy(Fault):
    """C1: the client is asking already, or is inside."""

    number = 5


class NotInside(Fault):
    """C2: the client is not inside."""

    number = 6


class NotAsking(Fault):
    """C3: the client is not asking."""

    number = 7


class StampsSpent(Fault):
    """C4: the client's clock is at the limit, so no stamp is left for a request."""

    number = 8


class GrantsSpent(Fault):
    """V1: the message needs a new grant, and the voter has given as many as its limit."""

    number = 9


class OlderGrant(Fault):
    """The guard saw a newer grant of some voter before, so somebody entered since."""

    number = 10


class Refused(Fault, ValueError):
    """A text has a fault, or no plan was found. Each fault has a class of its own in `qlock.refusals`, named as in its line."""

    number = 11
    code = ""
    """the code of the fault, as `E7`"""

    def __init__(self, line: str) -> None:
        """Makes the fault of a line, as `E7 Disjoint 0 1`."""
        super().__init__(line)
        self.line = line
        self.numbers: Tuple[int, ...] = tuple(int(word) for word in line.split()[2:] if word.isdigit())


class NoMemory(Fault, MemoryError):
    """There is no memory."""

    number = 12


class NoPass(Fault):
    """What is shown to the guard has no grant, so it is no pass."""

    number = 13


class TurnsSpent(Fault):
    """The guard has given its last turn."""

    number = 14


_ALL: Tuple[Type[Fault], ...] = (
    BadArgument, BadState, BadMessage, NoRoom, Busy, NotInside, NotAsking, StampsSpent, GrantsSpent, OlderGrant, Refused,
    NoMemory, NoPass, TurnsSpent,
)

KINDS: Dict[int, Type[Fault]] = {kind.number: kind for kind in _ALL}
