"""The voter, the client and the guard, and what quorums lie within voters."""
import ctypes
import enum
from typing import Any, Iterable, List, NamedTuple, Optional, Tuple, Union

from .faults import BadArgument, BadState
from .library import call

VOTER_BYTES = 1104
CLIENT_BYTES = 1104
FENCE_BYTES = 520
PASS_BYTES = 512
MAX_STAMP = 1 << 62
_VOTER_OUT = 240
_CLIENT_OUT = 4864


class Phase(enum.IntEnum):
    """What a client is doing."""

    IDLE = 0
    ASKING = 1
    INSIDE = 2


class Grant(NamedTuple):
    """A grant of a voter's vote: to whose request, and the number of the grant."""

    client: int
    stamp: int
    number: int


class Known(NamedTuple):
    """What a voter knows of a client: the stamp of its request that has the vote or waits, if there is one, the highest stamp
    that is finished, and the highest stamp that the voter saw of anybody."""

    stamp: Optional[int]
    finished: int
    seen: int


class Taken(NamedTuple):
    """What a client's message led to: the lines to send, and whether the client got the lock."""

    lines: List[bytes]
    entered: bool


class Shown(NamedTuple):
    """What a client is doing, and the stamp and the quorum of its current or last request."""

    phase: Phase
    stamp: int
    quorum: List[int]


def _number(value: int, low: int, high: int, what: str) -> int:
    if not low <= value <= high:
        raise BadArgument(f"{what} is {value}, and has to be from {low} to {high}")
    return value


def message_of(line: Union[bytes, str]) -> bytes:
    """Returns a message as bytes. A text is taken as its UTF-8: a message has ASCII alone."""
    if isinstance(line, str):
        return line.encode(errors="surrogatepass")
    if isinstance(line, bytes):
        return line
    raise TypeError(f"a message is bytes or a text, and not {type(line).__name__}")


def mask_of(voters: Iterable[int]) -> int:
    """Returns voters as a mask: bit i is 1 if voter i is among them."""
    mask = 0
    for voter in voters:
        mask |= 1 << _number(voter, 0, 63, "a voter")
    return mask


def _masks_of(quorums: Iterable[Iterable[int]]) -> Tuple[Any, int]:
    masks = [mask_of(quorum) for quorum in quorums]
    return (ctypes.c_uint64 * max(len(masks), 1))(*masks), len(masks)


def has_quorum(quorums: Iterable[Iterable[int]], voters: Iterable[int]) -> bool:
    """Returns whether all members of some of the quorums are among these voters. Raises `BadArgument` if there is no quorum, or
    one has no member."""
    yes = ctypes.c_int32()
    call("has_quorum", *_masks_of(quorums), mask_of(voters), ctypes.byref(yes))
    return yes.value == 1


def is_bridge(firsts: Iterable[Iterable[int]], seconds: Iterable[Iterable[int]]) -> bool:
    """Returns whether each of the first quorums has a common member with each of the second. Raises `BadArgument` if there are
    none of the first or of the second, or one has no member."""
    yes = ctypes.c_int32()
    call("bridge", *_masks_of(firsts), *_masks_of(seconds), ctypes.byref(yes))
    return yes.value == 1


class _State:
    """A block of bytes that calls read and write."""

    def __init__(self, size: int, out: int) -> None:
        self._size = size
        self._bytes = ctypes.create_string_buffer(size)
        self._room = out
        self._out = ctypes.create_string_buffer(max(out, 1))
        self._written = ctypes.c_size_t()

    @property
    def state(self) -> bytes:
        """The bytes to save. They are the same on every machine."""
        return self._bytes.raw

    def _restore(self, state: bytes) -> None:
        if len(state) != self._size:
            raise BadState(f"{len(state)} bytes, and {self._size} are wanted")
        self._bytes.raw = state

    def _given(self) -> Tuple[Any, ...]:
        return self._bytes, self._size

    def _into(self) -> Tuple[Any, ...]:
        return self._out, self._room, ctypes.byref(self._written)

    def _lines(self) -> List[bytes]:
        return self._out.raw[: self._written.value].splitlines()


class Voter(_State):
    """A voter: it has one vote, and grants it to one client at a time.

    `Voter(3)` is a new voter with number 3, and `Voter.restore(state)` the one that was saved. A voter is made new once: a
    voter that was lost and is made again breaks the lock.
    """

    def __init__(self, number: int, limit: int = MAX_STAMP) -> None:
        """Makes a new voter with this number, 0 to 63, that may give `limit` grants."""
        super().__init__(VOTER_BYTES, _VOTER_OUT)
        call("voter_new", _number(number, 0, 63, "the number"), _number(limit, 1, MAX_STAMP, "the limit"), *self._given())

    @classmethod
    def restore(cls, state: bytes) -> "Voter":
        """Returns the voter that was saved as these bytes. Raises `BadState` if they are those of no voter."""
        voter = cls(0)
        voter._restore(state)
        voter.held()
        return voter

    def take(self, line: Union[bytes, str]) -> List[bytes]:
        """Takes a message, a line without its newline, and returns the replies. The third word of a reply is the client
        that it is for. Raises `BadMessage` or `GrantsSpent`."""
        line = message_of(line)
        call("voter_take", *self._given(), line, len(line), *self._into())
        return self._lines()

    def remind(self) -> List[bytes]:
        """Returns what to send to the holder of the vote again, in case messages were lost."""
        call("voter_remind", *self._given(), *self._into())
        return self._lines()

    def held(self) -> Optional[Grant]:
        """Returns the grant that holds the vote, or None if the vote is free."""
        client, stamp, number = ctypes.c_uint64(), ctypes.c_uint64(), ctypes.c_uint64()
        call("voter_held", *self._given(), ctypes.byref(client), ctypes.byref(stamp), ctypes.byref(number))
        return Grant(client.value, stamp.value, number.value) if number.value else None

    @classmethod
    def reborn(cls, number: int, above: int, limit: int = MAX_STAMP) -> "Voter":
        """Returns a voter that lost its state, and gave at most `above` grants before. It may give `limit` in all."""
        voter = cls(number, limit)
        call("voter_reborn", number, _number(above, 0, MAX_STAMP, "the grants"), limit, *voter._given())
        return voter

    def extend(self, limit: int) -> None:
        """Raises the number of grants that the voter may give in all."""
        call("voter_extend", *self._given(), _number(limit, 1, MAX_STAMP, "the limit"))

    def raise_above(self, above: int) -> None:
        """Skips the numbers up to this one: each later grant has a greater one. A grant that is held stays."""
        call("voter_raise", *self._given(), _number(above, 0, MAX_STAMP, "the grants"))

    def evict(self, grant: int) -> List[bytes]:
        """Lets the current grant go if it has this number, and returns the replies. Its client may believe that it is still
        inside, so only a guard's word counts. Raises `GrantsSpent`."""
        call("voter_evict", *self._given(), _number(grant, 0, (1 << 64) - 1, "the grant"), *self._into())
        return self._lines()

    def knows(self, client: int) -> Known:
        """Returns what the voter knows of this client, and the highest stamp that it saw."""
        stamp, finished, seen = ctypes.c_uint64(), ctypes.c_uint64(), ctypes.c_uint64()
        number = _number(client, 0, 63, "the client")
        call("voter_knows", *self._given(), number, ctypes.byref(stamp), ctypes.byref(finished), ctypes.byref(seen))
        return Known(stamp.value or None, finished.value, seen.value)

    def forget(self) -> None:
        """Forgets all but the least that has to survive a crash: the grant that holds the vote, and the number of grants. The
        clients' reminders bring the waiting requests back."""
        call("voter_forget", *self._given())

    def must_save(self, saved: bytes) -> bool:
        """Returns whether the voter has to be saved before its lines leave, if it was last saved as these bytes, and forgets at
        each start. Raises `BadState` if they are those of no voter."""
        yes = ctypes.c_int32()
        call("voter_must_save", saved, len(saved), *self._given(), ctypes.byref(yes))
        return yes.value == 1


class Client(_State):
    """A client: it has one request at a time.

    `Client(5)` is a new client with number 5, and `Client.restore(state)` the one that was saved. A client is made new once: a
    client that was lost and is made again breaks the lock.
    """

    def __init__(self, number: int, limit: int = MAX_STAMP) -> None:
        """Makes a new client with this number, 0 to 63. Its stamps go from 1 to the limit."""
        super().__init__(CLIENT_BYTES, _CLIENT_OUT)
        call("client_new", _number(number, 0, 63, "the number"), _number(limit, 1, MAX_STAMP, "the limit"), *self._given())

    @classmethod
    def restore(cls, state: bytes) -> "Client":
        """Returns the client that was saved as these bytes. Raises `BadState` if they are those of no client."""
        client = cls(0)
        client._restore(state)
        client.shows()
        return client

    def ask(self, quorum: Iterable[int]) -> List[bytes]:
        """Starts a request for the votes of a quorum, and returns what to send. The third word of a line is the voter that
        it is for. Raises `BadArgument` for an empty quorum, `Busy` or `StampsSpent`."""
        call("client_ask", *self._given(), mask_of(quorum), *self._into())
        return self._lines()

    def take(self, line: Union[bytes, str]) -> Taken:
        """Takes a message, a line without its newline. An idle client takes messages too. Raises `BadMessage`."""
        line = message_of(line)
        entered = ctypes.c_int32()
        call("client_take", *self._given(), line, len(line), *self._into(), ctypes.byref(entered))
        return Taken(self._lines(), entered.value == 1)

    def leave(self) -> List[bytes]:
        """Leaves, and returns what to send. Raises `NotInside`."""
        call("client_leave", *self._given(), *self._into())
        return self._lines()

    def give_up(self) -> List[bytes]:
        """Gives up the request, and returns what to send. Raises `NotAsking`."""
        call("client_give_up", *self._given(), *self._into())
        return self._lines()

    def remind(self) -> List[bytes]:
        """Returns what to send to the members again while asking, in case messages were lost."""
        call("client_remind", *self._given(), *self._into())
        return self._lines()

    def forget(self) -> None:
        """Forgets all but the least that has to survive a crash. The client is then idle. If it was inside, this opens the
        lock, so its work has to be done or undone before."""
        call("client_forget", *self._given())

    def shows(self) -> Shown:
        """Returns what the client is doing, and the stamp and the quorum of its current or last request."""
        phase, stamp, quorum = ctypes.c_int32(), ctypes.c_uint64(), ctypes.c_uint64()
        call("client_shows", *self._given(), ctypes.byref(phase), ctypes.byref(stamp), ctypes.byref(quorum))
        return Shown(Phase(phase.value), stamp.value, [v for v in range(64) if quorum.value >> v & 1])

    def grant(self, voter: int) -> Optional[int]:
        """Returns the number of the grant under which the vote of this voter is held, or None if it is not held."""
        grant = ctypes.c_uint64()
        call("client_grant", *self._given(), _number(voter, 0, 63, "the voter"), ctypes.byref(grant))
        return grant.value or None

    def show_pass(self) -> bytes:
        """Returns the pass of a client that is inside, for `Fence.admit`. Raises `NotInside` if it is not inside."""
        shown = ctypes.create_string_buffer(PASS_BYTES)
        call("client_pass", *self._given(), shown, PASS_BYTES)
        return shown.raw

    @classmethod
    def anew(cls, number: int, clock: int, limit: int = MAX_STAMP) -> "Client":
        """Returns a client that lost its state, with a clock that is at least the stamp of its last request."""
        client = cls(number, limit)
        call("client_anew", number, limit, _number(clock, 0, MAX_STAMP, "the clock"), *client._given())
        return client

    def raise_clock(self, clock: int) -> None:
        """Raises the clock to this stamp, if it is behind. The next request's stamp is above it."""
        call("client_raise", *self._given(), _number(clock, 0, (1 << 64) - 1, "the clock"))

    def disclaim(self, voters: Iterable[int]) -> List[bytes]:
        """Returns what an idle client sends to these voters to end all its requests. Raises `Busy`."""
        call("client_disclaim", *self._given(), mask_of(voters), *self._into())
        return self._lines()

    def renew(self) -> List[bytes]:
        """Returns what a client that is inside sends as a sign of life."""
        call("client_renew", *self._given(), *self._into())
        return self._lines()


class Fence(_State):
    """A guard of what the lock protects: it refuses a client that lost the lock without noticing it, and comes late."""

    def __init__(self) -> None:
        """Makes a guard that saw no grant."""
        super().__init__(FENCE_BYTES, 0)
        call("fence_new", *self._given())

    @classmethod
    def restore(cls, state: bytes) -> "Fence":
        """Returns the guard that was saved as these bytes. Raises `BadState` if they are not as many as a guard has."""
        fence = cls()
        fence._restore(state)
        return fence

    def admit(self, shown: bytes) -> int:
        """Admits a pass, as `Client.show_pass` returns it, and returns its turn: a fencing token, which is greater for each later
        request, as long as only passes are shown that clients had. Raises `OlderGrant` if a newer pass was admitted before, and
        `NoPass` if this one has no grant."""
        turn = ctypes.c_uint64()
        call("fence_admit", *self._given(), shown, len(shown), ctypes.byref(turn))
        return turn.value
