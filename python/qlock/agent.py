"""Locks between the processes of many hosts, by the agent of this host, `qlockd`. It needs the standard library alone.

    from qlock.agent import Client

    client = Client()
    with client.lock("orders", wait=10) as held:
        write(held.token)    # the guard beside the data admits the token, and refuses who comes late

A lock lasts as long as its connection, so the agent gives the lock of a process back that dies. `held.lost` is an event that is set
when the lock may be somebody else's: if the agent says so, or is gone, or says nothing for too long. End the work then, within a
tenth of `held.ttl`. A child that is forked has none of the locks of its parent.

`client.who("orders")`, `client.list("orders-")` and `client.watch("leader")` say who has a lock of the cluster, on whichever host.
`client.locks()` has those of this host.
"""
import json
import os
import socket as sockets
import threading
import time
import weakref
from dataclasses import dataclass, fields
from datetime import datetime, timedelta, timezone
from types import TracebackType
from typing import Any, Callable, Dict, Iterator, List, Optional, Type
from urllib.parse import quote, urlencode

SOCKET = "/run/qlock/qlockd.sock"
"""Where the agent listens if nobody says otherwise."""


class AgentFault(Exception):
    """The agent refused a call. `word` is one of a few that stay the same (`qlockd`(1)); the text says why."""

    word = "internal"

    def __init__(self, why: str, word: str = "", said: Optional[Dict[str, Any]] = None) -> None:
        super().__init__(why)
        self.word = word or self.word
        self._said = said or {}


class HeldElsewhere(AgentFault):
    """Somebody else has the lock, or asked before. Only `try_lock` raises this."""

    word = "held"

    @property
    def holder(self) -> Optional["Holder"]:
        """who has the lock, None if that is not known"""
        return Holder.read(self._said["holder"]) if self._said.get("holder") else None


class NotInTime(AgentFault, TimeoutError):
    """Somebody else had the lock for the time to wait."""

    word = "timeout"


class NoNumber(AgentFault):
    """No client number was to be had: at once by `try_lock`, and for the time to wait by `lock`. All are in use. Wait longer, or make a
    cluster with more shards."""

    word = "numbers"

    @property
    def waiting(self) -> Optional[int]:
        """how many sessions wait for a number before the agent's, None if that is not known"""
        count: Optional[int] = self._said.get("waiting")
        return count


class Unreachable(AgentFault, ConnectionError):
    """The agent is not there, has no session, or reaches no quorum of voters."""

    word = "unreachable"


class Denied(AgentFault, PermissionError):
    """The servers of NATS refuse the agent's user, or let it take no locks."""

    word = "denied"


class Full(AgentFault):
    """No quorum of voters has room for another lock, or for one of the agent's user."""

    word = "full"


class BadName(AgentFault, ValueError):
    """A lock's name has 1 to 64 of A-Z a-z 0-9 _ - . : and no dot first."""

    word = "name"


class Lost(AgentFault):
    """The lock may have been somebody else's before it was given back."""

    word = "lost"


_KINDS: Dict[str, Type[AgentFault]] = {
    kind.word: kind for kind in (HeldElsewhere, NotInTime, NoNumber, Unreachable, Denied, Full, BadName, Lost)
}
_KINDS["closing"] = Unreachable

# How long the agent may take to reply, beside the time for which a lock or voters are waited for.
_REPLY = 5.0
# How long voters may take to reply if nobody says.
_VOTERS = 3.0
# How long a look at the connection takes at most: the clock of the look stands still while the machine sleeps.
_LOOK = 0.2


def _uptime() -> float:
    """Returns the seconds since the machine started, also those in which it slept. All processes of a host read the same, but for those in
    another time namespace."""
    return time.clock_gettime(time.CLOCK_BOOTTIME)


def _ahead(first: Dict[str, Any], left: float, came: float) -> float:
    """Returns by how many seconds the clock of this process is ahead of the agent's, at least: 0 where both may be one. The request left and
    the first line came at these times of this process's clock. The agent had the one after it left, and wrote the other one before it came."""
    if "asked_ms" not in first:
        return 0.0  # an older agent
    least = left - first["asked_ms"] / 1000 - 0.001  # parts of milliseconds are not said
    most = came - (first["until_ms"] - first["left_ms"]) / 1000 + 0.001
    return 0.0 if least <= 0 <= most else least


class _Connection:
    """A connection to the agent, with one call."""

    def __init__(self, path: str, call: str, limit: Optional[float]) -> None:
        self._rest = b""
        self._limit = None if limit is None else time.monotonic() + limit
        with _forks:
            self.socket = sockets.socket(sockets.AF_UNIX, sockets.SOCK_STREAM)
            _connections.add(self)
        try:
            self._set_timeout()
            self.socket.connect(path)
            self.left = _uptime()
            # by 1.0 the reply has no chunks
            self.socket.sendall(f"{call} HTTP/1.0\r\nHost: qlockd\r\nContent-Length: 0\r\n\r\n".encode())
        except OSError as fault:
            self.socket.close()
            raise Unreachable(f"{path}: {fault}") from fault

    def _set_timeout(self) -> None:
        if self._limit is not None:
            self.socket.settimeout(max(self._limit - time.monotonic(), 0.001))

    def lines_for_ever(self) -> None:
        """Lets `line` take its own time from now on."""
        self._limit = None
        self.socket.settimeout(None)

    def line(self, most: Optional[float] = None) -> Optional[bytes]:
        """Returns the next line without its end, b"" at the end of the connection, and None if none came in time."""
        while b"\n" not in self._rest:
            try:
                if most is None:
                    self._set_timeout()
                else:
                    self.socket.settimeout(most)
                more = self.socket.recv(1 << 16)
            except sockets.timeout:
                return None
            except OSError:
                more = b""
            if not more:
                return b""
            self._rest += more
        line, _, self._rest = self._rest.partition(b"\n")
        return line.rstrip(b"\r") or b"\r"

    def reply(self) -> None:
        """Reads the head of the reply. Raises what a refusal says."""
        status = self._text().split()
        while self._text().strip():
            pass
        if len(status) < 2 or status[1] != "200":
            try:
                said = json.loads(self._text())
                word, why = str(said["fault"]), str(said["why"])
            except (ValueError, KeyError, TypeError):
                said, word, why = {}, "internal", " ".join(status)
            raise _KINDS.get(word, AgentFault)(why, word, said)

    def _text(self) -> str:
        line = self.line()
        if line is None:
            raise Unreachable("the agent does not reply")
        if not line:
            raise Unreachable("the agent ended the connection")
        return line.decode("utf-8", "replace")

    def json(self) -> Any:
        try:
            return json.loads(self._text())
        except ValueError as fault:
            raise Unreachable(f"what the agent says is none of its lines: {fault}") from fault

    def close(self) -> None:
        """Ends the connection, also if another process has it, too."""
        try:
            self.socket.shutdown(sockets.SHUT_RDWR)
        except OSError:
            pass  # it has ended
        self.socket.close()
        _connections.discard(self)


@dataclass(frozen=True)
class Holder:
    """Who has a lock of the cluster, by what voters say. It is false if nobody has it. What it says was so a moment ago: decide nothing by
    it, and show it to people."""

    lock: str
    held: bool = False
    user: str = ""
    """of NATS: the broker vouches for it. "" without users"""
    host: str = ""
    pid: int = 0
    login: str = ""
    """its user of the system"""
    note: str = ""
    """its own, or the name of its process"""
    since: Optional[datetime] = None
    """since when it has the lock, about"""
    waiting: int = 0
    """how many other sessions wait for the lock: an agent is one"""
    asked: bool = False
    """the voters that replied do not say that it has the votes of a quorum"""
    session: str = ""
    """as operators see it, and as `qlockctl evict` takes it"""
    turn: int = 0
    """its turn, 0 if nobody asked for it, and of `Client.watch`"""

    def __bool__(self) -> bool:
        return self.held

    @classmethod
    def read(cls, said: Dict[str, Any]) -> "Holder":
        """Returns who the agent says it is."""
        known = {field.name: said[field.name] for field in fields(cls) if field.name in said}
        if "since" in known:
            known["since"] = _time(known["since"])
        known["turn"] = int(known.get("turn", 0))
        return cls(**known)


def _time(text: str) -> datetime:
    """Returns a time in UTC, which has any number of digits behind the second."""
    whole, _, rest = text.rstrip("Z").partition(".")
    return datetime.fromisoformat(whole).replace(tzinfo=timezone.utc) + timedelta(microseconds=int(rest[:6].ljust(6, "0")))


class Client:
    """Takes locks by the agent at a socket: `QLOCK_AGENT`, or `SOCKET`, if none is given. It has no connection but those of its
    locks. Threads may share it."""

    def __init__(self, socket: str = "", note: str = "") -> None:
        """Others see the note of who has a lock, besides process and user. Without one it is the name of the process."""
        self.socket = socket or os.environ.get("QLOCK_AGENT", "") or SOCKET
        self.note = note

    def lock(self, name: str, wait: Optional[float] = None, on_lost: Optional[Callable[["Held"], None]] = None,
             turn: bool = False, note: str = "", idle: Optional[float] = None) -> "Held":
        """Waits for a lock, for at most `wait` seconds, and without limit if it is None. `on_lost` is called, in a thread of
        its own, when the lock may be somebody else's. With `turn` the lock has its turn (`Held.turn`): for that all voters of
        its quorum have to reply. `note` is that of this lock, in place of the client's. With `idle`
        the lock is lost, as `idle`, once `Held.alive` was not called for so many seconds."""
        return self._take(name, wait, {"turn": "1"} if turn else {}, on_lost, note, idle)

    def try_lock(self, name: str, on_lost: Optional[Callable[["Held"], None]] = None, turn: bool = False, note: str = "",
                 idle: Optional[float] = None) -> "Held":
        """Takes a lock that nobody has. Raises `HeldElsewhere` if somebody else has it, or asked before, and `NoNumber` if all client
        numbers are in use."""
        return self._take(name, 10.0, {"try": "1", "turn": "1"} if turn else {"try": "1"}, on_lost, note, idle)

    def _take(self, name: str, wait: Optional[float], query: Dict[str, str], on_lost: Optional[Callable[["Held"], None]],
              note: str, idle: Optional[float]) -> "Held":
        limit = None
        if idle is not None:
            query["idle"] = f"{max(idle, 0.001):.6f}s"
        if note or self.note:
            query["note"] = note or self.note
        if wait is not None:
            wait = max(wait, 0.001)
            query["wait"], limit = f"{wait:.6f}s", wait + _REPLY
        connection = self._call(f"POST /v1/locks/{quote(name, safe='')}?{urlencode(query)}", limit)
        try:
            connection.reply()
            return Held(name, connection, connection.json(), on_lost, idle is not None)
        except BaseException:
            connection.close()
            raise

    def _call(self, call: str, limit: Optional[float] = _REPLY) -> _Connection:
        return _Connection(self.socket, call, limit)

    def _get(self, path: str, limit: float = _REPLY) -> Any:
        connection = self._call(f"GET {path}", limit)
        try:
            connection.reply()
            return connection.json()
        finally:
            connection.close()

    def locks(self, name: str = "") -> List[Dict[str, Any]]:
        """Returns what processes of this host hold and wait for, of one lock or of all."""
        rows: List[Dict[str, Any]] = self._get("/v1/locks" + (f"/{quote(name, safe='')}" if name else ""))["locks"]
        return rows

    def status(self) -> Dict[str, Any]:
        """Returns what the agent says of itself."""
        said: Dict[str, Any] = self._get("/v1/status")
        return said

    def who(self, name: str, wait: float = _VOTERS) -> Holder:
        """Returns who has a lock of the cluster, on whichever host; it is false if nobody has it. Raises `Unreachable` if no quorum of
        voters replies within `wait` seconds."""
        return Holder.read(self._get(f"/v1/who/{quote(name, safe='')}?{_wait(wait)}", wait + _REPLY))

    def list(self, prefix: str = "", wait: float = _VOTERS) -> List[Holder]:
        """Returns the locks of the cluster of which the name begins with a prefix, and that somebody has or waits for, in the order of their
        names. Raises `Unreachable` if no quorum of voters replies within `wait` seconds."""
        rows = self._get(f"/v1/who?{urlencode({'prefix': prefix})}&{_wait(wait)}", wait + _REPLY)["locks"]
        return [Holder.read(row) for row in rows]

    def watch(self, name: str, wait: float = _VOTERS) -> "Watch":
        """Returns who has a lock of the cluster, one after the other: first who has it now, and then each change, until it is closed. Raises
        `Unreachable` if no quorum of voters replies within `wait` seconds at first."""
        connection = self._call(f"GET /v1/watch/{quote(name, safe='')}?{_wait(wait)}", wait + _REPLY)
        try:
            connection.reply()
            return Watch(connection)
        except BaseException:
            connection.close()
            raise


def _wait(seconds: float) -> str:
    """Returns the part of a query that says for how long to wait."""
    return f"wait={max(seconds, 0.001):.6f}s"


class Watch:
    """Who has a lock, one after the other, until `close` or the end of its `with`. The next one raises `Unreachable` if the agent ends.
    Voters say each change at once. A holder who has the lock for a moment may be missed. While no quorum of them replies nothing comes.
    Changes of `since` and `waiting` alone are none. One thread may wait for the next one, and any thread may close it."""

    def __init__(self, connection: _Connection) -> None:
        self._connection = connection
        self._is_over = False
        connection.lines_for_ever()

    def __iter__(self) -> Iterator[Holder]:
        return self

    def __next__(self) -> Holder:
        if self._is_over:
            raise StopIteration
        try:
            return Holder.read(self._connection.json())
        except Exception:
            if self._is_over:
                raise StopIteration from None
            self.close()
            raise

    def close(self) -> None:
        """Ends the connection. Who waits for the next one waits no more."""
        self._is_over = True
        self._connection.close()

    def __enter__(self) -> "Watch":
        return self

    def __exit__(
        self, kind: Optional[Type[BaseException]], fault: Optional[BaseException], trace: Optional[TracebackType]
    ) -> None:
        self.close()


class Held:
    """A lock that is held, until `unlock` or the end of its `with`."""

    def __init__(self, name: str, connection: _Connection, first: Dict[str, Any], on_lost: Optional[Callable[["Held"], None]],
                 may_idle: bool = False) -> None:
        self.name = name
        self.id: str = first["id"]
        self.token = bytes.fromhex(first["pass"])
        """the pass: what is shown to the guard, with each write"""
        self.turn: Optional[int] = int(first["turn"]) if "turn" in first else None
        """one number that grows from holder to holder, for a place that compares one number and keeps no guard, if it was asked for"""
        self.ttl: float = first["ttl_ms"] / 1000
        self.lost = threading.Event()
        """set when the lock may be somebody else's, and by `unlock`"""
        self.why = ""
        """why the lock was lost, in a word"""
        self._ahead = _ahead(first, connection.left, _uptime())
        self._until: float = first["until_ms"] / 1000 + self._ahead
        self._connection = connection
        self._on_lost = on_lost
        self._may_idle = may_idle
        self._is_over = False
        self._is_unlocked = False
        self._ended = threading.Event()  # the reader knows that the lock is over
        connection.lines_for_ever()
        _all_held.add(self)
        self._reader = threading.Thread(target=self._read, name=f"lock {name}", daemon=True)
        self._reader.start()

    def left(self) -> float:
        """Returns for how many seconds the lock lasts if nothing more is heard of the agent. It is 0 once the lock is lost."""
        return 0.0 if self.lost.is_set() else max(self._until - _uptime(), 0.0)

    def alive(self) -> None:
        """Says that the work goes on. A lock that was taken with `idle` is lost if that is not said in time, and others need not say it."""
        if not self._may_idle or self.lost.is_set():
            return
        try:
            self._connection.socket.sendall(b"\n")
        except OSError:
            pass  # the connection has ended, and the reader says so

    def _read(self) -> None:
        """Reads what the agent says, until the lock is over."""
        try:
            self.why = self._end()
        except Exception:  # what the agent said is none of its lines: nobody may go on with the lock
            self.why = "connection"
        was_given_back = self._is_over
        self.lost.set()
        self._ended.set()
        if not was_given_back and self._on_lost:
            self._on_lost(self)

    def _end(self) -> str:
        """Waits until the lock is over, and returns why, "" if it was given back."""
        while True:
            left = self._until - _uptime()
            # what came while this process stood still is read before it counts as silence
            line = self._connection.line(min(max(left, 0.001), _LOOK))
            if line is None and left <= 0:
                return "silence"
            if line is None:
                continue
            try:
                said = json.loads(line)
            except ValueError:
                return "connection"
            if said.get("unlocked"):
                self._is_unlocked = self._is_over
                return "" if self._is_over else "unlocked"  # another process gave it back
            if said.get("lost"):
                return str(said.get("why", "lost"))
            if "until_ms" in said:
                self._until = said["until_ms"] / 1000 + self._ahead

    def unlock(self) -> None:
        """Gives the lock back, and waits until the agent did that. Raises `Lost` if the lock may have been lost before. Does
        nothing the second time."""
        if self._is_over:
            return
        self._is_over = True
        try:
            self._connection.socket.shutdown(sockets.SHUT_WR)
        except OSError:
            pass  # the connection has ended
        while not self._ended.wait(2 * _LOOK) and self._until > _uptime():
            pass
        self.lost.set()
        self._connection.close()
        _all_held.discard(self)
        if not self._is_unlocked:
            raise Lost(f"{self.name}: the lock may be somebody else's ({self.why or 'silence'})")

    def _leave(self) -> None:
        """Lets a forked child have nothing of this lock."""
        self.lost = threading.Event()
        self.lost.set()
        self._is_over, self.why = True, "fork"

    def __enter__(self) -> "Held":
        return self

    def __exit__(
        self, kind: Optional[Type[BaseException]], fault: Optional[BaseException], trace: Optional[TracebackType]
    ) -> None:
        try:
            self.unlock()
        except Lost:
            if kind is None:
                raise


_all_held: "weakref.WeakSet[Held]" = weakref.WeakSet()
_connections: "weakref.WeakSet[_Connection]" = weakref.WeakSet()
# Held by who makes a connection, and who forks: each connection that a child has is known.
_forks = threading.RLock()


def _leave_all() -> None:
    """Lets a forked child have nothing of its parent, who keeps it: a connection is closed here, and not shut down."""
    for connection in list(_connections):
        try:
            connection.socket.close()
        except OSError:
            pass  # somebody closed its file
    _connections.clear()
    for held in list(_all_held):
        held._leave()
    _all_held.clear()
    _forks.release()


# A child has the connections of its parent, too: a lock would last until both are gone, also one that is only waited for.
os.register_at_fork(before=_forks.acquire, after_in_parent=_forks.release, after_in_child=_leave_all)
