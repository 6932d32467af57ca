"""A file that keeps one state over crashes."""
import fcntl
import hashlib
import os
from types import TracebackType
from typing import Optional, Type


class StoreFault(Exception):
    """A state can't be used. Each reason has a class of its own."""


class InUse(StoreFault):
    """Another process has this state. Two processes with one state break the lock."""


class Exists(StoreFault):
    """There is a state already. A new one in its place would break the lock."""


class Missing(StoreFault):
    """There is no state. A new one in the place of a lost one would break the lock."""


class Damaged(StoreFault):
    """The file is not as it was written."""


class WrongOwner(StoreFault):
    """The file is the state of another voter or client."""


_MARK = b"qlock 2\n"
_SUM_BYTES = 32


def sync_folder(path: str) -> None:
    """Syncs a folder: files that were made or renamed in it, and folders in it, survive a crash."""
    folder = os.open(path, os.O_RDONLY | os.O_DIRECTORY | os.O_CLOEXEC)
    try:
        os.fsync(folder)
    finally:
        os.close(folder)


def replace_file(path: str, content: bytes) -> None:
    """Writes a file anew. After a crash it has the bytes from before or the new ones, and once this returned the new ones: they
    go to a second file, which is synced and then renamed over the first, and the folder is synced. One process at a time."""
    second = path + ".new"
    file = os.open(second, os.O_WRONLY | os.O_CREAT | os.O_TRUNC | os.O_CLOEXEC, 0o600)
    try:
        rest = memoryview(content)
        while rest:
            rest = rest[os.write(file, rest) :]
        os.fsync(file)
    finally:
        os.close(file)
    os.rename(second, path)
    sync_folder(os.path.dirname(os.path.abspath(path)))


class Store:
    """Keeps the bytes of one voter or one client in a file.

    A save that returned survives a crash (`replace_file`). A checksum is beside the bytes, and the owner, a line that names the
    voter or the client: so a copy of another one's file is refused. A lock (flock) on `PATH.lock` lets one process have the
    state; never remove that file.

    A state is made once, when the cluster is set up:

        Store.create("voter-3", Voter(3).state, owner="voter 3")

    From then on it is read, and never made anew:

        with Store("voter-3", owner="voter 3") as store:
            voter = Voter.restore(store.read())
            ...
            lines = voter.take(line)
            store.save(voter.state)   # and only then send the lines
    """

    def __init__(self, path: str, owner: str = "") -> None:
        """Takes the lock of this file. Raises `InUse` if another process, or another store of this one, has it."""
        if "\n" in owner:
            raise ValueError(f"{owner!r} is not one line")
        self._path = os.path.abspath(path)
        self._owner = owner.encode()
        self._is_known = False
        self._saved: Optional[bytes] = None
        try:
            self._lock = os.open(self._path + ".lock", os.O_RDWR | os.O_CREAT | os.O_CLOEXEC, 0o600)
        except FileNotFoundError:
            raise self._missing() from None
        try:
            fcntl.flock(self._lock, fcntl.LOCK_EX | fcntl.LOCK_NB)
        except BlockingIOError as fault:
            os.close(self._lock)
            raise InUse(f"{self._path} is in use by another process") from fault
        except OSError:
            os.close(self._lock)
            raise

    @classmethod
    def create(cls, path: str, state: bytes, owner: str = "") -> None:
        """Makes the file of a new voter or client, in a folder that is there. Raises `Exists` if there is a state already."""
        with cls(path, owner) as store:
            if os.path.lexists(store._path):
                raise Exists(f"{store._path} is there already; a new state in its place would break the lock")
            store._write(state)
            sync_folder(os.path.dirname(os.path.dirname(store._path)))

    def _missing(self) -> Missing:
        return Missing(
            f"{self._path} is missing, and a new state would break the lock: see \"A state that is lost\" in docs/embedding.md"
        )

    def read(self) -> bytes:
        """Returns the bytes that were saved last. Raises `Missing` if there is no file, `Damaged` if it is not as it was
        written, and `WrongOwner` if it is that of another owner: then never start anew, but find out why."""
        try:
            with open(self._path, "rb") as file:
                content = file.read()
                # A process that died in a save may have left bytes that only look saved. What is read has to last.
                os.fsync(file.fileno())
        except FileNotFoundError:
            raise self._missing() from None
        sync_folder(os.path.dirname(self._path))
        start = len(_MARK) + _SUM_BYTES
        body = content[start:]
        if content[: len(_MARK)] != _MARK or content[len(_MARK) : start] != hashlib.sha256(body).digest():
            raise Damaged(f"{self._path} is not as it was written")
        owner, _, state = body.partition(b"\n")
        if owner != self._owner:
            raise WrongOwner(f"{self._path} is the state of {owner.decode()!r}, and that of {self._owner.decode()!r} is wanted")
        self._is_known, self._saved = True, state
        return state

    def save(self, state: bytes) -> None:
        """Saves the bytes. Does nothing if they are those that were saved or read last. Raises `Missing` if no state was read:
        a save replaces a state that its caller knows. Raises `InUse` after `close`: another process may have the state then."""
        if self._lock < 0:
            raise InUse(f"{self._path} was given back")
        if not self._is_known:
            raise Missing(f"{self._path} was not read")
        if state != self._saved:
            self._write(state)

    def _write(self, state: bytes) -> None:
        # Until this returns nothing counts as saved. A save that failed may have replaced the file or not.
        self._saved = None
        body = self._owner + b"\n" + state
        replace_file(self._path, _MARK + hashlib.sha256(body).digest() + body)
        self._saved = bytes(state)

    def close(self) -> None:
        """Gives the lock back. The store can't be used any more."""
        if self._lock >= 0:
            os.close(self._lock)
            self._lock = -1

    def __enter__(self) -> "Store":
        return self

    def __exit__(
        self, kind: Optional[Type[BaseException]], fault: Optional[BaseException], trace: Optional[TracebackType]
    ) -> None:
        self.close()
