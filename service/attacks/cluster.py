"""A cluster to attack: a server of NATS and voters, each a process, on free ports of the loopback."""

import contextlib
import json
import os
import re
import select
import shutil
import signal
import socket
import sqlite3
import struct
import subprocess
import threading
import time
import urllib.error
import urllib.request
from collections.abc import Callable, Iterable
from pathlib import Path
from typing import Any

SERVICE = Path(__file__).resolve().parent.parent
PROGRAMS = Path(os.environ.get("QLOCK_PROGRAMS", SERVICE / "out" / "bin"))
NATS = shutil.which("nats-server") or "/usr/sbin/nats-server"
NAMES = ["hub", "rim1", "rim2", "rim3", "rim4"]
LEVEL = 2  # at which `qlockctl init` begins a cluster
WHEEL = SERVICE / "wheel-4.toml"
GROWN = SERVICE / "wheel-4-grown.toml"

# what is to be ended once a case is over, the newest first
ENDINGS: list[Callable[[], object]] = []


def end_all() -> None:
    """Ends all processes and relays of this case."""
    while ENDINGS:
        with contextlib.suppress(Exception):
            ENDINGS.pop()()


def free_port() -> int:
    """A port of the loopback that nobody uses, never the same one twice."""
    if not PORTS:
        holder = subprocess.Popen([PROGRAMS / "session", "-ports"], stdin=subprocess.PIPE, stdout=subprocess.PIPE)
        HOLDERS.append(holder)  # nobody else gets them while it runs, which ends with this process
        assert holder.stdout
        PORTS.extend(map(int, holder.stdout.readline().split()))
    return PORTS.pop()


PORTS: list[int] = []
HOLDERS: list[subprocess.Popen[bytes]] = []


def start(words: Iterable[object], log: Path | None = None, **more: Any) -> subprocess.Popen[bytes]:
    """Starts a process, which ends with the case."""
    with open(log or os.devnull, "ab") as out:
        settings: dict[str, Any] = {"stdin": subprocess.DEVNULL, "stdout": out, "stderr": subprocess.STDOUT, **more}
        process = subprocess.Popen([str(word) for word in words], **settings)
    ENDINGS.append(lambda: end(process))
    return process


def end(process: subprocess.Popen[bytes], how: int = signal.SIGKILL) -> None:
    """Ends a process, and waits until it is gone."""
    if process.poll() is None:
        process.send_signal(signal.SIGCONT)
        process.send_signal(how)
        try:
            process.wait(10)
        except subprocess.TimeoutExpired:
            process.kill()
            process.wait()


def ended(process: subprocess.Popen[bytes]) -> bool:
    """Whether a process has ended."""
    return process.poll() is not None


def until(holds: Callable[[], object], seconds: float) -> bool:
    """Waits until something holds, and returns whether it does."""
    limit = time.monotonic() + seconds
    while not holds():
        if time.monotonic() > limit:
            return False
        time.sleep(0.05)
    return True


class Relay:
    """Passes connections on to a server, like a cable that can be cut: then nothing comes, and nobody is told."""

    def __init__(self, port: int) -> None:
        self.to, self.is_cut, self.pairs = port, False, []
        self.listener = socket.create_server(("127.0.0.1", 0))
        self.port = self.listener.getsockname()[1]
        ENDINGS.append(self.close)
        threading.Thread(target=self.accept, daemon=True).start()

    def accept(self) -> None:
        """Takes connections until the relay is closed."""
        with contextlib.suppress(OSError):
            while True:
                near, _ = self.listener.accept()
                try:
                    far = socket.create_connection(("127.0.0.1", self.to), 5)
                except OSError:
                    near.close()
                    continue
                self.pairs.append((near, far))
                for one, other in ((near, far), (far, near)):
                    threading.Thread(target=self.carry, args=(one, other), daemon=True).start()

    def carry(self, one: socket.socket, other: socket.socket) -> None:
        """Carries bytes in one direction, none while the cable is cut."""
        with contextlib.suppress(OSError):
            while data := one.recv(1 << 16):
                while self.is_cut:
                    time.sleep(0.005)
                other.sendall(data)
        for end_of_it in (one, other):
            with contextlib.suppress(OSError):
                end_of_it.shutdown(socket.SHUT_RDWR)

    def drop(self) -> None:
        """Ends all connections."""
        pairs, self.pairs = self.pairs, []
        for pair in pairs:
            for one in pair:
                with contextlib.suppress(OSError):
                    one.shutdown(socket.SHUT_RDWR)

    def close(self) -> None:
        """Ends the relay."""
        self.listener.close()
        self.is_cut = False
        self.drop()


class Cluster:
    """Voters of a wheel of four rims, with a server of NATS."""

    def __init__(self, room: Path, name: str = "attacked", ttl: str = "2s", voter_lines: str = "") -> None:
        self.room, self.id, self.voter_lines = room / name, name, voter_lines
        self.room.mkdir()
        self.file, self.port = self.room / "cluster.toml", free_port()
        self.ports: dict[str, int] = {}
        self.voters: dict[str, subprocess.Popen[bytes]] = {}
        self.ctl("init", "--id", name, "--coterie", WHEEL, "--servers", self.url(), "--ttl", ttl, *self.init_words())
        self.start_server()
        for voter in NAMES:
            self.add(voter)
        self.wait()

    def url(self) -> str:
        """Where the server is."""
        return f"nats://127.0.0.1:{self.port}"

    def init_words(self) -> list[object]:
        """Further words of `qlockctl init`."""
        return []

    def start_server(self) -> None:
        """Starts the server of NATS."""
        self.server = start([NATS, "-a", "127.0.0.1", "-p", self.port], self.room / "nats.log")

    def add(self, voter: str) -> None:
        """Makes a voter's state, and starts the voter."""
        self.write(voter)
        self.init(voter)
        self.start(voter)

    def write(self, voter: str, cluster: Path | None = None) -> None:
        """Writes a voter's file."""
        self.ports.setdefault(voter, free_port())
        (self.room / f"{voter}.toml").write_text(
            f'cluster = "{cluster or self.file}"\nvoter = "{voter}"\ndata = "{self.data(voter)}"\n'
            f'listen = "127.0.0.1:{self.ports[voter]}"\n{self.voter_lines}{self.access(voter)}'
        )

    def access(self, voter: str) -> str:
        """The lines of a voter's file that say how it shows the server who it is."""
        return ""

    def data(self, voter: str) -> Path:
        """The folder of a voter's state."""
        return self.room / voter

    def init(self, voter: str, *words: str, check: bool = True) -> tuple[int, str]:
        """Makes a voter's state."""
        return self.run("qlock-voter", "init", *words, "-c", self.room / f"{voter}.toml", check=check)

    def start(self, voter: str, prefix: Iterable[object] = (), programs: Path = PROGRAMS) -> None:
        """Starts a voter from its state."""
        words = [*prefix, programs / "qlock-voter", "start", "-c", self.room / f"{voter}.toml"]
        self.voters[voter] = start(words, self.log_of(voter))

    def stop(self, voter: str, how: int = signal.SIGTERM) -> None:
        """Ends a voter."""
        end(self.voters[voter], how)

    def lose(self, voter: str) -> None:
        """Takes a voter's state away, and makes it again as the page says."""
        self.stop(voter, signal.SIGKILL)
        shutil.rmtree(self.data(voter))
        self.init(voter, "--lost")
        self.start(voter)

    def wait(self) -> None:
        """Waits until all voters reply, and the others answered their starts. Else it says how each process is."""
        try:
            self.ctl("status", "--timeout", "25s")
            if not until(lambda: all(reply.get("serves") for reply in self.status().values()), 25):
                raise RuntimeError("some voter does not serve")
        except Exception as why:
            raise RuntimeError(f"{why}\n{self.processes()}") from why

    def processes(self) -> str:
        """Which processes run or have ended, with the last lines of their logs."""
        texts = []
        for name, process in {"nats": self.server, **self.voters}.items():
            lines = self.log_of(name).read_text(errors="replace").splitlines()[-5:]
            state = f"ended with status {process.returncode}" if ended(process) else "runs"
            texts.append("\n    ".join([f"{name} {state}", *lines]))
        return "\n".join(texts)

    def log_of(self, voter: str) -> Path:
        """What a voter wrote, or the server of NATS."""
        return self.room / f"{voter}.log"

    def last(self, voter: str) -> str:
        """The last line that a voter wrote."""
        return (self.log_of(voter).read_text(errors="replace").strip().splitlines() or [""])[-1]

    def run(self, program: str, *words: object, check: bool = True, timeout: float = 60) -> tuple[int, str]:
        """Runs a program, and returns its status and what it wrote."""
        command = [str(PROGRAMS / program), *map(str, words)]
        out = {"stdout": subprocess.PIPE, "stderr": subprocess.STDOUT, "stdin": subprocess.DEVNULL}
        p = subprocess.run(command, timeout=timeout, **out)
        text = p.stdout.decode(errors="replace").strip()
        if check and p.returncode:
            raise RuntimeError(f"{' '.join(command)}: status {p.returncode}: {text}")
        return p.returncode, text

    def ctl(self, command: str, *words: object, file: Path | None = None, check: bool = True) -> tuple[int, str]:
        """Runs a command of an operator."""
        return self.run("qlockctl", command, "-c", file or self.file, *self.operator_words(), *words, check=check)

    def operator_words(self) -> list[object]:
        """How an operator shows the server who he is."""
        return []

    def job_words(self) -> list[object]:
        """How a job shows the server who it is."""
        return []

    def lock(
        self, name: str, wait: str = "10s", program: Iterable[object] = ("true",), file: Path | None = None
    ) -> tuple[int, str]:
        """Runs a program under a lock, by `qlockctl run`."""
        words = ["run", "-c", file or self.file, *self.job_words(), "--wait", wait, name, *program]
        return self.run("qlockctl", *words, check=False)

    def locks(self, count: int, name: str = "new", wait: str = "10s") -> bool:
        """Whether so many runs get a lock, one after the other. Says why not."""
        got = [self.lock(name, wait) for _ in range(count)]
        wrong = [one for one in got if one[0]]
        print(f"{count - len(wrong)} of {count} runs get the lock {name}", wrong[:1] or "")
        return not wrong

    def moved(self, port: int, name: str = "moved.toml") -> Path:
        """A copy of the cluster's file, whose server is at another port."""
        path = self.room / name
        path.write_text(self.file.read_text().replace(f":{self.port}", f":{port}"))
        return path

    def running(self) -> list[str]:
        """The voters that run."""
        return [voter for voter, process in self.voters.items() if not ended(process)]

    def all_run(self) -> bool:
        """Whether all voters run. Says which do not, and why."""
        gone = {voter: self.last(voter)[-160:] for voter in self.voters if voter not in self.running()}
        print("all voters run" if not gone else f"voters that ended: {gone}")
        return not gone

    def status(self) -> dict[str, Any]:
        """What each voter says of itself that replies."""
        answers = json.loads(self.ctl("status", "--json", "--timeout", "3s", check=False)[1].splitlines()[0])
        return {answer["voter"]: answer["reply"] for answer in answers if "reply" in answer}

    def metric(self, voter: str, name: str) -> float:
        """One of a voter's numbers, -1 if there is none."""
        with contextlib.suppress(OSError):
            text = urllib.request.urlopen(f"http://127.0.0.1:{self.ports[voter]}/metrics", timeout=5).read().decode()
            if found := re.search(rf"^qlock_voter_{name} (\S+)", text, re.M):
                return float(found.group(1))
        return -1

    def health(self, voter: str) -> int:
        """The status of a voter's /healthz, 0 if it does not reply."""
        try:
            return urllib.request.urlopen(f"http://127.0.0.1:{self.ports[voter]}/healthz", timeout=3).status
        except urllib.error.HTTPError as error:
            return error.code
        except OSError:
            return 0


class Session:
    """A session that obeys lines."""

    def __init__(self, cluster: Cluster, file: Path | None = None, programs: Path = PROGRAMS) -> None:
        words = [programs / "session", "-c", file or cluster.file, *cluster.job_words()]
        self.process = start(words, stdin=subprocess.PIPE, stdout=subprocess.PIPE)
        self.lines: list[tuple[float, str]] = []
        self.news = threading.Condition()
        threading.Thread(target=self.read, daemon=True).start()
        first = self.wait("open|failed", 25)
        if not first.startswith("open"):
            raise RuntimeError(f"no session: {first}")
        self.number = int(first.split()[1])

    def read(self) -> None:
        """Reads what the session says, with the time of each line."""
        assert self.process.stdout
        for line in self.process.stdout:
            self.note(line.decode(errors="replace").strip())
        self.note("EOF")

    def note(self, line: str) -> None:
        """Notes a line."""
        with self.news:
            self.lines.append((time.time(), line))
            self.news.notify_all()

    def tell(self, text: str) -> None:
        """Tells the session something."""
        assert self.process.stdin
        with contextlib.suppress(BrokenPipeError):
            self.process.stdin.write(f"{text}\n".encode())
            self.process.stdin.flush()

    def find(self, pattern: str, seconds: float, since: int = 0) -> tuple[float, str] | None:
        """The first line that matches, and when it came; None if it does not come in time."""
        limit = time.monotonic() + seconds
        with self.news:
            while True:
                for line in self.lines[since:]:
                    if re.match(pattern, line[1]):
                        return line
                if (left := limit - time.monotonic()) <= 0:
                    return None
                self.news.wait(left)

    def wait(self, pattern: str, seconds: float, since: int = 0) -> str:
        """The first line that matches, "" if none comes in time."""
        found = self.find(pattern, seconds, since)
        return found[1] if found else ""

    def ask(self, text: str, pattern: str, seconds: float) -> str:
        """Tells the session something, and returns the first line that matches."""
        since = len(self.lines)
        self.tell(text)
        return self.wait(pattern, seconds, since)

    def lock(self, name: str, seconds: float = 10) -> str:
        """Takes a lock, and returns its pass, or what was said in its place."""
        said = self.ask(f"lock {name} {seconds}s", f"(held|failed) {re.escape(name)}|EOF", seconds + 5)
        return said.split()[2] if said.startswith("held") else said or "no reply"

    def has(self, name: str, seconds: float = 10) -> bool:
        """Whether a lock is to be had. It goes back. Says why not."""
        if is_pass(got := self.lock(name, seconds)):
            return self.ask(f"unlock {name}", "unlocked|failed|EOF", 10).startswith("unlocked")
        print(f"the session {self.number} does not get {name}: {got[:160]}")
        return False

    def lost(self) -> int:
        """How many locks may be lost, as the session says."""
        return sum(line.startswith("lost ") for _, line in self.lines)


def is_pass(text: str) -> bool:
    """Whether a text is a pass."""
    return re.fullmatch("[0-9a-f]{1024}", text) is not None


def grants(passed: str) -> dict[int, int]:
    """The grants of a pass, by voter."""
    return {voter: grant for voter, grant in enumerate(struct.unpack("<64Q", bytes.fromhex(passed))) if grant}


class Guard:
    """The guard for SQLite, of one lock."""

    def __init__(self) -> None:
        self.database = sqlite3.connect(":memory:", isolation_level=None)
        self.database.executescript((SERVICE / "guard" / "sql" / "sqlite.sql").read_text())
        self.database.execute("INSERT INTO qlock_guard (name) VALUES ('l')")

    def admits(self, passed: str) -> bool:
        """Shows a pass, and returns whether it is admitted."""
        try:
            self.database.execute("INSERT INTO qlock_admit (name, pass) VALUES ('l', ?)", (bytes.fromhex(passed),))
        except sqlite3.Error:
            return False
        return True


class Wire:
    """A plain connection to a server of NATS."""

    def __init__(self, port: int) -> None:
        self.socket = socket.create_connection(("127.0.0.1", port), 5)
        ENDINGS.append(lambda: self.socket.close())
        self.socket.recv(4096)
        self.connect()

    def connect(self, words: str = "") -> None:
        """Says who this is."""
        self.socket.sendall(f'CONNECT {{"verbose":false{words}}}\r\n'.encode())

    def publish(self, subject: str, text: str) -> None:
        """Sends a message."""
        data = text.encode()
        self.socket.sendall(f"PUB {subject} {len(data)}\r\n".encode() + data + b"\r\n")

    def listen(self, subject: str) -> None:
        """Listens to a subject."""
        self.socket.sendall(f"SUB {subject} 1\r\n".encode())

    def sync(self) -> None:
        """Waits until the server has all that was sent."""
        self.socket.sendall(b"PING\r\n")
        self.read(0.2)

    def read(self, seconds: float) -> str:
        """What comes within some time."""
        data, limit = b"", time.monotonic() + seconds
        while (left := limit - time.monotonic()) > 0:
            if select.select([self.socket], [], [], left)[0]:
                part = self.socket.recv(1 << 16)
                if not part:
                    break
                data += part
        return data.decode(errors="replace")


class Stranger(Wire):
    """Somebody without a session who says what he likes, in the form that he heard others speak."""

    def __init__(self, cluster: Cluster) -> None:
        super().__init__(cluster.port)
        self.cluster, self.id = cluster, cluster.id
        self.listen(f"qlock.{self.id}.>")
        if cluster.lock("heard")[0]:
            raise RuntimeError("the lock is not to be had")
        self.heard = self.read(0.5)
        self.socket.sendall(b"UNSUB 1\r\n")
        forms = re.findall(rf"^qlock2 {self.id} (\S+) ([cv])(?: \S+)+\r?$", self.heard, re.M)
        self.marks = {kind: mark for mark, kind in forms}

    def header(self, kind: str, words: str) -> str:
        """The header of a client's or a voter's message."""
        return f"qlock2 {self.id} {self.marks[kind]} {kind} {words} level={LEVEL}\n"

    def say(self, voter: int, number: int, epoch: int, reserved: int, name: str, lines: str) -> None:
        """Sends a message of a client to a voter."""
        header = self.header("c", f"{number} {epoch} {reserved} {name} 1")
        self.publish(f"qlock.{self.id}.v.{voter}.-", header + lines)

    def must_arrive(self) -> None:
        """Fails if what was said is not of this protocol, so that it shows nothing."""
        self.sync()
        time.sleep(0.5)
        for voter in self.cluster.running():
            if foreign := max(0, int(self.cluster.metric(voter, "messages_foreign_total"))):
                raise RuntimeError(f"{voter} took {foreign} messages for foreign ones")
