"""The attacks. Each is a function that returns whether the service stands, and says what it saw.

There is no case for what would need more than a machine and two minutes:

- a clock of another rate: no program can be given one without a change of its library; `another_ttl` does it by files;
- the margin of a lease under load, all incidents at once, and operators among them: `service/trial/hour.sh`;
- a guest that is suspended, or copied while it runs: it needs a hypervisor. `frozen` stops the processes.
"""

import contextlib
import ctypes
import fcntl
import json
import os
import random
import re
import shutil
import signal
import struct
import subprocess
import threading
import time
from collections.abc import Callable
from concurrent.futures import ThreadPoolExecutor
from pathlib import Path

from cluster import (
    ENDINGS,
    GROWN,
    LEVEL,
    NAMES,
    NATS,
    PROGRAMS,
    WHEEL,
    Cluster,
    Guard,
    Relay,
    Session,
    Stranger,
    Wire,
    ended,
    free_port,
    grants,
    is_pass,
    start,
    until,
)
from secure import Secure, Speaker, authority, certificate, server_file, start_server

GREAT_STAMP = (1 << 62) - 1
NEXT = PROGRAMS.parent / "next"  # programs that know one level more: service/build --next
FLOOD = 256 << 10
BUNDLED = 256  # messages in a bundle, at most
PAGE_BYTES = 4096
FIBMAP = 1
CLONE_NEWNET = 0x40000000
CLONE_NEWNS = 0x00020000


class LeftOut(Exception):
    """The attack needs something that is not here, or did not come about."""


CASES: dict[str, tuple[Callable[[Path], bool], int]] = {}


def case(limit: int) -> Callable[[Callable[[Path], bool]], Callable[[Path], bool]]:
    """Notes a case by its function's name, and after how many seconds it is ended."""

    def note(attack: Callable[[Path], bool]) -> Callable[[Path], bool]:
        CASES[attack.__name__.replace("_", "-")] = attack, limit
        return attack

    return note


# Words that anybody may make up


@case(90)
def second_cluster(room: Path) -> bool:
    """A second set of voters with the same file comes to the same server, as a copy for tests. It is refused, and the first goes on."""
    c = Cluster(room)
    c.locks(4, "before")
    twins = {}
    for voter in NAMES:
        path = c.room / f"twin-{voter}.toml"
        path.write_text(f'cluster = "{c.file}"\nvoter = "{voter}"\ndata = "{c.room}/twin-{voter}"\n')
        c.run("qlock-voter", "init", "-c", path)
        twins[voter] = start([PROGRAMS / "qlock-voter", "start", "-c", path], c.room / f"twin-{voter}.log")
    time.sleep(1)
    for i in range(6):
        c.lock(f"meanwhile-{i}", "2s")
    gone = [voter for voter in NAMES if ended(twins[voter])]
    print("voters that ended of the second set:", gone)
    return c.all_run() and gone == NAMES and c.locks(2)


@case(60)
def made_up_sessions(room: Path) -> bool:
    """64 messages to each voter are of sessions that nobody has, with great epochs and stamps. They spend no number."""
    c = Cluster(room)
    stranger = Stranger(c)
    for number in range(64):
        for voter in range(len(NAMES)):
            stranger.say(voter, number, 1 << 32, 1 << 63, f"x-{number}", f". claim {number} {1 << 32}\n. close\n")
    stranger.must_arrive()
    return c.locks(6)


@case(60)
def small_steps(room: Path) -> bool:
    """A session reserves stamps in small steps, as fast as it can. A second brings 2^17 of them at most."""
    c = Cluster(room)
    stranger = Stranger(c)
    stranger.say(0, 0, 0, 0, "steps", ". claim 63 1\n")
    stranger.must_arrive()
    began, stamp = time.monotonic(), 0
    while time.monotonic() < began + 4:
        for _ in range(200):
            stamp += 1 << 19
            stranger.say(0, 63, 1, stamp, "steps", ". open 0\n")
        stranger.sync()
    time.sleep(1)
    took = time.monotonic() - began
    reserved = [row["reserved"] for row in c.status()["hub"]["sessions"] if row["number"] == 63]
    print(f"stamp {reserved} is reserved of {stamp} after {took:.1f} s")
    return bool(reserved) and reserved[0] < (1 << 21) + took * (1 << 17) and c.locks(2)


@case(90)
def great_stamp(room: Path) -> bool:
    """One REQUEST has the greatest stamp: of a session that nobody has, and of one that is there. Others go on."""
    c = Cluster(room)
    sessions = [Session(c) for _ in range(4)]
    if not all(s.has("bench") for s in sessions):
        raise RuntimeError("the lock is not to be had")
    stranger = Stranger(c)
    for name, number, claim in (("evil", 63, ""), ("worse", 62, ". claim 62 1000\n")):
        for voter in range(len(NAMES)):
            if claim:
                stranger.say(voter, 0, 0, 0, name, claim)
            line = f"bench request {number} {voter} {GREAT_STAMP}\n"
            stranger.say(voter, number, 1000, GREAT_STAMP, name, line)
    stranger.must_arrive()
    stands = all([s.has("bench", 8) and s.has(f"other-{s.number}") for s in sessions for _ in range(2)])
    rows = [(voter, row) for voter, reply in c.status().items() for row in reply["sessions"]]
    great = [(voter, row["number"]) for voter, row in rows if row["reserved"] > GREAT_STAMP // 2]
    print("numbers with a great stamp:", great)
    if not any(row["number"] == 62 for _, row in rows):
        raise RuntimeError("nobody has the number that was claimed")
    return stands and not great and c.locks(3)


@case(60)
def word_of_one_voter(room: Path) -> bool:
    """Somebody says as hub that a session is over, and that its plan is retired. The session goes on by others."""
    c = Cluster(room, ttl="4s")
    stranger, spy = Stranger(c), Wire(c.port)
    s = Session(c)
    spy.listen(f"qlock.{c.id}.c.>")
    if not is_pass(s.lock("payroll")):
        raise RuntimeError("the lock is not to be had")
    heard = spy.read(2)
    voters = dict(re.findall(rf"qlock2 {c.id} \S+ v (\d+) (\d+ \d+ \S+)", heard))
    names = set(re.findall(rf"qlock\.{c.id}\.c\.(\S+)\.\d+ ", heard))
    own = [f"{word} {s.number} 1" for word in ("taken", "closed", "unknown", "refused")]
    header = stranger.header("v", f"0 {voters['0']} 0")
    for name in names:
        for line in (*own, "generation 9 000000000000 9"):
            stranger.publish(f"qlock.{c.id}.c.{name}.0", f"{header}. {line}\n")
    stranger.sync()
    time.sleep(2)
    print(f"{len(names)} names were heard; locks lost, as hub let them go: {s.lost()}")
    return bool(names) and all([s.has(f"another-{i}") for i in range(6)])


# What a message may cost


def flood(c: Cluster, line: str, size: int, voters: range, bundled: bool) -> None:
    """Sends so many bytes of a line to each of these voters, as fast as they go: in long messages, or in bundles of short ones."""
    stranger = Stranger(c)
    lines = line * (FLOOD // len(line))
    if bundled:
        lines = line + ("\n" + stranger.header("c", "0 0 0 flood 1") + line) * (BUNDLED - 1)
    for _ in range(size // len(lines)):
        for voter in voters:
            stranger.say(voter, 0, 0, 0, "flood", lines)
    stranger.must_arrive()


def stands_flood(room: Path, line: str, size: int, voters: range, bundled: bool = False) -> bool:
    """Whether the holder of twenty locks keeps them under a flood, and others go on."""
    c = Cluster(room, ttl="5s")
    holder, other = Session(c), Session(c)
    print("the holder:", holder.ask("take kept 20", "taken", 60))
    began = time.monotonic()
    flood(c, line, size, voters, bundled)
    goes_on = other.has("meanwhile", 10)
    took = time.monotonic() - began
    is_healthy = until(lambda: all(c.health(voter) == 200 for voter in NAMES), 8)
    holder.find("lost", max(0.0, began + 7 - time.monotonic()))
    print(f"{size >> 10} KiB of {line!r} to {len(voters)} voters; another lock after {took:.1f} s")
    print(f"locks lost: {holder.lost()} of 20")
    return holder.lost() == 0 and goes_on and is_healthy and c.all_run()


@case(150)
def flood_of_another_user(room: Path) -> bool:
    """One user says much under made-up names, 20,000 messages a second at most. Newcomers of another user get their locks."""
    c = Cluster(room)
    stranger, stop = Stranger(c), threading.Event()

    def say() -> None:
        began, count = time.monotonic(), 0
        while not stop.is_set():
            said = ""
            for count in range(count + 1, count + 201):
                text = stranger.header("c", f"0 0 0 made-up-{count} 1") + f". for lock-{count}\n. hello\n"
                said += "".join(f"PUB qlock.{c.id}.v.{n}.web {len(text)}\r\n{text}\r\n" for n in range(len(NAMES)))
            stranger.socket.sendall(said.encode())
            time.sleep(max(0, began + count / 20000 - time.monotonic()))

    speaker = threading.Thread(target=say, daemon=True)
    speaker.start()
    time.sleep(3)
    enter = c.locks(4)
    stop.set()
    speaker.join()
    print("messages that were dropped:", [int(c.metric(voter, "messages_dropped_total")) for voter in NAMES])
    stranger.must_arrive()
    return enter and c.all_run()


@case(120)
def flood_of_questions(room: Path) -> bool:
    """One megabyte of `hello` to each voter, of somebody without a session, may lose no lock."""
    return stands_flood(room, ". hello\n", 1 << 20, range(len(NAMES)))


@case(120)
def flood_of_bundles(room: Path) -> bool:
    """One megabyte of bundles to each voter, with one `hello` in each of their messages, may lose no lock."""
    return stands_flood(room, ". hello\n", 1 << 20, range(len(NAMES)), bundled=True)


@case(120)
def flood_of_junk(room: Path) -> bool:
    """64 megabytes of lines that are none, to hub, may lose no lock."""
    return stands_flood(room, "x y\n", 64 << 20, range(1))


# Time


@case(90)
def grace(room: Path) -> bool:
    """A job that pays no heed to SIGTERM is cut off. With the default grace it never writes once another one does."""
    c = Cluster(room)
    cable = Relay(c.port)
    job = 'trap "" TERM; while :; do date +%s.%N; sleep .02; done >> '
    logs = [c.room / "first", c.room / "second"]
    files = [c.moved(cable.port), c.file]
    runs = []
    for log, file in zip(logs, files):
        words = [PROGRAMS / "qlockctl", "run", "-c", file, "--wait", "30s", "l", "sh", "-c", f"{job}{log}"]
        runs.append(start(words, c.room / f"{log.name}.log", start_new_session=True))
        if len(runs) == 1 and not until(lambda: logs[0].exists() and logs[0].stat().st_size, 15):
            raise RuntimeError((c.room / "first.log").read_text())
    time.sleep(1.5)
    cable.is_cut = True
    until(lambda: ended(runs[0]) and logs[1].exists() and logs[1].stat().st_size > 300, 20)
    first, second = ([float(line) for line in log.read_text().split()] for log in logs)
    print(f"the first wrote until {first[-1] - second[0]:.2f} s after the second began; its status is {runs[0].poll()}")
    for run in runs:
        with contextlib.suppress(ProcessLookupError):
            os.killpg(run.pid, signal.SIGKILL)  # the program, too, which pays no heed to anything else
    return first[-1] <= second[0]


@case(60)
def short_lease(room: Path) -> bool:
    """A TTL of less than a second has no margin, so no cluster is made with it."""
    words = ["init", "-c", room / "short.toml", "--id", "short", "--coterie", WHEEL, "--ttl", "900ms"]
    made = start([PROGRAMS / "qlockctl", *words], room / "init.log")
    code = made.wait(20)
    print(f"`qlockctl init --ttl 900ms`: status {code}: {(room / 'init.log').read_text().strip()}")
    return code != 0


@case(60)
def another_ttl(room: Path) -> bool:
    """A client's file has a longer TTL than the voters'. It would believe for too long that it is inside."""
    c = Cluster(room)
    other = c.room / "other.toml"
    other.write_text(c.file.read_text().replace('ttl = "2s"', 'ttl = "2.2s"'))
    code, text = c.lock("l", "4s", file=other)
    foreign = c.metric("hub", "messages_foreign_total")
    print(f"with another ttl: status {code}: {text}; hub took {foreign:.0f} messages for foreign ones")
    return code == 75 and foreign > 0 and c.locks(1)


def shrink_sockets() -> None:
    """Moves this process to a network of its own, whose sockets take some thousand bytes."""
    if ctypes.CDLL(None).unshare(CLONE_NEWNET):
        raise LeftOut("it needs root")
    shell("ip", "link", "set", "lo", "up")
    for name in ("tcp_wmem", "tcp_rmem"):
        try:
            Path("/proc/sys/net/ipv4", name).write_text("4096 4096 8192")
        except OSError as why:
            raise LeftOut(str(why)) from why


@case(90)
def socket_takes_nothing(room: Path) -> bool:
    """The socket of who has a thousand locks takes nothing any more. It hears of all before anybody else enters."""
    shrink_sockets()
    c = Cluster(room)
    cable = Relay(c.port)
    holder, others = Session(c, c.moved(cable.port)), [Session(c) for _ in range(4)]
    print("the holder:", holder.ask("take l 1000", "taken", 60))
    names = ["l-0", "l-333", "l-666", "l-999"]
    for other, name in zip(others, names):
        other.tell(f"lock {name} 30s")
    cable.is_cut = True
    margins = []
    for other, name in zip(others, names):
        entered, lost = other.find(f"held {name} ", 20), holder.find(f"lost {name}$", 5)
        if not entered:
            raise RuntimeError(f"nobody enters {name}")
        margins.append(entered[0] - lost[0] if lost else -5)
    print(f"the holder is told {min(margins):.2f} s or more before another one enters")
    return min(margins) > 0


@case(90)
def frozen(room: Path) -> bool:
    """Clients, voters and the server stand still for longer than a TTL, and go on in any order. All are told."""
    c, chance = Cluster(room), random.Random(7)
    first, second = Session(c), Session(c)
    stands = True
    for number in range(5):
        lock = f"l-{number}"
        if not is_pass(first.lock(lock)):
            raise RuntimeError("the lock is not to be had")
        second.tell(f"lock {lock} 20s")
        time.sleep(0.3)
        others = [second.process, c.server, *c.voters.values()]
        still = [first.process, *others] if number == 4 else [first.process, *chance.sample(others, number)]
        for process in still:
            process.send_signal(signal.SIGSTOP)
        time.sleep(3)
        chance.shuffle(still)
        woken = 0.0
        for process in still:
            woken = time.time() if process is first.process else woken
            process.send_signal(signal.SIGCONT)
            time.sleep(chance.choice([0, 0.3]))
        entered = second.find(f"held {lock} ", 1)
        lost = first.find(f"lost {lock}$", 0.5)
        late = (lost[0] if lost else time.time()) - max(entered[0], woken) if entered else 0
        print(f"{len(still)} stood still; another one entered: {bool(entered)}, the first was told {late:.3f} s late")
        stands = stands and late < 0.5
        first.ask(f"unlock {lock}", "unlocked|failed", 10)
        if not second.find(f"held {lock} ", 20):
            raise RuntimeError("the second one never enters")
        second.ask(f"unlock {lock}", "unlocked|failed", 10)
    return stands and c.all_run()


def are_let_go(c: Cluster, limit: float) -> bool:
    """Whether twenty locks of a session that is killed are to be had in time, while others are at work."""
    holder, other, busy = Session(c), Session(c), Session(c)
    print("the holder:", holder.ask("take l 20", "taken", 60))
    stop = threading.Event()

    def work() -> None:
        while not stop.is_set():
            busy.ask("many busy 64", "many|EOF", 60)

    threading.Thread(target=work, daemon=True).start()
    time.sleep(2)
    holder.process.kill()
    killed = time.monotonic()
    got = other.ask("take l 20", "taken|EOF", limit + 60)
    took = time.monotonic() - killed
    stop.set()
    print(f"after {took:.1f} s of {limit:.1f}: {got}")
    return " failed 0 " in got and took < limit


@case(120)
def flapping_cable(room: Path) -> bool:
    """The connection of hub ends again and again. What a dead client has is let go all the same."""
    c = Cluster(room)
    cable, stop = Relay(c.port), threading.Event()
    c.write("hub", cluster=c.moved(cable.port))
    c.stop("hub")
    c.start("hub")
    c.wait()

    def flap() -> None:
        while not stop.wait(1.2):
            cable.is_cut = True
            cable.drop()
            time.sleep(0.3)
            cable.is_cut = False

    threading.Thread(target=flap, daemon=True).start()
    stands = are_let_go(c, 8)
    stop.set()
    return stands


@case(120)
def slow_disk(room: Path) -> bool:
    """Each sync of hub takes 150 ms. What a dead client has is let go all the same."""
    strace = shutil.which("strace")
    if not strace:
        raise LeftOut("apt-get install strace")
    c = Cluster(room)
    words = [strace, "-f", "-p", c.voters["hub"].pid, "-e", "trace=fdatasync", "-o", os.devnull]
    start([*words, "-e", "inject=fdatasync:delay_enter=150000"], c.room / "strace.log")
    time.sleep(1)
    return are_let_go(c, 10)


# Disks


@case(60)
def flipped_bit(room: Path) -> bool:
    """One bit of a lock's name, and of a session's row, is another one in hub's state. hub does not start with it."""
    c = Cluster(room, ttl="10s")
    s = Session(c)
    print("the holder:", s.ask("take payroll 8", "taken", 30))
    c.stop("hub")
    path = c.data("hub") / "voter.db"
    state = path.read_bytes()
    serves = []
    for word in (b"payroll-", b'"reserved":'):
        changed = bytearray(state)
        for found in re.finditer(re.escape(word), state):
            changed[found.end()] ^= 1
        path.write_bytes(changed)
        c.start("hub")
        if not until(lambda: ended(c.voters["hub"]), 3):
            serves.append(word)
            c.stop("hub")
        print(f"a bit behind {word!r}, {state.count(word)} times: {c.last('hub')[-120:]}")
    path.write_bytes(state)
    c.start("hub")
    return not serves and until(lambda: c.health("hub") == 200, 10)


class OnDisk(Cluster):
    """A cluster whose hub has a small disk: a file system of a loop device, whose file is in memory."""

    def __init__(self, room: Path) -> None:
        self.memory, self.disk = room / "memory", room / "disk"
        for folder in (self.memory, self.disk):
            folder.mkdir()
        shell("mount", "-t", "tmpfs", "-o", "size=24m", "none", self.memory)
        ENDINGS.append(lambda: shell("umount", "-l", self.memory))
        self.image = self.memory / "image"
        shell("truncate", "-s", "200m", self.image)
        shell("mkfs.ext2", "-q", "-F", "-N", "64", "-b", PAGE_BYTES, self.image)
        self.device = shell("losetup", "-f", "--show", self.image)
        ENDINGS.append(lambda: shell("losetup", "-d", self.device))
        shell("mount", self.device, self.disk)
        ENDINGS.append(lambda: shell("umount", "-l", self.disk))
        super().__init__(room, ttl="10s")

    def data(self, voter: str) -> Path:
        """The folder of a voter's state."""
        return self.disk / "hub" if voter == "hub" else super().data(voter)

    def transactions(self) -> list[int]:
        """The transactions of the two meta pages of hub's state, as a reader sees them."""
        pages = (self.data("hub") / "voter.db").read_bytes()[: 2 * PAGE_BYTES]
        return [struct.unpack_from("<Q", pages, number * PAGE_BYTES + 64)[0] for number in (0, 1)]

    def fill(self) -> None:
        """Takes all room in memory."""
        with contextlib.suppress(OSError), open(self.memory / "fill", "ab", buffering=0) as file:
            while file.write(bytes(PAGE_BYTES)):
                pass

    def punch(self, page: int) -> None:
        """Takes the room away that a page of hub's state has in memory."""
        with open(self.data("hub") / "voter.db", "rb") as file:
            block = struct.unpack("i", fcntl.ioctl(file.fileno(), FIBMAP, struct.pack("i", page)))[0]
        shell("fallocate", "-p", "-o", block * PAGE_BYTES, "-l", PAGE_BYTES, self.image)

    def cut_power(self) -> None:
        """Ends hub, and reads the disk anew: what the kernel holds for written is as it is there."""
        self.stop("hub", signal.SIGKILL)
        shell("umount", self.disk)
        shell("mount", self.device, self.disk)


def shell(*words: object) -> str:
    """Runs a command of the system, and returns what it wrote."""
    p = subprocess.run([str(word) for word in words], stdout=subprocess.PIPE, stderr=subprocess.STDOUT)
    if p.returncode:
        raise LeftOut(f"{words[0]}: {p.stdout.decode().strip()}")
    return p.stdout.decode().strip()


@case(120)
def failed_sync(room: Path) -> bool:
    """A sync of hub's fails, and the kernel holds the page for written. hub starts again, and the power is cut."""
    if os.geteuid() != 0 or not shutil.which("mkfs.ext2"):
        raise LeftOut("it needs root, e2fsprogs and a loop device")
    c = OnDisk(room)
    a, others = Session(c), [Session(c) for _ in range(8)]
    a.ask("many before 200", "many", 60)
    time.sleep(1.5)
    shell("sync", "-f", c.disk)
    before = c.transactions()
    c.fill()
    c.punch((max(before) + 1) % 2)  # the meta page that is written next
    c.fill()
    for _ in range(40):  # until the save of a grant of l fails
        since = len(a.lines)
        a.tell("lock l 20s")
        until(lambda: ended(c.voters["hub"]) or a.find("held l", 0, since), 15)
        if ended(c.voters["hub"]):
            break
        a.ask("unlock l", "unlocked|failed", 5)
    print(f"transactions {before}, then {c.transactions()}: {c.last('hub')[-90:]}")
    (c.memory / "fill").unlink()
    c.start("hub")
    held = a.wait("held l", 8, since).split()
    cached = c.transactions()
    if len(held) < 3 or 0 not in grants(held[2]):
        raise LeftOut(f"nobody came inside by hub: {held[:2]}, {c.last('hub')[-90:]}")
    c.cut_power()
    print(f"inside by {grants(held[2])}; transactions {cached}, and on the disk {c.transactions()}")
    lost = max(c.transactions()) < max(cached)
    c.start("hub")
    entered = [other.number for other in others if is_pass(other.lock("l", 0.3))]
    print("others that enter:", entered, "locks lost:", a.lost())
    return not lost and not (entered and not a.lost())


def stands_return(room: Path, put: Callable[[Cluster, Path], None]) -> bool:
    """Whether a session that is new is kept out, while one that is cut off is inside, by a hub that forgot it."""
    c = Cluster(room, ttl="10s")
    guard, cable = Guard(), Relay(c.port)
    for _ in range(3):
        c.lock("l", program=("sh", "-c", f"echo $QLOCK_PASS >> {c.room}/passes"))
    admitted = [guard.admits(text) for text in (c.room / "passes").read_text().split()]
    c.stop("hub")
    copy = c.room / "copy.db"
    shutil.copy(c.data("hub") / "voter.db", copy)
    c.start("hub")
    c.wait()
    shutil.copy(c.data("hub") / "voter.db", c.room / "running.db")
    a = Session(c, c.moved(cable.port))
    inside = ""
    for _ in range(20):  # until it is inside by hub
        inside = a.lock("l")
        if is_pass(inside) and 0 in grants(inside):
            break
        a.ask("unlock l", "unlocked|failed", 5)
    cable.is_cut = True
    cut = time.time()
    c.stop("hub", signal.SIGKILL)
    put(c, copy)
    c.start("hub")
    entered, second = 0.0, ""
    while not entered and time.time() < cut + 7:
        b = Session(c)
        second = b.lock("l", 1)
        entered = time.time() if is_pass(second) else 0.0
        if not entered:
            b.tell("close")
    lost = a.find("lost l", 12)
    print(f"admitted before: {admitted}; hub: {c.last('hub')[-120:]}")
    if not entered or lost and lost[0] < entered:
        return True
    shows = [guard.admits(text) for text in (inside, second, inside)]
    untold = (lost[0] if lost else time.time()) - entered
    print(f"another one entered {entered - cut:.2f} s after the cut, {untold:.2f} s before the first was told")
    print(f"the guard, shown first, second, first: {shows}")
    return False


@case(90)
def older_copy(room: Path) -> bool:
    """An older copy of hub's state is put back while one inside is cut off. No other enters before he is told."""

    def put(c: Cluster, copy: Path) -> None:
        shutil.copy(copy, c.data("hub") / "voter.db")

    return stands_return(room, put)


@case(90)
def copy_of_the_last_run(room: Path) -> bool:
    """As older_copy, with a copy that was taken while the voter ran. It is quiet before it gives a vote."""

    def put(c: Cluster, _: Path) -> None:
        shutil.copy(c.room / "running.db", c.data("hub") / "voter.db")

    return stands_return(room, put)


@case(90)
def forgotten_loss(room: Path) -> bool:
    """hub's state is lost, and made as if it were new. No other enters before one who is inside is told."""

    def put(c: Cluster, _: Path) -> None:
        shutil.rmtree(c.data("hub"))
        print("init:", c.init("hub", check=False))

    return stands_return(room, put)


# Ceilings


@case(120)
def names_beyond_the_most(room: Path) -> bool:
    """More names are used than voters keep at once. All are to be had, the old ones and new ones."""
    c = Cluster(room, voter_lines="max_locks = 100\n")
    s = Session(c)
    print("old names:", s.ask("many old 20", "many", 60))
    print("more names:", s.ask("many new 160", "many", 60)[:160])
    old = sum(s.has(f"old-{i}", 2) for i in range(20))
    code, text = c.lock("brand-new", "8s")
    print(f"{old} of 20 old names are to be had; a new one: status {code}: {text}")
    return old == 20 and code == 0


@case(120)
def number_for_who_waits(room: Path) -> bool:
    """64 sessions have all numbers. Who comes next is told so, or waits, and gets the first number that is free."""
    c = Cluster(room)
    with ThreadPoolExecutor(8) as pool:
        sessions = list(pool.map(lambda _: Session(c), range(64)))
    code, text = c.lock("l", "3s")
    print(f"who does not wait: status {code}: {text}")
    waiting: list[tuple[int, str]] = []
    waits = threading.Thread(target=lambda: waiting.append(c.lock("l", "30s")), daemon=True)
    waits.start()
    time.sleep(2)
    is_early = bool(waiting)
    print(sessions[7].ask("close", "closed", 10))
    freed = time.monotonic()
    waits.join(32)
    print(f"who waits: {waiting} {time.monotonic() - freed:.1f} s after a number was free")
    return code == 75 and "number" in text and not is_early and bool(waiting) and waiting[0][0] == 0


@case(120)
def herd(room: Path) -> bool:
    """A hundred jobs begin at once, more than there are numbers. All get their locks."""
    c = Cluster(room)
    began = time.monotonic()
    with ThreadPoolExecutor(100) as pool:
        done = list(pool.map(lambda i: c.lock(f"l-{i % 50}", "50s"), range(100)))
    wrong = [one for one in done if one[0]]
    print(f"{len(done) - len(wrong)} of {len(done)} jobs in {time.monotonic() - began:.1f} s", wrong[:2])
    most = max(c.metric(voter, "queue_messages") for voter in NAMES)
    return not wrong and most < 1000 and c.all_run()


# Operators


@case(90)
def evict_while_away(room: Path) -> bool:
    """A session is evicted while hub is away, which granted it a vote. Back again, hub does not serve it either."""
    c = Cluster(room)
    holder, other = Session(c), Session(c)
    for number in range(20):  # until it is inside by hub
        lock = f"l-{number}"
        if 0 in grants(holder.lock(lock)):
            break
    c.stop("hub")
    code, text = c.ctl("evict", "--timeout", "2s", holder.number, check=False)
    lost = holder.find(f"lost {lock}$", 5)
    c.start("hub")
    until(lambda: c.health("hub") == 200, 10)
    entered = is_pass(other.lock(lock, 15))
    print(f"evict: status {code}: {text.splitlines()[-1:]}; told: {bool(lost)}; another one enters: {entered}")
    late = holder.lock("late", 3)
    print(f"who was evicted asks again: {late[:120]}")
    return code == 3 and bool(lost) and entered and not is_pass(late)


def grow(c: Cluster, coterie: Path) -> tuple[int, str]:
    """Exchanges the plan, starts the voters that only it has, and exchanges again until it succeeds."""
    result = c.ctl("exchange", "--timeout", "1s", coterie, check=False)
    for voter in ("rim5", "rim6"):
        if coterie == GROWN and voter not in c.running():
            if c.data(voter).exists():
                c.start(voter)
            elif voter in c.voters:
                come_back(c, voter)
            else:
                c.add(voter)
    return again(lambda: c.ctl("exchange", "--timeout", "2s", coterie, check=False), result)


def come_back(c: Cluster, voter: str) -> None:
    """Makes a voter whose place had one before: it is refused as a new one, and made as one that lost its state."""
    c.add(voter)
    if not until(lambda: ended(c.voters[voter]), 15):
        raise RuntimeError(f"{voter} is taken for a new one: {c.last(voter)}")
    print(c.last(voter)[-160:])
    shutil.rmtree(c.data(voter))
    c.init(voter, "--lost")
    c.start(voter)


def shrink(c: Cluster) -> tuple[int, str]:
    """Exchanges the plan back for that of the first five voters."""
    return again(lambda: c.ctl("exchange", "--timeout", "2s", WHEEL, check=False))


def retire(c: Cluster) -> tuple[int, str]:
    """Retires the old plan."""
    return again(lambda: c.ctl("retire", "--timeout", "2s", check=False))


def again(order: Callable[[], tuple[int, str]], result: tuple[int, str] = (1, "")) -> tuple[int, str]:
    """Gives an order again until all voters did it, or a quorum and not all, at most for some seconds."""
    limit = time.monotonic() + 10
    while result[0] not in (0, 3) and time.monotonic() < limit:
        result = order()
        time.sleep(0.1)
    return result


def must(what: str, result: tuple[int, str]) -> None:
    """Fails if an order failed that has to succeed before the attack."""
    if result[0] not in (0, 3):
        raise RuntimeError(f"{what}: {result}")


@case(120)
def exchange_right_after_retire(room: Path) -> bool:
    """The next exchange begins right after `retire`. Open sessions go on, and no message goes round in a loop."""
    c = Cluster(room)
    sessions = [Session(c) for _ in range(4)]
    must("exchange", grow(c, GROWN))
    must("retire", retire(c))
    time.sleep(1.5)
    must("exchange back", shrink(c))
    must("retire", retire(c))
    must("exchange", grow(c, GROWN))
    time.sleep(3)
    during = [s.has(f"during-{s.number}", 5) for s in sessions]
    foreign = [int(c.metric(voter, "messages_foreign_total")) for voter in NAMES]
    last = retire(c)
    after = [s.has(f"after-{s.number}", 5) for s in sessions]
    print(f"sessions that go on: {sum(during)} and {sum(after)} of 4; retire: {last[0]}; foreign messages: {foreign}")
    return all(during) and all(after) and max(foreign) < 2000 and last[0] in (0, 3)


@case(150)
def exchange_after_lost_disks(room: Path) -> bool:
    """Two voters lose their disks since an exchange. The next exchange succeeds by the page's commands alone."""
    c = Cluster(room)
    for step in (lambda: grow(c, GROWN), lambda: retire(c), lambda: shrink(c), lambda: retire(c)):
        must("an exchange before", step())
    for voter in ("rim5", "rim6"):
        c.stop(voter)
    for voter in ("hub", "rim2"):
        c.lose(voter)
        time.sleep(1)
    s = Session(c)
    code, text = grow(c, GROWN)
    print(f"exchange: status {code}: {text}")
    if code not in (0, 3):
        print("retire, as it says:", retire(c))
        code, text = grow(c, GROWN)
        print(f"exchange again: status {code}: {text}")
    return code in (0, 3) and s.has("l") and c.locks(1)


@case(150)
def grown_twice(room: Path) -> bool:
    """Two voters are added, dismissed, and made anew for the next exchange. They are refused as new ones, and made as lost
    ones the guard of the data refuses no pass."""
    c, guard, path = Cluster(room), Guard(), room / "passes"
    job = ("sh", "-c", f"echo $QLOCK_PASS >> {path}")
    for passes, step in ((14, lambda: grow(c, GROWN)), (2, lambda: shrink(c)), (14, lambda: grow(c, GROWN))):
        must("an exchange", step())
        must("retire", retire(c))
        for _ in range(passes):
            must("a pass", c.lock("l", program=job))
        for voter in [voter for voter in ("rim5", "rim6") if passes == 2 and voter in c.voters]:
            c.stop(voter)
            shutil.rmtree(c.data(voter))
    admitted = [guard.admits(text) for text in path.read_text().split()]
    print(f"{admitted.count(False)} of {len(admitted)} passes are refused; the last 14: {admitted[-14:]}")
    return all(admitted)


@case(120)
def two_operators(room: Path) -> bool:
    """Two operators exchange for two coteries, while a voter is away. Who failed may not retire the other's plan."""
    c = Cluster(room)
    files = []
    for number, hubs in enumerate(([(1, 2), (3, 4), (1, 3)], [(1, 4), (2, 3), (2, 4)])):
        quorums = [NAMES[1:], *(["hub", f"rim{first}", f"rim{second}"] for first, second in hubs)]
        coterie, file = c.room / f"coterie-{number}.toml", c.room / f"cluster-{number}.toml"
        coterie.write_text(f"voters = {json.dumps(NAMES)}\nquorums = {json.dumps(quorums)}\n")
        shutil.copy(c.file, file)
        files.append((coterie, file))
    c.stop("rim4")
    codes = []
    for coterie, file in files:
        codes.append(c.ctl("exchange", "--timeout", "2s", coterie, file=file, check=False)[0])
        if len(codes) == 1:
            c.start("rim4")
            until(lambda: c.health("rim4") == 200, 10)
    time.sleep(2.5)
    loser = c.ctl("retire", "--timeout", "2s", file=files[1][1], check=False)
    retired = [voter for voter in NAMES if "event=retire" in c.log_of(voter).read_text()]
    print(f"exchanges: statuses {codes}; who failed retires: {loser[0]}: {loser[1][:200]}")
    print("voters that retired the old plan then:", retired)
    winner = again(lambda: c.ctl("retire", "--timeout", "2s", file=files[0][1], check=False))
    served = c.lock("l", "8s", file=files[0][1])
    print(f"who succeeded retires: {winner[0]}; a lock by that plan: {served}")
    return len(retired) == 0 and codes[1] != 0 and winner[0] in (0, 3) and served[0] == 0


# The page's set-up


@case(90)
def rogue_route(room: Path) -> bool:
    """Whoever may read a job's or a machine's key starts a server. It hears nothing, and orders nothing."""
    c = Secure(room)
    s = Session(c)
    if not is_pass(s.lock("payroll")):
        raise RuntimeError("the lock is not to be had")
    heard, orders = "", ""
    for pair in sorted({c.job_pair, "machine"}):
        port = free_port()
        files = f'cert_file: "{c.keys}/{pair}.pem", key_file: "{c.keys}/{pair}.key", ca_file: "{c.keys}/ca.pem"'
        route = f'name: qlock, listen: "127.0.0.1:{free_port()}", routes: ["tls://localhost:{c.route_port}"]'
        cluster = f"cluster {{ {route}, tls {{ {files}, verify: true }} }}"
        (c.room / f"{pair}.conf").write_text(f'listen: "127.0.0.1:{port}"\nserver_name: rogue-{pair}\n{cluster}\n')
        start([NATS, "-c", c.room / f"{pair}.conf"], c.room / f"{pair}.log")
        until(lambda: "Server is ready" in (c.room / f"{pair}.log").read_text(), 5)
        time.sleep(1)
        spy = Wire(port)
        spy.listen("qlock.>")
        heard += spy.read(1.5)
        file = c.room / f"{pair}.toml"
        file.write_text(re.sub(r"(?m)^ca = .*$", "", c.file.read_text()).replace(c.url(), f"nats://127.0.0.1:{port}"))
        words = ["evict", "-c", file, "--timeout", "1s", s.number]
        orders += c.run("qlockctl", *words, check=False)[1]
    print(f"the rogue hears {heard.count('MSG ')} messages, and orders: {orders.splitlines()[:2]}")
    return "MSG " not in heard and "let_go" not in orders and s.lost() == 0 and s.has("another")


@case(90)
def speaks_as_another(room: Path) -> bool:
    """A user, a reader and a voter speak as others, with all that each may do. The server, or who hears it, drops each word."""
    c = Secure(room)
    s = Session(c)
    if not is_pass(s.lock("payroll")):
        raise RuntimeError("the lock is not to be had")
    own = Speaker(c, "jobs")  # processes of one user trust one another: so the name of the session is known
    own.listen(f"qlock.{c.id}.c.jobs.>")
    time.sleep(1)
    name, mark = re.findall(rf"c\.jobs\.(\S+)\.\d+ \d .*\r\nqlock2 {c.id} (\S+) v ", own.settle())[0]
    begin = f"qlock2 {c.id} {mark}"
    close = f"{begin} c {s.number} 1 64 {name} 99 level={LEVEL}\n. close\n"
    evict = f"{begin} o question\nevict {s.number}\n"
    identity = {voter: reply["identity"] for voter, reply in c.status().items()}
    passed, wrong = [], []
    users = {user: Speaker(c, user) for user in ("web", "bob", "voter-1")}
    for to, voter in enumerate(NAMES):
        taken = f"{begin} v {to} 0 1 {identity[voter]} 0\n. taken {s.number} 1\n"
        word = json.dumps({"word": "start", "voter": NAMES[2], "ttl": "2s", "process": "evil"})
        start_of_2 = f"{begin} v 2 1 99 evil 0\n{word}\n"
        # who says what to which subject; with "dropped" the server lets it pass, and who hears it drops it
        for user, subject, text, *dropped in (
            ("web", f"v.{to}.jobs", close),
            ("web", f"v.{to}.{to}", close),
            ("web", f"v.{to}.web", close, "dropped"),
            ("web", f"c.jobs.{name}.{to}", taken),
            ("web", f"p.{to}.2", start_of_2),
            ("web", f"write.{to}.web", evict),
            ("web", f"write.{to}.alice", evict),
            ("bob", f"write.{to}.bob", evict),
            ("bob", f"write.{to}.alice", evict),
            ("bob", f"read.{to}.bob", evict, "dropped"),
            ("voter-1", f"v.{to}.jobs", close),
            ("voter-1", f"p.{to}.2", start_of_2),
            ("voter-1", f"p.{to}.1", start_of_2, "dropped"),
            ("voter-1", f"write.{to}.1", evict),
            ("voter-1", f"write.{to}.alice", evict),
            ("voter-1", f"read.{to}.1", evict, "dropped"),
            *([("voter-1", f"c.jobs.{name}.{to}", taken), ("voter-1", f"c.jobs.{name}.1", taken, "dropped")] if to != 1 else []),
        ):
            if users[user].may_say(subject, text) != bool(dropped):
                passed.append((user, subject))
    heard = [(user, box) for user, box in (("web", "c.jobs.>"), ("web", "v.0.*"), ("bob", "o.alice.>"), ("voter-1", "p.0.*"))
             if users[user].may_listen(box)]
    time.sleep(2)
    logs = "".join(c.log_of(voter).read_text() for voter in NAMES)
    wrong = [word for word in ("event=evicted", "event=refused-voter", "evil") if word in logs]
    print(f"passed or not, against what was said: {passed}; heard: {heard}; in the logs: {wrong}; locks lost: {s.lost()}")
    stands = not passed and not heard and not wrong and s.lost() == 0 and s.has("another") and c.all_run()
    # the same words of who may say them do what they say
    other = Session(c)
    c.ctl("evict", str(other.number))
    for to in range(len(NAMES)):
        own.may_say(f"v.{to}.jobs", close)
    if not s.wait("lost payroll", 5) or "by=alice" not in c.log_of("hub").read_text():
        raise RuntimeError("the words are none of this protocol, and show nothing")
    return stands


def name_loopback(room: Path, names: list[str]) -> None:
    """Gives the loopback these names, for this process and those that it starts."""
    if ctypes.CDLL(None).unshare(CLONE_NEWNS):
        raise LeftOut("it needs root")
    (room / "hosts").write_text("".join(f"127.0.0.1 {name}\n" for name in ["localhost", *names]))
    shell("mount", "--make-rprivate", "/")
    shell("mount", "--bind", room / "hosts", "/etc/hosts")


@case(60)
def three_servers(room: Path) -> bool:
    """The page's three servers start one after the other. None is tried by an address, which no certificate has."""
    names = ["m0", "m1", "m2"]
    name_loopback(room, names)
    for name in ("ca", "routes-ca"):
        authority(room, name)
    (room / "users.conf").write_text("")
    routes, logs = [f"{name}:{free_port()}" for name in names], []
    for name, route in zip(names, routes):
        keys = room / name
        keys.mkdir()
        for file in room.glob("*ca.*"):
            shutil.copy(file, keys)
        certificate(keys, "machine", "ca", names=f"DNS:{name}")
        certificate(keys, "routes", "routes-ca", names=f"DNS:{name}")
        start_server(room, name, server_file(route, keys, free_port(), routes))
        logs.append(room / f"{name}.log")
    time.sleep(4)
    made = [log.read_text().count("Route connection created") for log in logs]
    wrong = [line for log in logs for line in log.read_text().splitlines() if "route handshake error" in line]
    print(f"routes that were made: {made}; handshakes that failed: {len(wrong)} {wrong[:1]}")
    return min(made) > 1 and not wrong


@case(120)
def renewed_certificates(room: Path) -> bool:
    """Certificates end, in place of which new ones were put before. The server restarts, and all that run come back."""
    seconds = 24
    ends = time.time() + seconds
    c = Secure(room, seconds=seconds)
    s = Session(c)
    if not s.has("before"):
        raise RuntimeError("the lock is not to be had")
    c.renew()
    if time.time() > ends:
        raise RuntimeError("the certificates ended before new ones were there: the machine is too slow")
    time.sleep(max(0.0, ends + 1.5 - time.time()))
    c.server.terminate()
    c.server.wait(20)
    c.start_server()
    is_healthy = until(lambda: all(c.health(voter) == 200 for voter in NAMES), 20)
    print("healthy:", [c.health(voter) for voter in NAMES])
    return is_healthy and c.locks(1, wait="15s") and s.has("after", 15)


# Starts and upgrades


def formats(c: Cluster) -> set[int]:
    """The formats of the voters' states."""
    return {reply["format"] for reply in c.status().values()}


def serves(c: Cluster, voter: str) -> bool:
    """Whether the others answered a voter's start."""
    return bool(c.status().get(voter, {}).get("serves"))


@case(90)
def crash_loop(room: Path) -> bool:
    """hub is killed each 0.3 s, again and again. Others go on, and so does hub after a TTL."""
    c = Cluster(room)
    s = Session(c)
    for i in range(25):
        c.stop("hub", signal.SIGKILL)
        c.start("hub")
        time.sleep(0.3)
        if i % 5 == 0 and not s.has(f"meanwhile-{i}", 10):
            return False
    ready = until(lambda: serves(c, "hub") and not c.status()["hub"].get("quiet_seconds"), 20)
    status = c.status()["hub"]
    print(f"hub serves: {ready}, after {status['start']} starts, with ceiling {status['ceiling']}")
    return ready and status["start"] > 20 and c.locks(4)


@case(120)
def rolling_upgrade(room: Path) -> bool:
    """Voters and clients are exchanged for newer programs one by one, one of them back, and the level is raised. Until then
    states have the older format, and from then on the older program refuses them."""
    if not (NEXT / "session").exists():
        raise LeftOut("no newer programs: service/build --next cmd/qlock-voter cmd/qlockctl attacks/session")
    c = Cluster(room, ttl="5s")  # a busy machine may not lose the lock
    held = Session(c)
    spy = Wire(c.port)
    spy.listen(f"qlock.{c.id}.c.>")
    if not is_pass(held.lock("held")):
        raise RuntimeError("the lock is not to be had")
    first = formats(c)
    for voter in NAMES:
        for programs in (NEXT, PROGRAMS, NEXT) if voter == "rim2" else (NEXT,):
            c.stop(voter)
            c.start(voter, programs=programs)
            if not until(lambda voter=voter: serves(c, voter), 20) or not held.has(f"during-{voter}", 10):
                print(f"{voter} by {programs}: {c.last(voter)}")
                return False
    kept = held.lost() == 0 and len(first) == 1 and formats(c) == first
    early = c.ctl("level", str(LEVEL + 1), check=False)
    newer = Session(c, programs=NEXT)
    before = ". greeted" in spy.read(1)
    held.tell("unlock held")
    held.tell("close")
    raised = again(lambda: c.ctl("level", str(LEVEL + 1), check=False))
    print(f"level too early: {early[0]}; then: {raised[0]} {raised[1][-60:]}; the lock was kept: {kept}")
    after = newer.has("after", 10) and ". greeted" in spy.read(1)
    after = after and len(formats(c)) == 1 and formats(c) != first
    print(f"formats: {first}, then {formats(c)}")
    c.stop("rim4")
    c.start("rim4")
    older = until(lambda: ended(c.voters["rim4"]), 20) and "made by a newer program" in c.last("rim4")
    older = older and c.voters["rim4"].returncode == 78
    print(f"an older voter: {c.last('rim4')}")
    c.start("rim4", programs=NEXT)
    is_back = until(lambda: serves(c, "rim4"), 20)
    try:
        Session(c)
        client = True
    except RuntimeError as why:
        client = False
        print(f"an older client: {why}")
    return is_back and kept and early[0] == 1 and not before and raised[0] == 0 and after and older and not client
