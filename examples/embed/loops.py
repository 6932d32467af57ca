"""Runs the loops of docs/embedding.md, word by word: five voters and four clients as threads, over a network in memory that loses,
repeats and delays messages. Each of them is killed again and again, wherever it is: at a receive, before or after a save, between
two sends, in its work. It starts again from its file.

    python3 loops.py ../../docs/embedding.md [SECONDS]

Fails if a line leaves or work begins before the state is saved, if two clients are inside at once, if a client has a stamp for two passes, if a client makes fewer than four passes, or if
none came back while it asked, or none while it was inside. Needs the package qlock, and the environment variable QLOCK_LIBRARY.
"""
import os
import queue
import random
import re
import struct
import sys
import tempfile
import threading
import time
from unittest import mock

import qlock
from qlock import BadMessage, Client, GrantsSpent, Phase, Store, Voter

VOTERS, CLIENTS = 5, 4
QUORUMS = [(0, 1), (0, 2), (0, 3), (0, 4), (1, 2, 3, 4)]


class Killed(Exception):
    """The process dies here."""


class Ended(Exception):
    """The trial is over."""


def blocks(page):
    """Returns the programs of the page, by the first word of each heading."""
    with open(page, encoding="utf-8") as file:
        parts = re.split(r"^## ", file.read(), flags=re.MULTILINE)
    of = {}
    for part in parts:
        found = re.search(r"^```python\n(.*?)^```", part, flags=re.MULTILINE | re.DOTALL)
        if found:
            of[part.splitlines()[0]] = found[1]
    return of


class World:
    """The network, who is inside, and when the trial is over."""

    def __init__(self, seconds):
        self.end = time.monotonic() + seconds
        self.mailboxes = {}
        self.inside = self.last = None
        self.stamps = [0] * CLIENTS
        self.passes = [0] * CLIENTS
        self.back = {Phase.ASKING: 0, Phase.INSIDE: 0}
        self.faults = []
        self.lock = threading.Lock()

    def may_die(self, chance=0.01):
        if random.random() < chance:
            raise Killed

    def enter(self, client, stamp):
        with self.lock:
            if self.inside not in (None, (client, stamp)):
                self.faults.append(f"client {client} enters while {self.inside} is inside")
            if stamp < self.stamps[client] or (stamp == self.stamps[client] and (client, stamp) not in (self.inside, self.last)):
                self.faults.append(f"client {client} enters by the stamp {stamp} again")
            self.inside, self.stamps[client] = (client, stamp), stamp

    def leave(self, client, stamp):
        with self.lock:
            if self.inside != (client, stamp):
                self.faults.append(f"client {client} leaves while {self.inside} is inside")
            self.passes[client] += self.last != (client, stamp)
            self.inside, self.last = None, (client, stamp)


class Network:
    """What the loops call `network`: the mailbox of one of them."""

    def __init__(self, world, kind, number, look):
        self._world, self._look = world, look
        self._mailbox = world.mailboxes.setdefault((kind, number), queue.SimpleQueue())

    def receive(self, until):
        self._world.may_die(0.03)
        if time.monotonic() > self._world.end:
            raise Ended
        try:
            return self._mailbox.get(timeout=max(0, until - time.monotonic()))
        except queue.Empty:
            return None

    def send(self, kind, number, line):
        self._look()
        self._world.may_die()
        for _ in range(random.choices((0, 1, 2), (3, 94, 3))[0]):
            late = random.random() * 0.02 if random.random() < 0.2 else 0
            threading.Timer(late, self._world.mailboxes.setdefault((kind, number), queue.SimpleQueue()).put, (line,)).start()


class Process:
    """A voter or a client, which is started again whenever it dies."""

    def __init__(self, world, kind, number, program, folder):
        self._world, self._kind, self._number, self._program, self._folder = world, kind, number, program, folder
        self._names = {}
        self._saved = b""

    def _store(self, name, owner):
        """Returns a store whose save may die before and after."""
        world, store = self._world, Store(os.path.join(self._folder, name), owner)
        read, save = store.read, store.save

        def read_and_look():
            self._saved = saved = read()
            if self._kind == "client":
                phase = Client.restore(saved[: qlock.CLIENT_BYTES]).shows().phase
                if phase in world.back:
                    world.back[phase] += 1
            return saved

        def save_or_die(state):
            world.may_die(0.03)
            save(state)
            self._saved = state
            world.may_die()

        store.read, store.save = read_and_look, save_or_die
        return store

    def _look(self):
        """Looks whether the state is saved."""
        if not self._saved.startswith(self._names[self._kind].state):
            self._world.faults.append(f"{self._kind} {self._number} goes on before it saved")

    def _work(self, stamp, grants):
        self._look()
        if grants == bytes(len(grants)):
            self._world.faults.append(f"client {self._number} has no pass")
        self._world.enter(self._number, stamp)
        self._world.may_die(0.1)
        time.sleep(random.choice((0, 0.04)))
        self._world.leave(self._number, stamp)
        self._world.may_die(0.1)

    def run(self):
        plan = mock.Mock(quorum=lambda ticket: QUORUMS[ticket % len(QUORUMS)])
        while True:
            self._names = {
                "Store": self._store, "network": Network(self._world, self._kind, self._number, self._look), "work": self._work,
                "plan": plan, "wants_the_lock": lambda: random.random() < 0.9, "TICKET": struct.Struct("<Q"), "time": time,
                "Voter": Voter, "Client": Client, "Phase": Phase, "CLIENT_BYTES": qlock.CLIENT_BYTES, "BadMessage": BadMessage,
                "GrantsSpent": GrantsSpent,
            }
            try:
                exec(self._program, self._names)
            except Killed:
                continue
            except Ended:
                return
            except BaseException as fault:
                self._world.faults.append(f"{self._kind} {self._number} ended: {fault!r}")
                raise


def main():
    programs, world = blocks(sys.argv[1]), World(float(sys.argv[2]) if len(sys.argv) > 2 else 10)
    threads = []
    with tempfile.TemporaryDirectory() as folder, mock.patch("os.fsync"):
        here = os.getcwd()
        os.chdir(folder)
        exec(programs["Setting up"], {"struct": struct, "Store": Store, "Voter": Voter, "Client": Client})
        os.chdir(here)
        for kind, count, number in (("voter", VOTERS, 3), ("client", CLIENTS, 5)):
            program = programs[f"The loop of a {kind}"]
            for i in range(count):
                own = program.replace(f"{kind}-{number}", f"{kind}-{i}").replace(f"{kind} {number}", f"{kind} {i}")
                threads.append(threading.Thread(target=Process(world, kind, i, own, folder).run))
        for thread in threads:
            thread.start()
        for thread in threads:
            thread.join()
    print(*world.faults[:5], f"passes {world.passes}, back while asking {world.back[Phase.ASKING]}, inside {world.back[Phase.INSIDE]}",
          sep="\n", file=sys.stderr)
    if world.faults or min(world.passes) < 4 or 0 in world.back.values():
        sys.exit("loops.py: the loops of the page do not hold")


if __name__ == "__main__":
    main()
