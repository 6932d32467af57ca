"""A client of the trial in Python, by the agent of the host: what worker.go does, with the library of qlock.agent."""
import json
import os
import random
import socket
import sys
import threading
import time

from qlock import agent


class Worker(threading.Thread):
    """One line of passes, with a connection of its own to the witness."""

    def __init__(self, habits, number):
        super().__init__()
        self.habits, self.client, self.mutex = habits, agent.Client(habits["Agent"]), threading.Lock()
        self.socket = socket.socket(socket.AF_UNIX)
        self.socket.connect(habits["Witness"])
        self.lines = self.socket.makefile("rw")
        self.say("name", f"{habits['Name']}-{os.getpid()}/{number}", os.path.basename(habits["Agent"]))

    def say(self, *words):
        with self.mutex:
            try:
                print(*words, file=self.lines, flush=True)
                reply = self.lines.readline()
            except OSError:
                reply = ""
            if not reply:
                os._exit(0)  # the trial is over
            return reply.strip()

    def run(self):
        while True:
            self.step()

    def step(self):
        lock, ttl = f"place-{random.randrange(self.habits['Places'])}", self.habits["TTL"] / 1e9
        tries, turns = random.randrange(7) == 0, random.randrange(4) == 0
        wait = random.uniform(0.001, 0.05) if random.randrange(15) == 0 else 4 * ttl
        left = threading.Event()

        def told(_):
            at = microseconds()
            if not left.is_set():
                self.say("lost", lock, at)

        self.say("try" if tries else "wait", lock)
        try:
            held = (self.client.try_lock(lock, told, turns) if tries else self.client.lock(lock, wait, told, turns))
        except agent.HeldElsewhere:
            self.say("held", lock)
            return
        except agent.AgentFault as fault:
            self.say("nowait", lock)
            if not isinstance(fault, agent.NotInTime):
                print(fault, file=sys.stderr, flush=True)
                time.sleep(0.05)
            return
        at = microseconds()
        self.say("enter", lock, at, held.token.hex())
        if held.turn is not None:
            self.say("turn", lock, held.turn)
        if random.randrange(1000) < self.habits["Stays"]:
            self.say("stay", lock)
            held.lost.wait(1.5 * ttl)
        for _ in range(2):
            count = self.say("read", lock)
            if count == "late":
                break
            time.sleep(random.randrange(3) / 1000)
            self.say("write", lock, int(count) + 1)
        left.set()
        self.say("leave", lock)
        try:
            held.unlock()
        except agent.Lost:
            self.say("lapsed", lock)
        else:
            self.say("done", lock)


def microseconds():
    return time.clock_gettime_ns(time.CLOCK_BOOTTIME) // 1000


if __name__ == "__main__":
    own = json.loads(sys.argv[1])
    for thread in [Worker(own, number) for number in range(own["Each"])]:
        thread.start()
