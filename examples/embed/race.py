"""The race of two clients for three voters, as race.c plays it, by Python's ctypes.

    python3 race.py ../../build/libqlock.so
"""
import ctypes
import sys

STATE, GRANTS, GUARD, OUT, MAX_STAMP = 1104, 512, 520, 4864, 1 << 62
DONE = 0

library = ctypes.CDLL(sys.argv[1])
out = ctypes.create_string_buffer(OUT)
written = ctypes.c_size_t()
SIZE = ctypes.c_size_t


def call(name, *arguments):
    """Calls a function, and ends the program if it refuses. Bytes and buffers go as a pointer and a length."""
    given = []
    for argument in arguments:
        given.append(argument)
        if isinstance(argument, (bytes, ctypes.Array)):
            given.append(SIZE(len(argument)))
    result = getattr(library, "qlock_" + name)(*given)
    if result != DONE:
        sys.exit(f"qlock_{name} returned {result}")


class Node:
    """A voter or a client: its state, and what was saved of it."""

    def __init__(self, kind, number):
        self.kind, self.number = kind, number
        self.state = ctypes.create_string_buffer(STATE)
        call(f"{kind}_new", ctypes.c_uint8(number), ctypes.c_uint64(MAX_STAMP), self.state)
        self.saved = self.state.raw

    def end(self):
        """Save, then send: returns the lines of the last call."""
        self.saved = self.state.raw
        return out.raw[:written.value].decode().splitlines()

    def show(self):
        phase, stamp, quorum = ctypes.c_int32(), ctypes.c_uint64(), ctypes.c_uint64()
        call("client_shows", self.state, ctypes.byref(phase), ctypes.byref(stamp), ctypes.byref(quorum))
        print(f"client {self.number}: phase {phase.value}, stamp {stamp.value}, quorum {quorum.value}")


voters = [Node("voter", v) for v in range(3)]
clients = [Node("client", c) for c in range(2)]
guard = ctypes.create_string_buffer(GUARD)
call("fence_new", guard)
passes = {}
network = []


def admit(grants):
    return library.qlock_fence_admit(guard, SIZE(GUARD), grants, SIZE(GRANTS), ctypes.byref(ctypes.c_uint64()))


def enter(client):
    passes[client.number] = ctypes.create_string_buffer(GRANTS)
    call("client_pass", client.state, passes[client.number])
    print(f"client {client.number} is inside, and the guard returns {admit(passes[client.number])}")


def deliver():
    """Delivers the messages until none is on the way."""
    while network:
        line = network.pop(0)
        word, _, to = line.split()[:3]
        if word in ("request", "release", "relinquish"):
            node = voters[int(to)]
            print(f"voter {to} takes: {line}")
            call("voter_take", node.state, line.encode(), out, ctypes.byref(written))
            network.extend(node.end())
        else:
            node, entered = clients[int(to)], ctypes.c_int32()
            print(f"client {to} takes: {line}")
            call("client_take", node.state, line.encode(), out, ctypes.byref(written), ctypes.byref(entered))
            network.extend(node.end())
            if entered.value:
                enter(node)


def ask(client, quorum):
    print(f"client {client.number} asks the quorum {quorum}")
    call("client_ask", client.state, ctypes.c_uint64(quorum), out, ctypes.byref(written))
    network.extend(client.end())


def leave(client):
    print(f"client {client.number} leaves")
    call("client_leave", client.state, out, ctypes.byref(written))
    network.extend(client.end())


def kill_and_restore(voter):
    voter.state = ctypes.create_string_buffer(STATE)
    voter.state.raw = voter.saved
    client, stamp, grant = ctypes.c_uint64(), ctypes.c_uint64(), ctypes.c_uint64()
    call("voter_held", voter.state, ctypes.byref(client), ctypes.byref(stamp), ctypes.byref(grant))
    print(f"voter {voter.number} was killed, and is back: grant {grant.value} of client {client.value}, stamp {stamp.value}")


ask(clients[0], 3)
ask(clients[1], 6)
deliver()
clients[0].show()
clients[1].show()
kill_and_restore(voters[1])
leave(clients[0])
deliver()
clients[0].show()
clients[1].show()
print(f"client 0 shows its old pass, and the guard returns {admit(passes[0])}")
leave(clients[1])
deliver()
clients[1].show()
