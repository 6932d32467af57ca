"""The client of a host's agent: with a made-up agent, and with a real one where the service is built and NATS is there."""
import json
import os
import shutil
import signal
import socket
import subprocess
import sys
import tempfile
import threading
import time
import unittest
import unittest.mock
from datetime import datetime, timezone
from pathlib import Path

from qlock.agent import (AgentFault, BadName, Client, Denied, Full, HeldElsewhere, Holder, Lost, NoNumber, NotInTime, Unreachable,
                         _connections, _time)

PROGRAMS = Path(os.environ.get("QLOCK_PROGRAMS") or Path(__file__).resolve().parents[2] / "service" / "out" / "bin")
NATS = shutil.which("nats-server", path=os.environ.get("PATH", "") + ":/usr/sbin")
NAMES = ("qlock-voter", "qlockctl", "qlockd")

PACKAGES = os.path.dirname(os.path.dirname(os.path.abspath(sys.modules["qlock"].__file__)))

FORKS_AS_IT_WAITS = """
import os, sys, threading, time
from qlock.agent import Client

threading.Thread(target=Client(sys.argv[1]).lock, args=("x",), daemon=True).start()
sys.stdin.readline()
child = os.fork()
if child:
    print(child, flush=True)
time.sleep(60)
"""


def uptime():
    return time.clock_gettime(time.CLOCK_BOOTTIME)


class MadeUp:
    """An agent that says what a test wants to one connection after the other."""

    def __init__(self, test):
        folder = tempfile.TemporaryDirectory()
        test.addCleanup(folder.cleanup)
        self.path = os.path.join(folder.name, "q.sock")
        self.listener = socket.socket(socket.AF_UNIX)
        self.listener.bind(self.path)
        self.listener.listen()
        self.connections = []
        test.addCleanup(lambda: [it.close() for it in [self.listener, *self.connections]])

    def next(self, text):
        """Answers the next connection, in a thread, and returns a list that gets the request, and the connection."""
        got = []

        def serve():
            connection, _ = self.listener.accept()
            self.connections.append(connection)
            got.append(connection.recv(1 << 16).decode().split("\r\n")[0])
            connection.sendall(text.encode())
            got.append(connection)

        threading.Thread(target=serve, daemon=True).start()
        return got


def head(status, *lines):
    return f"HTTP/1.0 {status} X\r\nContent-Type: application/json\r\n\r\n" + "".join(json.dumps(line) + "\n" for line in lines)


HELD = {"lock": "x", "held": True, "client": 5, "session": "7/5", "user": "jobs", "host": "m3", "pid": 17, "login": "root", "note": "nightly",
        "since": "2026-12-01T00:10:02.12Z", "waiting": 2, "turn": "4611686018427387904", "of a later version": {}}


def first(left=60.0):
    return {"held": True, "id": "ab", "pass": "00ff", "ttl_ms": 4000, "until_ms": int((uptime() + left) * 1000)}


def eventually(holds, seconds=20):
    end = time.monotonic() + seconds
    while not holds() and time.monotonic() < end:
        time.sleep(0.01)
    return holds()


def is_there(path):
    try:
        Client(path).status()
    except Unreachable:
        return False
    return True


class WithMadeUpAgent(unittest.TestCase):
    def setUp(self):
        self.agent = MadeUp(self)
        self.client = Client(self.agent.path)

    def take(self, *lines, **words):
        got = self.agent.next(head(200, *lines))
        held = self.client.lock("orders", **words)
        self.assertTrue(eventually(lambda: len(got) == 2))
        self.addCleanup(held._connection.close)
        return held, got

    def test_what_is_asked_and_said(self):
        held, got = self.take(first(), wait=2.5)
        self.assertEqual(got[0], "POST /v1/locks/orders?wait=2.500000s HTTP/1.0")
        self.assertEqual((held.token, held.id, held.ttl, held.lost.is_set()), (b"\x00\xff", "ab", 4.0, False))
        self.assertTrue(50 < held.left() <= 60)
        threading.Timer(0.1, lambda: got[1].sendall(b'{"unlocked":true}\n')).start()
        held.unlock()
        held.unlock()
        self.assertTrue(held.lost.is_set())
        self.assertEqual((held.left(), got[1].recv(1)), (0.0, b""))

    def test_turn_that_is_asked_for(self):
        held, got = self.take({**first(), "turn": "4611686018427387904"}, turn=True)
        self.assertEqual((got[0], held.turn), ("POST /v1/locks/orders?turn=1 HTTP/1.0", 1 << 62))
        held, got = self.take(first())
        self.assertEqual((got[0], held.turn), ("POST /v1/locks/orders? HTTP/1.0", None))

    def test_idle(self):
        held, got = self.take(first(), idle=30)
        self.assertEqual(got[0], "POST /v1/locks/orders?idle=30.000000s HTTP/1.0")
        held.alive()
        got[1].settimeout(20)
        self.assertEqual(got[1].recv(16), b"\n")
        got[1].sendall(b'{"lost":true,"why":"idle"}\n')
        self.assertTrue(held.lost.wait(20))
        held.alive()
        self.assertEqual(held.why, "idle")
        held, got = self.take(first())
        held.alive()
        threading.Timer(0.1, lambda: got[1].sendall(b'{"unlocked":true}\n')).start()
        held.unlock()
        self.assertEqual(got[1].recv(16), b"")
        got = self.agent.next(head(409, {"fault": "held", "why": "x"}))
        with self.assertRaises(HeldElsewhere):
            self.client.try_lock("x", idle=0)
        self.assertEqual(got[0], "POST /v1/locks/x?try=1&idle=0.001000s&wait=10.000000s HTTP/1.0")

    def test_names_are_quoted(self):
        got = self.agent.next(head(400, {"fault": "name", "why": "x"}))
        with self.assertRaises(BadName):
            self.client.try_lock("a/b c?d")
        self.assertEqual(got[0], "POST /v1/locks/a%2Fb%20c%3Fd?try=1&wait=10.000000s HTTP/1.0")

    def test_each_fault_has_a_class(self):
        for status, word, kind, other in (
            (409, "held", HeldElsewhere, AgentFault), (408, "timeout", NotInTime, TimeoutError),
            (504, "unreachable", Unreachable, ConnectionError), (429, "numbers", NoNumber, AgentFault),
            (403, "denied", Denied, PermissionError),
            (503, "closing", Unreachable, ConnectionError), (507, "full", Full, AgentFault), (400, "name", BadName, ValueError),
            (410, "lost", Lost, AgentFault), (400, "request", AgentFault, AgentFault), (500, "of a later version", AgentFault, Exception),
        ):
            self.agent.next(head(status, {"fault": word, "why": f"why {word}"}))
            with self.assertRaises(kind) as said:
                self.client.lock("x")
            self.assertIsInstance(said.exception, other)
            self.assertEqual((said.exception.word, str(said.exception)), (word, f"why {word}"))
        for text in ("", "HTTP/1.0 200 X\r\n\r\n", "HTTP/1.0 500 X\r\n\r\nno JSON\n"):
            got = self.agent.next(text)
            threading.Thread(target=lambda got=got: eventually(lambda: len(got) == 2) and got[1].close(), daemon=True).start()
            with self.assertRaises(AgentFault):
                self.client.lock("x")

    def test_what_a_refusal_says_besides(self):
        self.agent.next(head(409, {"fault": "held", "why": "x", "holder": HELD}))
        with self.assertRaises(HeldElsewhere) as said:
            self.client.try_lock("x")
        self.assertEqual((said.exception.holder.note, said.exception.holder.pid), ("nightly", 17))
        self.agent.next(head(429, {"fault": "numbers", "why": "x", "waiting": 3}))
        with self.assertRaises(NoNumber) as said:
            self.client.try_lock("x")
        self.assertEqual(said.exception.waiting, 3)
        for status, word in ((409, "held"), (429, "numbers")):
            self.agent.next(head(status, {"fault": word, "why": "x"}))
            with self.assertRaises(AgentFault) as said:
                self.client.try_lock("x")
            self.assertIsNone(said.exception.holder if word == "held" else said.exception.waiting)

    def test_note_of_one_lock(self):
        for client, note, want in ((self.client, "a b", "note=a+b&"), (self.client, "", ""), (Client(self.agent.path, "own"), "", "note=own&"),
                                   (Client(self.agent.path, "own"), "a", "note=a&")):
            for call, words in ((client.lock, {"wait": 1}), (client.try_lock, {})):
                got = self.agent.next(head(409, {"fault": "held", "why": "x"}))
                with self.assertRaises(HeldElsewhere):
                    call("x", note=note, **words)
                self.assertEqual(got[0].split("?")[1].replace("try=1&", "").split("wait=")[0], want)

    def test_who_has_a_lock(self):
        got = self.agent.next(head(200, HELD))
        holder = self.client.who("a b")
        self.assertEqual(got[0], "GET /v1/who/a%20b?wait=3.000000s HTTP/1.0")
        self.assertEqual(holder, Holder("x", True, "jobs", "m3", 17, "root", "nightly", datetime(2026, 12, 1, 0, 10, 2, 120000, timezone.utc),
                                        2, False, "7/5", 1 << 62))
        self.assertTrue(holder)
        self.agent.next(head(200, {"lock": "x", "held": False}))
        self.assertFalse(self.client.who("x"))
        got = self.agent.next(head(504, {"fault": "unreachable", "why": "x"}))
        with self.assertRaises(Unreachable):
            self.client.who("x", wait=0)
        self.assertIn("wait=0.001000s", got[0])
        self.agent.next("HTTP/1.0 200 OK\r\n\r\nno JSON\n")
        with self.assertRaises(Unreachable):
            self.client.who("x")

    def test_times(self):
        for text, micros in (("2026-12-01T00:10:02Z", 0), ("2026-12-01T00:10:02.5Z", 500000), ("2026-12-01T00:10:02.123456789Z", 123456)):
            self.assertEqual(_time(text), datetime(2026, 12, 1, 0, 10, 2, micros, timezone.utc))

    def test_list_of_the_cluster(self):
        got = self.agent.next(head(200, {"locks": [HELD, {"lock": "y", "held": False}]}))
        self.assertEqual([(it.lock, it.held) for it in self.client.list("a-&")], [("x", True), ("y", False)])
        self.assertEqual(got[0], "GET /v1/who?prefix=a-%26&wait=3.000000s HTTP/1.0")

    def test_watch(self):
        got = self.agent.next(head(200, {"lock": "x", "held": False}))
        with self.client.watch("x") as holders:
            self.assertFalse(next(holders))
            self.assertTrue(eventually(lambda: len(got) == 2))
            self.assertEqual(got[0], "GET /v1/watch/x?wait=3.000000s HTTP/1.0")
            self.assertIsNone(holders._connection.socket.gettimeout())
            threading.Timer(0.3, lambda: got[1].sendall((json.dumps(HELD) + "\n").encode())).start()
            self.assertEqual(next(holders).note, "nightly")
            threading.Timer(0.3, holders.close).start()  # by another thread
            self.assertEqual(list(holders), [])
            self.assertEqual(got[1].recv(1), b"")
            self.assertEqual(list(holders), [])
        for end in (b"", b"no JSON\n"):
            got = self.agent.next(head(200, HELD))
            holders = self.client.watch("x")
            self.assertTrue(next(holders))
            self.assertTrue(eventually(lambda: len(got) == 2))
            got[1].sendall(end)
            got[1].shutdown(socket.SHUT_WR)
            with self.assertRaises(Unreachable):
                next(holders)
            self.assertEqual(list(holders), [])
            self.assertEqual(got[1].recv(1), b"")
        got = self.agent.next(head(403, {"fault": "denied", "why": "x"}))
        with self.assertRaises(Denied):
            self.client.watch("x")
        self.assertTrue(eventually(lambda: len(got) == 2))
        self.assertEqual(got[1].recv(1), b"")

    def test_agent_that_is_not_there(self):
        with self.assertRaises(Unreachable):
            Client(self.agent.path + ".none").lock("x")

    def test_agent_that_does_not_reply(self):
        self.agent.next("")
        began = time.monotonic()
        with unittest.mock.patch("qlock.agent._REPLY", 0.3), self.assertRaises(Unreachable):
            self.client.lock("x", wait=0.2)
        self.assertGreater(time.monotonic() - began, 0.4)

    def test_wait_of_zero(self):
        got = self.agent.next(head(409, {"fault": "held", "why": "x"}))
        with self.assertRaises(HeldElsewhere):
            self.client.lock("x", wait=0)
        self.assertIn("wait=0.001000s", got[0])

    def test_lost_as_the_agent_says(self):
        heard = []
        held, got = self.take(first(), on_lost=heard.append)
        got[1].sendall(b'{"lost":true,"why":"session"}\n')
        self.assertTrue(held.lost.wait(20))
        self.assertTrue(eventually(lambda: heard == [held]))
        self.assertEqual((held.why, held.left()), ("session", 0.0))
        with self.assertRaises(Lost):
            held.unlock()

    def test_lost_as_the_connection_ends(self):
        held, got = self.take(first())
        got[1].close()
        self.assertTrue(held.lost.wait(20))
        with self.assertRaises(Lost), held:
            pass

    def test_lost_as_the_agent_says_nothing(self):
        held, got = self.take(first(1.0))
        got[1].sendall((json.dumps({"left_ms": 2000, "until_ms": int((uptime() + 2.0) * 1000)}) + "\n").encode())
        began = time.monotonic()
        self.assertTrue(held.lost.wait(20))
        self.assertGreater(time.monotonic() - began, 1.2)
        self.assertEqual(held.why, "silence")

    def test_clock_of_another_time_namespace(self):
        for ahead in (-1000.0, 1000.0):
            def said(left, *asked):
                now = int((uptime() - ahead) * 1000)
                return dict({"left_ms": left, "until_ms": now + left}, **({"asked_ms": now + 200} if asked else {}))

            held, got = self.take(dict(first(), **said(3000, "asked")))
            self.assertTrue(2.0 < held.left() <= 3.0, held.left())
            got[1].sendall((json.dumps(said(60000)) + "\n").encode())
            self.assertTrue(eventually(lambda: held.left() > 55))
            self.assertLessEqual(held.left(), 60.0)

    def test_lost_as_the_agent_says_what_is_none_of_its_lines(self):
        for line in (b"5\n", b'{"until_ms":"soon"}\n'):
            held, got = self.take(first())
            got[1].sendall(line)
            self.assertTrue(held.lost.wait(20))
            self.assertEqual(held.why, "connection")

    def test_fault_of_the_work_goes_before_the_loss(self):
        held, got = self.take(first())
        got[1].close()
        with self.assertRaises(KeyError), held:
            raise KeyError

    def test_forked_child_has_no_lock(self):
        held, got = self.take(first())
        reading, writing = os.pipe()
        child = os.fork()
        if child == 0:
            os.write(writing, b"lost" if held.lost.is_set() and held.left() == 0 else b"held")
            time.sleep(60)
            os._exit(0)
        self.addCleanup(os.waitpid, child, 0)
        self.addCleanup(os.kill, child, signal.SIGKILL)
        self.assertEqual(os.read(reading, 4), b"lost")
        self.assertFalse(held.lost.is_set())
        threading.Timer(0.1, lambda: got[1].sendall(b'{"unlocked":true}\n')).start()
        held.unlock()
        self.assertEqual(got[1].recv(1), b"")
        os.close(reading)
        os.close(writing)

    def test_forked_child_keeps_no_call_that_waits(self):
        got = self.agent.next("")
        with subprocess.Popen([sys.executable, "-c", FORKS_AS_IT_WAITS, self.agent.path], stdin=subprocess.PIPE,
                              stdout=subprocess.PIPE, env={**os.environ, "PYTHONPATH": PACKAGES}) as parent:
            self.assertTrue(eventually(lambda: len(got) == 2))
            parent.stdin.write(b"fork\n")
            parent.stdin.flush()
            self.addCleanup(os.kill, int(parent.stdout.readline()), signal.SIGKILL)
            parent.kill()
        got[1].settimeout(20)
        self.assertEqual(got[1].recv(1), b"")

    def test_call_that_fails_ends_its_connection_for_all(self):
        got = self.agent.next("")
        with unittest.mock.patch("qlock.agent._REPLY", 0.3):
            waits = threading.Thread(target=lambda: self.assertRaises(Unreachable, self.client.lock, "x", wait=0.5))
            waits.start()
            self.assertTrue(eventually(lambda: len(got) == 2))
            (connection,) = _connections
            copy = connection.socket.dup()  # as a child has it that Python knows nothing of
            self.addCleanup(copy.close)
            waits.join()
        got[1].settimeout(20)
        self.assertEqual(got[1].recv(1), b"")

    def test_given_back_by_another_process(self):
        heard = []
        held, got = self.take(first(), on_lost=heard.append)
        got[1].sendall(b'{"unlocked":true}\n')
        self.assertTrue(held.lost.wait(20))
        self.assertTrue(eventually(lambda: heard == [held]))
        with self.assertRaises(Lost), held:
            pass
        self.assertEqual(held.why, "unlocked")

    def test_what_came_meanwhile_is_no_silence(self):
        held, got = self.take(first())
        late, ended = ({"left_ms": 0, "until_ms": int((uptime() + left) * 1000)} for left in (-1.0, 60.0))
        got[1].sendall("".join(json.dumps(line) + "\n" for line in (late, ended)).encode())
        self.assertTrue(eventually(lambda: held._until > uptime() + 30 or held.lost.is_set()))
        self.assertFalse(held.lost.wait(0.3))
        threading.Timer(0.1, lambda: got[1].sendall(b'{"unlocked":true}\n')).start()
        held.unlock()

    def test_unlock_does_not_wait_for_on_lost(self):
        stop, ended = threading.Event(), []
        held, got = self.take(first(), on_lost=lambda _: ended.append(stop.wait(20)))
        got[1].sendall(b'{"lost":true,"why":"session"}\n')
        self.assertTrue(held.lost.wait(20))
        with self.assertRaises(Lost):
            held.unlock()
        self.assertEqual(ended, [])
        stop.set()

    def test_socket_of_the_environment(self):
        with unittest.mock.patch.dict(os.environ, QLOCK_AGENT=self.agent.path):
            self.agent.next(head(200, {"locks": [{"lock": "x"}]}))
            self.assertEqual(Client().locks("x"), [{"lock": "x"}])


@unittest.skipUnless(NATS and all((PROGRAMS / name).exists() for name in NAMES), "there is no NATS, or the service is not built")
class WithAgent(unittest.TestCase):
    @classmethod
    def setUpClass(cls):
        folder = tempfile.TemporaryDirectory()
        cls.addClassCleanup(folder.cleanup)
        cls.room = Path(folder.name)
        # the server takes a free port itself, and writes its address into a file
        cls.start([NATS, "-a", "127.0.0.1", "-p", "-1", "--ports_file_dir", cls.room])
        if not eventually(lambda: any(path.stat().st_size for path in cls.room.glob("*.ports"))):
            raise AssertionError("NATS does not start")
        (ports,) = cls.room.glob("*.ports")
        (server,) = json.loads(ports.read_text())["nats"]
        (cls.room / "coterie.toml").write_text('voters = ["a"]\nquorums = [["a"]]\n')
        cluster, data = cls.room / "cluster.toml", cls.room / "a"
        subprocess.run(
            [PROGRAMS / "qlockctl", "init", "-c", cluster, "--id", "test", "--coterie", cls.room / "coterie.toml", "--servers",
             server, "--ttl", "4s"], check=True, stdout=subprocess.DEVNULL)
        (cls.room / "a.toml").write_text(f'cluster = "{cluster}"\nvoter = "a"\ndata = "{data}"\n')
        subprocess.run([PROGRAMS / "qlock-voter", "init", "-c", cls.room / "a.toml"], check=True, stdout=subprocess.DEVNULL)
        cls.voter = cls.start([PROGRAMS / "qlock-voter", "start", "-c", cls.room / "a.toml"])
        cls.socket = str(cls.room / "q.sock")
        (cls.room / "qlockd.toml").write_text(f'cluster = "{cluster}"\nsocket = "{cls.socket}"\n')
        cls.start([PROGRAMS / "qlockd", "start", "-c", cls.room / "qlockd.toml"])
        if not eventually(lambda: is_there(cls.socket)):
            raise AssertionError("the agent does not start")
        cls.client = Client(cls.socket)
        cls.client.lock("ready", wait=30).unlock()

    @classmethod
    def start(cls, words):
        process = subprocess.Popen(words, stdin=subprocess.DEVNULL, stdout=subprocess.DEVNULL, stderr=subprocess.DEVNULL)

        def end():
            process.kill()
            process.wait()

        cls.addClassCleanup(end)
        return process

    def test_lock_is_held_and_given_back(self):
        with self.client.lock("x", wait=10) as held:
            self.assertEqual((len(held.token), held.ttl), (512, 4.0))
            self.assertTrue(0 < held.left() <= 3.2)
            (row,) = self.client.locks("x")
            self.assertEqual((row["pid"], row["state"], row["id"]), (os.getpid(), "held", held.id))
            with self.assertRaises(HeldElsewhere):
                self.client.try_lock("x")
            with self.assertRaises(NotInTime):
                self.client.lock("x", wait=0.3)
        self.client.try_lock("x").unlock()
        self.assertEqual(self.client.status()["cluster"], "test")

    def test_holders_of_the_cluster(self):
        path, _, _ = self.other_agent("elsewhere")
        other = Client(path, note="elsewhere")
        self.assertFalse(self.client.who("w-1"))
        with self.client.watch("w-1") as holders:
            self.assertFalse(next(holders))
            with other.lock("w-1", wait=30), other.lock("w-2", note="second"):
                for holder in holders:
                    if holder.note == "elsewhere":
                        break
                self.assertEqual((holder.pid, holder.lock, holder.host), (os.getpid(), "w-1", socket.gethostname()))
                self.assertTrue(eventually(lambda: self.client.who("w-2").note == "second"))
                self.assertEqual([(it.lock, it.note) for it in self.client.list("w-")], [("w-1", "elsewhere"), ("w-2", "second")])
                self.assertEqual(self.client.locks("w-1"), [])
                with self.assertRaises(HeldElsewhere) as said:
                    self.client.try_lock("w-1")
                self.assertEqual(said.exception.holder.note, "elsewhere")
            self.assertFalse(next(holders))
        with self.assertRaises(BadName):
            self.client.watch("a b")

    def test_idle_is_lost(self):
        held = self.client.lock("idle", wait=10, idle=1)
        end = time.monotonic() + 2.5
        while time.monotonic() < end:
            held.alive()
            time.sleep(0.1)
        self.assertFalse(held.lost.is_set())
        self.assertTrue(held.lost.wait(20))
        self.assertEqual(held.why, "idle")
        with self.assertRaises(Lost):
            held.unlock()
        with self.client.lock("idle", wait=20, turn=True, idle=60) as again:
            self.assertTrue(eventually(lambda: self.client.who("idle").turn == again.turn))

    def test_lock_lasts_longer_than_its_ttl(self):
        with self.client.lock("long", wait=10) as held:
            time.sleep(5)
            self.assertFalse(held.lost.is_set())
            self.assertGreater(held.left(), 0)

    def test_dead_process_gives_back(self):
        text = (
            "import sys, time; from qlock.agent import Client; "
            "held = Client(sys.argv[1]).lock('y'); print('held', flush=True); time.sleep(60)"
        )
        words, given = [sys.executable, "-c", text, self.socket], {**os.environ, "PYTHONPATH": PACKAGES}
        with subprocess.Popen(words, stdout=subprocess.PIPE, env=given) as other:
            self.assertEqual(other.stdout.readline(), b"held\n")
            with self.assertRaises(HeldElsewhere):
                self.client.try_lock("y")
            other.kill()
        began = time.monotonic()
        self.client.lock("y", wait=10).unlock()
        self.assertLess(time.monotonic() - began, 2)

    def other_agent(self, name):
        """Starts another agent, as if on another host. Returns its socket, its words and its process."""
        path, file = str(self.room / f"{name}.sock"), self.room / f"{name}.toml"
        file.write_text(f'cluster = "{self.room / "cluster.toml"}"\nsocket = "{path}"\n')
        words = [PROGRAMS / "qlockd", "start", "-c", file]
        other = self.start(words)
        self.assertTrue(eventually(lambda: is_there(path)))
        return path, words, other

    def test_agent_that_stands_still(self):
        path, _, other = self.other_agent("still")
        lost = []
        held = Client(path).lock("s", wait=20, on_lost=lambda _: lost.append(time.monotonic()))
        other.send_signal(signal.SIGSTOP)
        with self.client.lock("s", wait=30):
            entered = time.monotonic()
            self.assertTrue(lost and lost[0] < entered, (lost, entered))
            self.assertEqual((held.why, held.left()), ("silence", 0.0))
            other.send_signal(signal.SIGCONT)
            with self.assertRaises(Lost):
                held.unlock()
            with self.assertRaises(HeldElsewhere):
                Client(path).try_lock("s")

    def test_agent_that_is_killed(self):
        path, words, other = self.other_agent("other")
        held = Client(path).lock("k", wait=10)
        other.kill()
        self.assertTrue(held.lost.wait(2))
        with self.assertRaises(Lost):
            held.unlock()
        other.wait()
        self.start(words)  # the socket is left behind
        began = time.monotonic()
        self.assertTrue(eventually(lambda: is_there(path)))
        with Client(path).lock("k", wait=30):  # once the TTL of the old session is over
            self.assertLess(time.monotonic() - began, 20)

    def test_wrong_name(self):
        for name in ("", ".", "..", "a b", "x" * 65, "ä"):
            with self.assertRaises(BadName):
                self.client.lock(name, wait=5)

    def test_voter_that_stands_still(self):
        held = self.client.lock("z", wait=10)
        self.voter.send_signal(signal.SIGSTOP)
        try:
            self.assertTrue(held.lost.wait(10))
            self.assertIn(held.why, ("lease", "silence"))  # who notices first
            with self.assertRaises(Lost):
                held.unlock()
            with self.assertRaises(Unreachable):
                self.client.lock("z", wait=0.5)
        finally:
            self.voter.send_signal(signal.SIGCONT)
        self.client.lock("z", wait=30).unlock()


if __name__ == "__main__":
    unittest.main()
