"""Host programs of a script's own at two stations whose sound reaches each other, in step with the sound. For the checks of hosts."""
import re
import time
import traceback

from agwpe import Message, read_all, written
from air import Air, Kiss, Station

LIMIT = 120 * 100  # ticks that a check may wait for one thing
RAW = bytes.fromhex("82a0a4a64040609c6e988a9a406103f0") + b"hello"


class Client:
    """An AGWPE host of this script's own. What it gets has to be spelled as messages are, octet for octet."""

    def __init__(self, station, call=""):
        self.socket = station.connect(station.agw)
        self.socket.setblocking(False)
        self.call, self.messages, self.waiting, self.input, self.ended = call, [], b"", b"", False

    def octets(self, octets):
        """Sends any octets."""
        self.waiting += octets
        self.pump()

    def send(self, kind, to="", body=b"", pid=0, source=None, port=0):
        self.octets(written(Message(kind, self.call if source is None else source, to, body, pid, port)))

    def pump(self):
        """Sends what waits as far as it goes, and takes in whole messages."""
        try:
            while self.waiting and not self.ended:
                self.waiting = self.waiting[self.socket.send(self.waiting) :]
        except BlockingIOError:
            pass
        except OSError:
            self.ended = True
        try:
            while not self.ended:
                part = self.socket.recv(65536)
                self.input += part
                self.ended = not part
        except BlockingIOError:
            pass
        except OSError:
            self.ended = True
        found, rest = read_all(self.input)
        same(b"".join(map(written, found)), self.input[: len(self.input) - len(rest)])
        self.messages += found
        self.input = rest

    def take(self, kind=None):
        """The messages of a kind so far, or all, which are then gone."""
        found = [it for it in self.messages if kind in (None, it.kind)]
        self.messages = [it for it in self.messages if it not in found]
        return found


def same(is_so, wanted):
    if is_so != wanted:
        raise AssertionError(f"it is {is_so!r} and not {wanted!r}")


class World:
    """Two fresh stations whose sound reaches each other, and their hosts."""

    def __init__(self, tnc, *words):
        self.stations = [Station(tnc, "--seed", "1", *words), Station(tnc, "--seed", "2", *words)]
        self.air = Air(*self.stations)
        self.hosts, self.pause, self.limit = [], 0, LIMIT
        for station in self.stations:
            kiss = self.kiss(station)
            kiss.send(b"\x05", command=1)
            kiss.socket.close()
        self.go(5)

    def client(self, at, call="", register=True):
        """An AGWPE host of station 0 or 1, which registers a call."""
        host = Client(self.stations[at], call)
        self.hosts.append(host)
        if call and register:
            host.send("X")
            same(self.one(host, "X"), Message("X", call, body=b"\1"))
        return host

    def kiss(self, station):
        return Kiss(station if isinstance(station, Station) else self.stations[station])

    def until(self, what, holds):
        """Lets the air go on until something holds."""
        ends = self.air.ticks + self.limit
        while not holds():
            if self.air.ticks > ends:
                raise AssertionError(f"waited in vain: {what}")
            self.go(1)

    def go(self, steps):
        """Lets the air go on."""
        for _ in range(steps):
            self.air.step()
            for host in self.hosts:
                host.pump()
            time.sleep(self.pause)

    def one(self, host, kind):
        """The next message of a kind, alone."""
        self.until(f"{host.call or 'a host'} has {kind}", lambda: any(it.kind == kind for it in host.messages))
        found = host.take(kind)
        same(len(found), 1)
        return found[0]

    def quiet(self, host, steps=20):
        """Nothing more comes to a host for a while."""
        self.go(steps)
        same(host.take(), [])

    def ask(self, host, kind, **more):
        """The answer to a question."""
        host.send(kind, **more)
        return self.one(host, kind)

    def frames(self, kiss, count):
        """The frames that a KISS host was sent, exactly so many."""
        self.until(f"{count} frames", lambda: len(kiss.frames()) >= count)
        self.go(10)
        same(len(kiss.frames()), count)
        return kiss.frames()

    def linked(self, a, b):
        """Two hosts get a link."""
        a.send("C", b.call)
        same(self.one(a, "C"), Message("C", b.call, a.call, f"*** CONNECTED With Station {b.call}\r".encode()))
        same(self.one(b, "C"), Message("C", a.call, b.call, f"*** CONNECTED To Station {a.call}\r".encode()))

    def unlinked(self, a, b):
        """Both are told the end of their link."""
        for host, other in ((a, b), (b, a)):
            text = f"*** DISCONNECTED From Station {other.call}\r".encode()
            same(self.one(host, "d"), Message("d", other.call, host.call, text))

    def data(self, host, count):
        """So many octets of a link, and the PIDs that they came with."""
        got, pids = b"", set()
        while len(got) < count:
            self.until("data", lambda: any(it.kind == "D" for it in host.messages))
            for message in host.take("D"):
                got += message.body
                pids.add(message.pid)
        return got, pids

    def end(self, closed=0):
        """Ends both stations: nothing is reported but so many `closed` lines, of the first one."""
        for at, station in enumerate(self.stations):
            status, _, report = station.end()
            lines = report.splitlines()
            wanted = closed if at == 0 else 0
            same((status, len(lines), all(re.fullmatch(r"closed \d+", it) for it in lines)), (0, wanted, True))


def call_field(call):
    """The seven octets of a call in a frame, but for the marks in the last."""
    name, _, number = call.partition("-")
    return bytes(ord(it) << 1 for it in name.ljust(6)) + bytes([0x60 | int(number or 0) << 1])


def ui_frame(source, to, info, pid=0xF0, via=()):
    """A UI frame, command, F = 0."""
    calls = [call_field(it) for it in (to, source, *via)]
    calls[0] = calls[0][:6] + bytes([calls[0][6] | 0x80])
    calls[-1] = calls[-1][:6] + bytes([calls[-1][6] | 1])
    return b"".join(calls) + bytes([3, pid]) + info


def little(number, octets=4):
    return number.to_bytes(octets, "little")


def run(check, tnc, times):
    """Runs one check; whether it holds."""
    began = time.monotonic()
    try:
        check(tnc)
    except Exception:  # whatever goes wrong is a failed check
        print(f"FAILED: {check.__name__}: {check.__doc__}\n{traceback.format_exc(limit=-4)}")
        return False
    if times:
        print(f"{check.__name__}: {time.monotonic() - began:.1f} s")
    return True
