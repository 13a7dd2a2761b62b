#!/usr/bin/env python3
"""Checks that random hosts do not hurt `tnc serve`, nor the hosts beside them.

  scripts/trials/random_hosts.py [--tnc PROGRAM] [--seconds N] [--seed N] [--hosts N] [--mode rej|srej] [--wide]

Two stations are joined by an air of pipes. Again and again there is a storm: random and mutated octets, in random
pieces, come from many hosts to both ports of the first station, some of which leave in the middle of a message, and
random and mutated frames come from the second station. Then there is a calm, in which hosts that speak as they are to
must be served: each question is answered, a frame that is heard is shown, a whole connected session carries its
octets both ways, and a host that asks to be told when its frames have been sent is told of each of them. One random
host in ten begins as a program of the web does: it must be closed, and no frame that it sends may be heard. At the
end both stations must end with status 0, and must have reported nothing but connections that they closed. It prints
one line and ends with status 0 if all is well. The seed tells what is said; how fast the sockets are tells in which
tick.

A KISS host sets the channel for all: with a persistence of 0 the station hardly ever sends. Each storm ends with a host that asks
for that and then floods the station with frames. The calm must hold all the same: each host waits for frames of its own
alone, so a sane one can set the channel back.
"""
import argparse
import os
import random
import re
import sys
import time

sys.path.append(os.path.join(os.path.dirname(__file__), "../shared"))
from air import Agw, Air, Kiss, Station

PATIENCE = 300  # seconds: the longest wait for one thing
SETTLED = 200  # steps after which the channel is set back again
FLOOD = 20  # frames of the host that stills the channel
MOST = 4000  # octets of a host in a storm: what a host sends while the station takes nothing waits in its socket
CALLS = ["AAAA", "BBBB", "CCCC-7", "RAND", "RAND-15", "NOCALL-16", "a b", "", "ABCDEFGHIJ"]
KINDS = b"RGgXxkKMVCvcDdYyPmHz\x00\xff"
WEB = [f"{it} / HTTP/1.1\r\nHost: 127.0.0.1\r\n\r\n".encode() for it in ("GET", "POST", "PUT", "OPTIONS", "DELETE")]
HANDSHAKE = b"\x16\x03\x01"
FROM_WEB = bytes(ord(it) << 1 for it in "WEBWEB")  # a source that no other host names
CONTROLS = bytes.fromhex("3f7f7363531f0f870313afe3001001110509 0d")


def wanted(words):
    """The options."""
    reader = argparse.ArgumentParser()
    reader.add_argument("--tnc", default="bin/tnc")
    reader.add_argument("--seconds", type=float, default=60)
    reader.add_argument("--seed", type=int, default=1)
    reader.add_argument("--hosts", type=int, default=12)
    reader.add_argument("--mode", default="rej")
    reader.add_argument("--wide", action="store_true")
    return reader.parse_args(words)


class Words:
    """What random hosts and stations say."""

    def __init__(self, draws):
        self.draws = draws

    def noise(self, most):
        """Octets, many of which have a meaning somewhere."""
        marks = b"\xc0\xc0\xdb\xdc\xdd\x00\x01\xff"
        any_octet = self.draws.randbytes(self.draws.randrange(most + 1))
        return bytes(it if it % 4 else marks[(it >> 2) % 8] for it in any_octet)

    def spoiled(self, octets):
        """The same, with a few octets changed, left out or said twice; most often with none."""
        octets = bytearray(octets)
        while octets and self.draws.randrange(4) == 0:
            at = self.draws.randrange(len(octets))
            what = self.draws.randrange(4)
            if what == 0:
                del octets[at]
            elif what == 1:
                octets[at:at] = octets[at : at + self.draws.randrange(40)]
            else:
                octets[at] = self.draws.choice([0, 1, 0x7F, 0x80, 0xC0, 0xFF, self.draws.randrange(256)])
        return bytes(octets)

    def address(self, last):
        """A call field of a frame."""
        call = self.draws.choice(["AAAA", "BBBB", "CCCC", "RAND", "WIDE1", "A"]).ljust(6)
        flags = 0xE0 if self.draws.randrange(2) else 0x60
        ssid = flags | self.draws.choice([0, 0, 0, 1, 7, 15]) << 1 | last
        return bytes(ord(it) << 1 for it in call) + bytes([ssid])

    def frame(self):
        """A frame, often with something wrong."""
        repeaters = self.draws.choice([0, 0, 0, 0, 1, 2, 8, 9])
        octets = b"".join(self.address(at == repeaters + 1) for at in range(repeaters + 2))
        control = self.draws.choice(CONTROLS) if self.draws.randrange(4) else self.draws.randrange(256)
        return self.spoiled(octets + bytes([control]) + self.noise(self.draws.choice([0, 1, 3, 40, 300])))

    def kiss(self):
        """What a KISS host says."""
        if self.draws.randrange(3) == 0:
            return self.noise(200)
        # the port and the command; the parameters of the channel are set by one in ten
        command = self.draws.choice([0] * 7 + [12] * 2 + [self.draws.randrange(256)])
        # a frame that asks to be told of has two octets of the host's own before it
        mark = self.draws.randbytes(2) if command & 15 == 12 else b""
        text = bytes([command]) + mark + self.frame()
        text = text.replace(b"\xdb", b"\xdb\xdd").replace(b"\xc0", b"\xdb\xdc")
        return self.spoiled(b"\xc0" + text + b"\xc0")

    def agw(self):
        """What an AGWPE host says."""
        if self.draws.randrange(40) == 0:
            return self.noise(200)
        field = lambda: self.draws.choice(CALLS).encode()[:10].ljust(10, b"\0")
        body = self.noise(self.draws.choice([0, 0, 1, 11, 91, 256, 600, 4096]))
        if self.draws.randrange(3) == 0:
            count = self.draws.randrange(10)
            body = bytes([count]) + b"".join(field() for _ in range(count)) + body
        head = bytes([0, 0, 0, 0, self.draws.choice(KINDS), 0, self.draws.choice([0, 0xF0, 0xCF]), 0])
        head += field() + field() + len(body[:4096]).to_bytes(4, "little") + bytes(4)
        return self.spoiled(head + body[:4096])


    def web(self, is_kiss):
        """What a program of the web says: to the KISS port with frames after it."""
        if not is_kiss:
            return self.draws.choice(WEB)
        frame = self.address(0)[:6] + b"\x60" + FROM_WEB + b"\x61\x03\xf0web"
        return self.draws.choice([*WEB, HANDSHAKE]) + (b"\xc0\0" + frame + b"\xc0") * 3


class RandomHost:
    """A connection that says anything, and reads what it is sent, or does not."""

    def __init__(self, station, is_kiss, words, draws):
        self.socket = station.connect(station.kiss if is_kiss else station.agw)
        self.socket.setblocking(False)
        self.words, self.draws = (words.kiss if is_kiss else words.agw), draws
        self.reads = draws.randrange(4) > 0
        self.waiting, self.sent, self.most = b"", 0, MOST
        self.is_web = draws.randrange(10) == 0
        if self.is_web:
            # it stays until it is closed
            self.waiting, self.reads = words.web(is_kiss), True

    def turn(self):
        """Says something and reads something. Tells whether the connection is still there."""
        while len(self.waiting) < 2000:
            self.waiting += self.words()
        piece = self.waiting[: min(self.draws.choice([1, 7, 36, 500, 2000]), self.most)]
        try:
            count = self.socket.send(piece)
            self.waiting = self.waiting[count:]
            self.sent += count
            self.most -= count
        except BlockingIOError:
            pass
        except OSError:
            return False
        try:
            if self.reads and self.socket.recv(65536) == b"":
                return False
        except BlockingIOError:
            pass
        except OSError:
            return False
        return self.is_web or self.draws.randrange(200) > 0


class Storms:
    """Two stations, random hosts at the first one, and a sane host at each."""

    def __init__(self, given):
        self.given, self.draws = given, random.Random(given.seed)
        self.words = Words(self.draws)
        self.joined = self.said = self.calms = self.closed = self.ticks = self.shut = 0
        self.begin()

    def begin(self):
        """Two new stations, with a sane host at each."""
        given = self.given
        words = ["--mode", given.mode, *(["--wide"] if given.wide else []), "--digi", "DIGI"]
        self.a = Station(given.tnc, "--seed", given.seed, *words)
        self.b = Station(given.tnc, "--seed", given.seed + 1, *words)
        self.air = Air(self.a, self.b, seed=given.seed)
        self.kiss_a, self.kiss_b = Kiss(self.a), Kiss(self.b)
        self.agw_a, self.agw_b = Agw(self.a, "SANEA"), Agw(self.b, "SANEB")
        self.random_hosts, self.still = [], None

    def end(self):
        """Ends both stations, and tells what was wrong with how they ended."""
        fault = ""
        for at, station in enumerate((self.a, self.b)):
            status, _, report = station.end()
            strange = [line for line in report.splitlines() if not re.fullmatch(r"(closed|dropped) [0-9]+", line)]
            if status != 0:
                fault = fault or f"status {status}"
            if strange:
                fault = fault or f"report: {strange[0][:200]}"
            self.closed += report.count("closed ") if at == 0 else 0
        self.ticks += self.air.ticks
        return fault

    def step(self):
        """A step of the air, and a turn of the sane hosts."""
        self.air.step()
        self.agw_a.pump()
        self.agw_b.pump()

    def storm(self):
        """Some hundred steps."""
        for host in self.random_hosts:
            host.most = MOST
        for _ in range(self.draws.randrange(100, 600)):
            while len(self.random_hosts) < self.given.hosts:
                self.random_hosts.append(RandomHost(self.a, self.draws.randrange(2), self.words, self.draws))
                self.joined += 1
            still = []
            for host in self.random_hosts:
                before = host.sent
                if host.turn():
                    still.append(host)
                else:
                    host.socket.close()
                    self.shut += host.is_web
                self.said += host.sent - before
            self.random_hosts = still
            if self.draws.randrange(20) == 0:
                self.kiss_b.send(self.words.frame())
            self.step()
        # of what the hosts of the sane side were shown only this is of interest
        self.kiss_a.frames()
        if any(it[7:13] == FROM_WEB for it in self.kiss_b.frames()):
            raise RuntimeError("a frame of a program of the web was sent")
        self.kiss_a.input = self.kiss_b.input = b""
        self.stills()

    def stills(self):
        """A host stills the channel and floods it."""
        if self.still:
            self.still.socket.close()
        self.still = Kiss(self.a)
        frame = bytes(ord(it) << 1 for it in "FLOOD0NOISE ") + b"\x61\x03\xf0without end"
        try:
            self.still.send(b"\0", 2)
            for _ in range(FLOOD):
                self.still.send(frame)
        except OSError:
            pass  # it is closed at once if hosts that have left leave no room for it
        for _ in range(10):
            self.step()

    def until(self, what, holds):
        """Lets the air go on until something holds."""
        patience, steps = time.monotonic() + PATIENCE, 0
        while not holds():
            if time.monotonic() > patience:
                raise RuntimeError(f"gave up waiting: {what}")
            self.step()
            # what a random host had said before it was held back is heard later
            steps += 1
            if steps % SETTLED == 0:
                self.settle()

    def answered(self, host, kind, to="", body=b"", pid=0):
        """The answer to a question."""
        host.take(kind)
        host.send(kind, to, body, pid)
        answers = []

        def holds():
            answers.extend(host.take(kind))
            return answers

        self.until(f"answer to {kind}", holds)
        return answers[-1]

    def settle(self):
        """Overrules the hosts that said something of the channel."""
        for value, command in [(50, 1), (255, 2), (0, 3), (2, 4), (1, 5)]:
            self.kiss_a.send(bytes([value]), command)
            self.kiss_b.send(bytes([value]), command)

    def calm(self):
        """The sane hosts must be served."""
        self.settle()
        for host, other in [(self.agw_a, "SANEB"), (self.agw_b, "SANEA")]:
            if self.answered(host, "R") != b"\1\0\0\0\0\0\0\0":
                raise RuntimeError("a wrong version")
            if self.answered(host, "G") != b"1;Port1 sound card;\0":
                raise RuntimeError("wrong ports")
            if len(self.answered(host, "g")) != 12:
                raise RuntimeError("wrong capabilities")
            if self.answered(host, "X") != b"\1":
                raise RuntimeError("a call of nobody is not registered")
            self.until("an empty queue", lambda: self.answered(host, "y") == bytes(4))
        # what a host had said before a full queue held it back is heard when the queue is empty
        self.settle()
        for _ in range(20):
            self.step()
        self.session()
        self.tells_of_frames()
        self.until("each program of the web is closed", self.has_shut_the_web)
        self.calms += 1

    def tells_of_frames(self):
        """A KISS host is told of each of its frames once it has been sent, in order, and of no frame of another host."""
        self.until("an empty queue", lambda: self.answered(self.agw_a, "y") == bytes(4))
        marks, before = [self.draws.randbytes(2) for _ in range(3)], len(self.kiss_a.items(12))
        frame = bytes(ord(it) << 1 for it in "BEACON0SANEA ") + b"\x61\x03\xf0told"
        for mark in marks:
            self.kiss_a.send(mark + frame, 12)
        self.until("told of its frames", lambda: len(self.kiss_a.items(12)) >= before + len(marks))
        if self.kiss_a.items(12)[before:] != marks:
            raise RuntimeError("a host is told of other frames than its own")

    def has_shut_the_web(self):
        """Whether no program of the web is left; each is asked for its turn, in which it says no more than it has begun."""
        for host in [it for it in self.random_hosts if it.is_web]:
            host.most = MOST
            if not host.turn():
                host.socket.close()
                self.random_hosts.remove(host)
                self.shut += 1
        return not any(it.is_web for it in self.random_hosts)

    def session(self):
        """A calls B, each gives the other some octets, and A ends it once both have all."""
        texts = [self.draws.randbytes(self.draws.randrange(700)) for _ in range(2)]
        got = [b"", b""]
        hosts = [self.agw_a, self.agw_b]
        for host in hosts:
            host.take("C"), host.take("D"), host.take("d")
        self.agw_a.send("C", "SANEB")
        came = [False, False]

        def both(kind):
            for at, host in enumerate(hosts):
                came[at] = came[at] or bool(host.take(kind))
            return all(came)

        self.until("connected", lambda: both("C"))
        for host, to, text in zip(hosts, ["SANEB", "SANEA"], texts):
            host.send("D", to, text)

        def have_all():
            for at, host in enumerate(hosts):
                got[at] += b"".join(host.take("D"))
            return len(got[0]) >= len(texts[1]) and len(got[1]) >= len(texts[0])

        self.until("all octets", have_all)
        self.agw_a.send("d", "SANEB")
        came = [False, False]
        self.until("disconnected", lambda: both("d"))
        if got != [texts[1], texts[0]]:
            raise RuntimeError("other octets than were given")
        calls = bytes(ord(it) << 1 for it in "SANEA SANEB ")
        if not any(it[:6] + it[7:13] == calls for it in self.kiss_a.frames()):
            raise RuntimeError("a frame that was heard is not shown")


def main(words):
    given = wanted(words)
    began = time.monotonic()
    storms = Storms(given)
    fault = ""
    try:
        while not fault and time.monotonic() - began < given.seconds:
            storms.storm()
            storms.calm()
    except (RuntimeError, OSError) as error:
        fault = str(error) or repr(error)
    fault = fault or storms.end()
    took = time.monotonic() - began
    print(
        f"{storms.said} octets of {storms.joined} random hosts, {storms.closed} of them closed by the station"
        f" ({storms.shut} programs of the web),"
        f" in {took:.0f} s here and {storms.ticks / 100:.0f} s on the air; {storms.calms} calms;"
        f" {fault or 'well'}"
    )
    return 1 if fault else 0


if __name__ == "__main__":
    sys.exit(main(sys.argv[1:]))
