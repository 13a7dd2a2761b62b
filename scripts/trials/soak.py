#!/usr/bin/env python3
"""Two live stations in noise for as long as is wanted, with host programs that come, go, stall, send rubbish and cut their
messages. It stands beside the gate, and is started by hand.

  scripts/trials/soak.py [--tnc PROGRAM] [--minutes N] [--speed N] [--connections N] [--mode rej|srej] [--wide] [--seed N]

So many minutes of sound go by, N times as fast as on the air, or as fast as they go with 0. Each station has up to so many
connections at a time. Looked at are: that no octet of a link comes to another connection, and what comes is what was given,
in order and once, from one place on in each set-up; that replies are well formed; that a host that reads is never closed;
that memory stays below its bound and does not grow; and that the report has `closed` lines alone.

A station takes the room of what waits for a connection when the connection joins, and the system gives that room page
by page when it is first written. So memory is measured only after all connections have come once and their queues were
once full: before the minutes begin, every place of both stations is taken at once, each connection is sent more than its
queue holds, and then reads no more until it is closed. What a station takes then is its filled memory. From there on it
may take 5 % and 256 KiB more, and never more than 4 MiB and 320 KiB for each connection.

It prints a line a minute and ends with status 0 where all is well. Ctrl-C ends it before its time."""
import argparse
import array
import operator
import os
import random
import socket
import struct
import sys
import time

sys.path.append(os.path.join(os.path.dirname(__file__), "../shared"))
from agwpe import Message, read_all, written
from air import TICK, Station, read_all as read_octets

STEP = 20  # ticks that go by at a time
SECOND = 100  # ticks
LOUD = 20000  # of a sample of noise, at most, so that with the tones it fits
LEVELS = (0, 500, 1500, 3000)  # of noise, as the root of its mean square, for a minute each; the tones have 7071
RECORD = struct.Struct("<II")  # what links carry: whose octets they are, and a count
QUEUE = 262_144  # octets that may wait for a connection
ASKS = 500  # questions that a host sends in a row
PATIENCE = 3600 * SECOND  # ticks in which all queues have to be filled


def wanted(words):
    """The options."""
    reader = argparse.ArgumentParser()
    reader.add_argument("--tnc", default="bin/tnc")
    reader.add_argument("--minutes", type=float, default=5)
    reader.add_argument("--speed", type=float, default=0)
    reader.add_argument("--connections", type=int, default=64)
    reader.add_argument("--mode", default="rej")
    reader.add_argument("--wide", action="store_true")
    reader.add_argument("--seed", type=int, default=1)
    return reader.parse_args(words)


class Fault(Exception):
    """What must not be."""


class Noise:
    """Noise of one level after another, with bursts; drawn once, and used from drawn places on."""

    def __init__(self, draws):
        self.draws, self.count = draws, STEP * TICK // 2
        length = 96000 + self.count
        self.kept = {
            level: array.array("h", (max(-LOUD, min(LOUD, int(draws.gauss(0, level)))) for _ in range(length)))
            for level in (*LEVELS, 9000)
        }
        self.level = 0

    def heard(self, sent):
        """The samples that are sent, with noise on them."""
        level = 9000 if self.draws.random() < 0.02 else self.level
        at = self.draws.randrange(96000)
        noise = self.kept[level][at : at + self.count]
        if not any(sent):
            return noise.tobytes()
        return array.array("h", map(operator.add, array.array("h", sent), noise)).tobytes()


class Line:
    """A connection to one port of a station that never blocks."""

    def __init__(self, station, port, buffer=None):
        self.socket = socket.socket()
        if buffer:
            self.socket.setsockopt(socket.SOL_SOCKET, socket.SO_RCVBUF, buffer)
        self.socket.connect(("127.0.0.1", port))
        self.socket.setblocking(False)
        self.station, self.waiting, self.input, self.ended = station, b"", b"", False

    def send(self, octets):
        self.waiting += octets
        self.push()

    def push(self):
        """Sends what waits, as far as it goes."""
        try:
            while self.waiting and not self.ended:
                self.waiting = self.waiting[self.socket.send(self.waiting) :]
        except BlockingIOError:
            pass
        except OSError:
            self.ended = True

    def pull(self):
        """Takes in what has come."""
        try:
            while not self.ended:
                part = self.socket.recv(65536)
                self.input += part
                self.ended = not part
        except BlockingIOError:
            pass
        except OSError:
            self.ended = True

    def messages(self):
        """The AGWPE messages that have come."""
        self.pull()
        found, self.input = read_all(self.input)
        return found

    def close(self, at_once=False):
        """Leaves; at once, so that what is on its way is lost."""
        if at_once:
            self.socket.setsockopt(socket.SOL_SOCKET, socket.SO_LINGER, struct.pack("ii", 1, 0))
        self.socket.close()


class Given:
    """What one end of a link gives: records with a count that only rises."""

    def __init__(self, tag):
        self.tag, self.count = tag, 0

    def next(self, many):
        self.count += many
        return b"".join(RECORD.pack(self.tag, at) for at in range(self.count - many, self.count))


class Got:
    """What the other end has got. In a set-up the counts follow one on another, and none comes again after it."""

    def __init__(self, tag):
        self.tag, self.next, self.follows, self.rest, self.octets = tag, 0, False, b"", 0

    def set_up(self):
        self.follows, self.rest = False, b""

    def take(self, body):
        self.octets += len(body)
        body = self.rest + body
        whole = len(body) - len(body) % RECORD.size
        self.rest = body[whole:]
        for tag, count in RECORD.iter_unpack(body[:whole]):
            if tag != self.tag:
                raise Fault(f"octets of {tag} came to {self.tag}")
            if count < self.next or (self.follows and count != self.next):
                raise Fault(f"of {tag} came {count} where {self.next} was due")
            self.next, self.follows = count + 1, True


class End:
    """One end of a pair of hosts with a link."""

    def __init__(self, station, call, other, tags):
        self.line = Line(station, station.agw)
        self.call, self.other, self.given, self.got = call, other, Given(tags[0]), Got(tags[1])
        self.registered = self.up = self.over = False
        self.stalls_until = 0
        self.send("X")

    def send(self, kind, body=b""):
        self.line.send(written(Message(kind, self.call, "" if kind == "X" else self.other, body)))

    def hear(self, ticks):
        """Takes what has come, but while it stalls."""
        if ticks < self.stalls_until:
            return
        for message in self.line.messages():
            self.take(message)
        self.line.push()
        if self.line.ended:
            raise Fault(f"the host of {self.call} was closed")

    def take(self, message):
        if message.kind == "X":
            if message.source != self.call or message.body != b"\1":
                raise Fault(f"{self.call} was not registered: {message}")
            self.registered = True
            return
        if (message.source, message.to) != (self.other, self.call):
            raise Fault(f"to {self.call} came {message}")
        if message.kind == "C":
            self.up = True
            self.got.set_up()
        elif message.kind == "D":
            if not self.up:
                raise Fault(f"data before {self.call} was connected")
            self.got.take(message.body)
        elif message.kind == "d":
            self.over, self.up = True, False
        else:
            raise Fault(f"to {self.call} came {message}")

    def give(self, draws):
        """A body of data, sometimes in two parts."""
        body = self.given.next(draws.randrange(1, 100))
        message = written(Message("D", self.call, self.other, body))
        cut = draws.randrange(len(message)) if draws.random() < 0.3 else 0
        self.line.send(message[:cut])
        self.line.send(message[cut:])


class Pair:
    """Two hosts with a link between them, from coming to going."""

    def __init__(self, soak, number):
        self.soak, self.draws = soak, soak.draws
        calls = [f"P{number:05d}"[:6] + f"-{end + 1}" for end in range(2)]
        tags = (2 * number, 2 * number + 1)
        stations = soak.stations if self.draws.random() < 0.5 else soak.stations[::-1]
        self.ends = [
            End(stations[0], calls[0], calls[1], tags),
            End(stations[1], calls[1], calls[0], tags[::-1]),
        ]
        self.called, self.leaves_at = False, soak.ticks + self.draws.randrange(5, 240) * SECOND

    def step(self):
        """Goes on; tells whether it stays."""
        ticks = self.soak.ticks
        for end in self.ends:
            end.hear(ticks)
        if not self.called and all(end.registered for end in self.ends):
            self.ends[0].send("C")
            self.called = True
        for end in self.ends:
            if end.up and self.draws.random() < 0.002:
                end.give(self.draws)
            elif self.draws.random() < 0.0005:
                end.stalls_until = ticks + self.draws.randrange(60) * SECOND
        if ticks < self.leaves_at and not any(end.over for end in self.ends):
            return True
        return not self.leave()

    def leave(self):
        """Asks to be disconnected and waits for it, or goes with a message cut, or at once. Tells whether it has gone."""
        way = self.draws.random()
        if way < 0.005 or any(end.over for end in self.ends):
            return self.go(False)
        if way < 0.01:
            return self.go(True)
        if way < 0.015:
            for end in self.ends:
                end.line.send(written(Message("D", end.call, end.other, bytes(99)))[: self.draws.randrange(1, 134)])
            return self.go(False)
        if way < 0.05 and self.ends[0].up:
            self.ends[0].send("d")
        return False

    def go(self, at_once):
        for end in self.ends:
            self.soak.octets += end.got.octets
            end.line.close(at_once)
        self.soak.links += self.called
        return True


class Other:
    """A host without a link, from coming to going."""

    reads = True

    def __init__(self, soak, number):
        self.soak, self.draws = soak, soak.draws
        self.line = self.comes(self.draws.choice(soak.stations))
        self.came = soak.ticks
        self.leaves_at = soak.ticks + self.draws.randrange(1, 300) * SECOND

    def comes(self, station):
        """The connection."""
        return Line(station, station.agw)

    def acts(self):
        """What it does in a step."""

    def takes(self):
        """What it does with what has come."""
        self.line.messages()

    def step(self):
        """Goes on; tells whether it stays."""
        if self.reads:
            self.takes()
            if self.line.ended:
                age = (self.soak.ticks - self.came) / SECOND
                raise Fault(f"a {type(self).__name__} was closed after {age:.1f} s; {len(self.line.waiting)} octets waited")
        self.line.push()
        self.acts()
        if self.soak.ticks < self.leaves_at:
            return True
        self.line.close(self.draws.random() < 0.3)
        return False


class Listener(Other):
    """Wants raw frames, and is sent nothing else."""

    def comes(self, station):
        line = Line(station, station.agw)
        line.send(written(Message("k")))
        return line

    def takes(self):
        for message in self.line.messages():
            if message.kind != "K" or not 16 <= len(message.body) <= 1025 or message.body[0]:
                raise Fault(f"to a listener came {message}")
            self.soak.raw += 1


class Asker(Other):
    """Asks, and is answered in order, each once."""

    ANSWERS = {"R": 8, "G": 22, "g": 12, "y": 4, "Y": 4}

    def comes(self, station):
        self.asked = []
        return Line(station, station.agw)

    def acts(self):
        if self.draws.random() < 0.1:
            kind = self.draws.choice("RGgyYP")
            self.line.send(written(Message(kind, "N0CALL", "N1CALL")))
            self.asked += [kind] if kind in self.ANSWERS else []

    def takes(self):
        for message in self.line.messages():
            due = self.asked.pop(0) if self.asked else None
            if message.kind != due or (due != "G" and len(message.body) != self.ANSWERS[due]):
                raise Fault(f"asked {due}, and came {message}")


class KissTalker(Other):
    """Sends UI frames by KISS, some cut, some too long, and is sent whole frames."""

    def comes(self, station):
        return Line(station, station.kiss)

    def acts(self):
        if self.draws.random() < 0.002:
            head = bytes.fromhex("82a0a4a640406096707070704061" "03f0")
            text = head + self.draws.randbytes(self.draws.choice((1, 20, 200, 1100)))
            text = text.replace(b"\xdb", b"\xdb\xdd").replace(b"\xc0", b"\xdb\xdc")
            frame = b"\xc0\0" + text + b"\xc0"
            self.line.send(frame[: self.draws.randrange(1, len(frame))] if self.draws.random() < 0.3 else frame)

    def takes(self):
        self.line.pull()
        *pieces, self.line.input = self.line.input.split(b"\xc0")
        for piece in pieces:
            if piece and (piece[0] or len(piece) < 16):
                raise Fault(f"to a KISS host came {piece.hex()}")
            self.soak.raw += bool(piece)


class Staller(Other):
    """Wants raw frames, and reads none of them."""

    reads = False

    def comes(self, station):
        line = Line(station, station.agw, buffer=2048)
        line.send(written(Message("k")))
        return line


class Flooder(Other):
    """Asks, and reads no answer, until it is closed."""

    reads = False

    def comes(self, station):
        return Line(station, station.agw, buffer=2048)

    def acts(self):
        if len(self.line.waiting) < 100000:
            self.line.send(written(Message("G")) * ASKS)


class Rubbish(Other):
    """Sends octets that mean nothing; its station may close it."""

    reads = False

    def comes(self, station):
        return Line(station, self.draws.choice((station.agw, station.kiss)))

    def acts(self):
        self.line.pull()
        if self.draws.random() < 0.05:
            self.line.send(self.draws.randbytes(self.draws.randrange(1, 300)))


class Passer(Other):
    """Comes and goes at once, with half a head of a message or with nothing."""

    reads = False

    def comes(self, station):
        line = Line(station, self.draws.choice((station.agw, station.kiss)))
        line.send(written(Message("X", "N0CALL"))[: self.draws.randrange(36)])
        return line

    def acts(self):
        self.leaves_at = min(self.leaves_at, self.soak.ticks + SECOND)


OTHERS = (Listener, Asker, KissTalker, KissTalker, Staller, Staller, Flooder, Rubbish, Passer)


def memory(station):
    """The resident memory of a station, in KiB."""
    with open(f"/proc/{station.program.pid}/status") as status:
        return next(int(line.split()[1]) for line in status if line.startswith("VmRSS"))


def sockets(station):
    """How many connections a station has open."""
    folder, count = f"/proc/{station.program.pid}/fd", 0
    for name in os.listdir(folder):
        try:
            count += os.readlink(f"{folder}/{name}").startswith("socket:")
        except FileNotFoundError:  # closed since
            pass
    return count - 2


class Soak:
    """The whole run."""

    def __init__(self, given):
        self.given, self.draws = given, random.Random(given.seed)
        words = ["--mode", given.mode, *(["--wide"] if given.wide else []), "--digi", "WIDE1-1"]
        self.stations = [Station(given.tnc, "--seed", given.seed + at, *words) for at in range(2)]
        for station in self.stations:
            station.connect(station.kiss).close()
        self.noise = Noise(self.draws)
        self.heard = [bytes(STEP * TICK)] * 2
        self.hosts, self.made = [], 0
        self.ticks = self.octets = self.links = self.raw = 0
        self.peaks, self.filled, self.began = [], 0, time.monotonic()

    def air(self):
        """Both stations hear what the other one sent in the step before, with noise on it."""
        for station, heard in zip(self.stations, self.heard):
            station.program.stdin.write(heard)
        sent = [read_octets(station.program.stdout, STEP * TICK) for station in self.stations]
        self.heard = [self.noise.heard(sent[1]), self.noise.heard(sent[0])]
        self.ticks += STEP

    def fill(self):
        """Takes every place of both stations, has each connection sent more than its queue holds, and lets each be closed
        for what it does not read. What a station takes then is its filled memory."""
        places = range(self.given.connections)
        lines = [Line(station, station.agw, buffer=2048) for station in self.stations for _ in places]
        asks = written(Message("G")) * ASKS
        due, got = dict.fromkeys(lines, 0), dict.fromkeys(lines, 0)
        while min(got.values()) <= QUEUE:
            for line in lines:
                if not due[line]:
                    line.send(asks)
                    due[line] = ASKS
                line.push()
                answers = line.messages()
                due[line] -= len(answers)
                got[line] += sum(len(written(answer)) for answer in answers)
                if line.ended:
                    raise Fault("a host that reads was closed while the queues were filled")
            self.fill_step()
        while not all(line.ended for line in lines):
            for line in lines:
                line.send(asks if len(line.waiting) < QUEUE else b"")
            self.fill_step()
        for line in lines:
            line.close()
        self.filled = max(map(memory, self.stations))
        print(f"filled in {self.ticks / SECOND:.0f} s of sound: {self.filled} KiB", flush=True)
        self.ticks, self.began = 0, time.monotonic()

    def fill_step(self):
        if self.ticks > PATIENCE:
            raise Fault("the queues are not filled")
        self.air()

    def comes(self):
        """Perhaps a new host or pair. A station that is held back learns late that one has gone; until then it has its place."""
        pairs = sum(isinstance(host, Pair) for host in self.hosts)
        room = self.given.connections - max(map(sockets, self.stations))
        if room < 1 or self.draws.random() > 0.2:
            return
        self.made += 1
        if pairs < min(5, self.given.connections):
            self.hosts.append(Pair(self, self.made))
        elif self.given.connections > 2:
            self.hosts.append(self.draws.choice(OTHERS)(self, self.made))

    def pace(self):
        """Waits where the sound is ahead of its time."""
        if self.given.speed:
            ahead = self.ticks / SECOND / self.given.speed - (time.monotonic() - self.began)
            if ahead > 0:
                time.sleep(ahead)

    def look(self):
        """A line on how it stands, and the noise of the next minute."""
        sizes = [memory(station) for station in self.stations]
        self.peaks.append(max(sizes))
        closed = sum(station.report().count("closed ") for station in self.stations)
        print(
            f"{self.ticks // (60 * SECOND):4d} min: {sizes[0]} and {sizes[1]} KiB; {self.made} hosts came, {len(self.hosts)}"
            f" are here, {closed} closed; {self.links} links, {self.octets} octets; {self.raw} raw frames;"
            f" noise {self.noise.level}",
            flush=True,
        )
        self.noise.level = self.draws.choice(LEVELS)

    def run(self):
        ends = int(self.given.minutes * 60 * SECOND)
        self.fill()
        while self.ticks < ends:
            self.air()
            self.comes()
            self.hosts = [host for host in self.hosts if host.step()]
            self.pace()
            if self.ticks % (60 * SECOND) == 0:
                self.look()

    def ends(self):
        """Ends both stations, and tells what is wrong with them."""
        for station in self.stations:
            status, _, report = station.end()
            others = [line for line in report.splitlines() if not line.startswith(("closed ", "dropped "))]
            if status or others:
                yield f"status {status}, report {others[:5]}"
        peak = max(self.peaks, default=0)
        bound = 4 * 1024 + 320 * self.given.connections
        if peak > bound:
            yield f"memory of {peak} KiB, and the bound is {bound}"
        if peak > 1.05 * self.filled + 256:
            yield f"memory grew from {self.filled} to {peak} KiB"


def main(words):
    soak = Soak(wanted(words))
    wrong = []
    try:
        soak.run()
    except Fault as fault:
        wrong.append(f"after {soak.ticks} ticks: {fault}")
    except KeyboardInterrupt:
        print("ended before its time")
    wrong += soak.ends()
    for fault in wrong:
        print(f"FAILED: {fault}")
    took = time.monotonic() - soak.began
    peak = max(soak.peaks, default=0)
    print(
        f"{soak.ticks / 6000:.0f} minutes of sound in {took / 60:.1f}: {soak.made} hosts and pairs, {soak.links} links,"
        f" {soak.octets} octets by links, {soak.raw} raw frames, {soak.filled} KiB filled, at most {peak} KiB;"
        f" {len(wrong)} faults"
    )
    return 1 if wrong else 0


if __name__ == "__main__":
    sys.exit(main(sys.argv[1:]))
