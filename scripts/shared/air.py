"""Two live stations joined by an air of pipes, and host programs on their ports. For the checks of `tnc serve`.

The samples that one station sends are the samples that the other one hears, a few ticks later. A transmission can be lost
whole: its samples are heard as silence.
"""
import os
import random
import socket
import struct
import subprocess
import tempfile
import time

TICK = 192  # octets of a tick: 96 samples of 16 bits
TAIL = 7  # ticks for which a transmitter stays on after the last one with sound: a step, and some more


def free_port(kept=[]):
    """A port of this machine that nobody has. No script of this folder is given it as long as this one runs: a name that only
    one of them can have is kept for it. It is below those that the system gives to whoever asks for any."""
    while True:
        port = random.SystemRandom().randrange(20000, 32000)
        name = socket.socket(socket.AF_UNIX)
        try:
            name.bind(f"\0sigwolleth port {port}")
            with socket.socket() as it:
                it.setsockopt(socket.SOL_SOCKET, socket.SO_REUSEADDR, 1)
                it.bind(("127.0.0.1", port))
            kept.append(name)
            return port
        except OSError:
            name.close()


def tick_octets(rate):
    """The octets of a tick at so many samples a second."""
    return TICK * rate // 9600


def connect(port, program=None):
    """A socket to a port of a program that opens it as it starts."""
    for _ in range(5000):
        if program and program.poll() is not None:
            raise RuntimeError("a station has ended")
        try:
            return socket.create_connection(("127.0.0.1", port), timeout=10)
        except OSError:
            time.sleep(0.02)
    raise RuntimeError(f"nobody listens on port {port}")


class Station:
    """A running `tnc serve`. Its report is kept in a file, so that it may be of any length, and Ctrl-C does not reach it. Its
    sound goes out through a transmitter, if it has one."""

    def __init__(self, tnc, *words, env=None, transmitter=None):
        self.kiss, self.agw = free_port(), free_port()
        self.transmitter = transmitter
        if "--seed" not in words:
            words = ("--seed", 1, *words)  # so that each run is the same
        words = [tnc, "serve", "--kiss", str(self.kiss), "--agw", str(self.agw), *map(str, words)]
        if transmitter:
            words += ["--ptt", str(transmitter.rig.port), "--ptt-tail", str(TAIL)]
        pipe, self.report_file = subprocess.PIPE, tempfile.TemporaryFile()
        self.program = subprocess.Popen(
            words, stdin=pipe, stdout=pipe, stderr=self.report_file, bufsize=0, start_new_session=True, env=env
        )

    def connect(self, port):
        """A socket to one of its ports."""
        return connect(port, self.program)

    def sound(self, count):
        """So many octets that go out."""
        sent = read_all(self.program.stdout, count)
        return self.transmitter.played(sent) if self.transmitter else sent

    def end(self):
        """Ends its sound, and tells its exit status and its report."""
        self.program.stdin.close()
        rest = self.program.stdout.read()
        return self.program.wait(), rest, self.report()

    def report(self):
        """What it has reported so far, but `dead sound`: in a script nobody may be on the air for ten seconds."""
        file = self.report_file.fileno()
        return os.pread(file, os.fstat(file).st_size, 0).decode().replace("dead sound\n", "")


def read_all(pipe, count):
    """Exactly so many octets."""
    parts = []
    while count:
        part = pipe.read(count)
        if not part:
            raise RuntimeError("a station has ended")
        parts.append(part)
        count -= len(part)
    return b"".join(parts)


class Loss:
    """What reaches the other side: each transmission whole, or silence in its place."""

    def __init__(self, percent, draws, tick=TICK):
        self.percent, self.draws, self.tick = percent, draws, tick
        self.sending, self.lost, self.sent_count, self.lost_count = False, False, 0, 0

    def heard(self, ticks):
        """Each transmission begins with a tick that is not silent, and ends with one that is."""
        out = []
        for at in range(0, len(ticks), self.tick):
            tick = ticks[at : at + self.tick]
            silent = not any(tick)
            if not silent and not self.sending:
                self.lost = self.draws.randrange(100) < self.percent
                self.sent_count += 1
                self.lost_count += self.lost
            self.sending = not silent
            out.append(bytes(self.tick) if self.lost else tick)
        return b"".join(out)


class Air:
    """Carries the samples of two stations to each other, so many ticks at a time."""

    def __init__(self, a, b, ticks=5, loss=0, seed=1):
        self.a, self.b, self.count = a, b, ticks * TICK
        draws = random.Random(seed)
        self.from_a, self.from_b = Loss(loss, draws), Loss(loss, draws)
        self.to_a = self.to_b = bytes(self.count)
        self.ticks = 0

    def step(self):
        """Both stations hear what the other sent in the step before."""
        self.a.program.stdin.write(self.to_a)
        self.b.program.stdin.write(self.to_b)
        sent_a, sent_b = self.a.sound(self.count), self.b.sound(self.count)
        self.to_b, self.to_a = self.from_a.heard(sent_a), self.from_b.heard(sent_b)
        self.ticks += self.count // TICK


class Agw:
    """A host program that speaks AGWPE."""

    def __init__(self, station, call):
        self.socket = station.connect(station.agw)
        self.socket.setblocking(False)
        self.call, self.input, self.messages, self.waiting = call, b"", [], b""

    def send(self, kind, to="", body=b"", pid=0):
        field = lambda text: text.encode().ljust(10, b"\0")
        head = struct.pack("<B3xsxBx10s10sII", 0, kind.encode(), pid, field(self.call), field(to), len(body), 0)
        self.waiting += head + body

    def pump(self):
        """Sends what waits as far as it goes, and takes in whole messages."""
        try:
            while self.waiting:
                self.waiting = self.waiting[self.socket.send(self.waiting) :]
        except BlockingIOError:
            pass
        try:
            while part := self.socket.recv(65536):
                self.input += part
        except BlockingIOError:
            pass
        while len(self.input) >= 36:
            length = struct.unpack_from("<I", self.input, 28)[0]
            if len(self.input) < 36 + length:
                break
            kind = chr(self.input[4])
            source = self.input[8:18].split(b"\0")[0].decode()
            self.messages.append((kind, source, self.input[36 : 36 + length]))
            self.input = self.input[36 + length :]

    def take(self, kind):
        """The bodies of all messages of a kind so far, which are then gone."""
        found = [body for what, _, body in self.messages if what == kind]
        self.messages = [it for it in self.messages if it[0] != kind]
        return found


class Kiss:
    """A host program that speaks KISS."""

    def __init__(self, station):
        self.socket = station.connect(station.kiss)
        self.socket.setblocking(False)
        self.input = b""

    def send(self, frame, command=0):
        text = bytes([command]) + frame
        text = text.replace(b"\xdb", b"\xdb\xdd").replace(b"\xc0", b"\xdb\xdc")
        self.socket.sendall(b"\xc0" + text + b"\xc0")

    def frames(self):
        """All frames so far."""
        return self.items(0)

    def items(self, command):
        """What has come so far by a command of port 0."""
        try:
            while part := self.socket.recv(65536):
                self.input += part
        except BlockingIOError:
            pass
        parts = [it for it in self.input.split(b"\xc0")[:-1] if it]
        plain = [it.replace(b"\xdb\xdc", b"\xc0").replace(b"\xdb\xdd", b"\xdb") for it in parts]
        return [it[1:] for it in plain if it[0] == command]
