#!/usr/bin/env python3
"""Measures `tnc serve` at the pace of sound: the load of one processor, the memory, and the latencies.

  bench/serve.py [--tnc PROGRAM] [--seconds N] [--frames N]      bin/tnc, after scripts/build.sh

Load: the station hears silence, noise, or a recording, and has no host or 64 of them; it is the processor time of the whole
process against the time that goes by, the median of slices of five seconds. How many threads it starts is counted with
strace in a run of its own, and what one costs is measured by bench/threads.c; so their share is told apart.
Latency: from the moment at which the last sample of a frame's closing flag is handed to the station to that at which a host
has the frame; and from the moment at which a host has sent a frame, the channel being free and the persistence 255, to that
at which the first sample of the transmission is read; and from two questions at once to the second answer. Medians and
greatest of so many frames."""
import argparse
import os
import random
import re
import statistics
import subprocess
import sys
import tempfile
import threading
import time

from measuring import RATE, TOP, compiled, installed

sys.path.insert(0, f"{TOP}/scripts/shared")
from agwpe import Message, written  # noqa: E402
from air import TICK, Agw, Kiss, Station  # noqa: E402

FRAME = bytes.fromhex("82a0a4a64040609c6e988a9a406103f068656c6c6f")
SLICE = 5  # seconds


def wanted():
    """The options."""
    reader = argparse.ArgumentParser()
    reader.add_argument("--tnc", default=f"{TOP}/bin/tnc")
    reader.add_argument("--seconds", type=int, default=30)
    reader.add_argument("--frames", type=int, default=100)
    return reader.parse_args()


class Paced:
    """A station that is handed a tick of sound each 10 milliseconds, and whose sound is read as it comes."""

    def __init__(self, tnc, *words):
        self.station = Station(tnc, *words)
        self.station.connect(self.station.kiss).close()
        self.due = time.monotonic()
        self.keyed, self.silent = None, threading.Event()
        self.reader = threading.Thread(target=self.read, daemon=True)
        self.reader.start()

    def read(self):
        """Keeps the time of the first sample of a transmission."""
        while tick := self.station.program.stdout.read(TICK):
            if not any(tick):
                self.silent.set()
            elif self.silent.is_set():
                self.keyed = time.monotonic()
                self.silent.clear()

    def hear(self, tick):
        """Hands it a tick, at its time."""
        self.due += 0.01
        ahead = self.due - time.monotonic()
        if ahead > 0:
            time.sleep(ahead)
        self.station.program.stdin.write(tick)
        return time.monotonic()

    def seconds(self):
        """The processor seconds that it has used, with those of threads that have ended."""
        with open(f"/proc/{self.station.program.pid}/stat") as file:
            times = file.read().rsplit(")", 1)[1].split()[11:13]
        return sum(map(int, times)) / os.sysconf("SC_CLK_TCK")

    def memory(self):
        """Its resident memory in MiB."""
        with open(f"/proc/{self.station.program.pid}/status") as file:
            return int(re.search(r"VmRSS:\s*(\d+)", file.read())[1]) / 1024

    def end(self):
        status, _, report = self.station.end()
        if status or report:
            print(f"status {status}, report {report[:200]}")


def ticks_of(sound):
    """The whole ticks of this sound, again and again."""
    while True:
        for at in range(0, len(sound) - TICK + 1, TICK):
            yield sound[at : at + TICK]


def noise():
    """Ten seconds of noise."""
    draws = random.Random(1)
    return b"".join(int(draws.gauss(0, 3000)).to_bytes(2, "little", signed=True) for _ in range(10 * RATE))


def load(tnc, name, sound, hosts, seconds):
    """A line on the load, and the share of one processor."""
    paced = Paced(tnc)
    for _ in range(hosts // 2):
        Kiss(paced.station)
        Agw(paced.station, "N0CALL").send("k")
    ticks, shares = ticks_of(sound), []
    for _ in range(seconds // SLICE):
        before, began = paced.seconds(), time.monotonic()
        for _ in range(100 * SLICE):
            paced.hear(next(ticks))
        shares.append((paced.seconds() - before) / (time.monotonic() - began))
    share = statistics.median(shares)
    print(f"load   {name:10} {hosts:2} hosts: {100 * share:5.2f} % of a processor, {min(shares) * 100:.2f} to"
          f" {max(shares) * 100:.2f}; {paced.memory():.1f} MiB")
    paced.end()
    return share


def threads_a_second(tnc):
    """How many threads it starts in a second of sound."""
    with tempfile.NamedTemporaryFile() as told:
        words = ["-f", "-c", "-o", told.name, "-e", "trace=clone,clone3", tnc]
        program = subprocess.Popen(["strace", *words, "serve", "--kiss", "18100", "--agw", "18101"],
                                   stdin=subprocess.PIPE, stdout=subprocess.DEVNULL)
        for _ in range(500):
            program.stdin.write(bytes(TICK))
            program.stdin.flush()
            time.sleep(0.01)
        program.stdin.close()
        program.wait()
        counts = re.findall(r"^\s*[\d.]+\s+[\d.]+\s+\d+\s+(\d+)\s.*clone", told.read().decode(), re.M)
    return sum(map(int, counts)) / 5


def to_host(tnc, frames):
    """Seconds from the end of a frame on the air to its octets at a host, one for each frame."""
    paced = Paced(tnc)
    host = Kiss(paced.station)
    host.socket.setblocking(True)
    sound = subprocess.run([tnc, "encode", "--closing", "20"], input=FRAME.hex().encode(), stdout=subprocess.PIPE).stdout
    end = len(sound) - 19 * 128
    sound = sound.ljust(-(-len(sound) // TICK) * TICK + 20 * TICK, b"\0")
    came, found = [], []

    def wait():
        while host.socket.recv(4096):
            came.append(time.monotonic())

    threading.Thread(target=wait, daemon=True).start()
    for _ in range(frames):
        count = len(came)
        for at in range(0, len(sound), TICK):
            handed = paced.hear(sound[at : at + TICK])
            if at < end <= at + TICK:
                ended = handed
        if len(came) == count + 1:
            found.append(came[-1] - ended)
    paced.end()
    return found


def to_air(tnc, frames):
    """Seconds from a host's frame to the first sample of its transmission, one for each frame."""
    paced = Paced(tnc)
    host = Kiss(paced.station)
    host.send(b"\xff", command=2)
    host.send(b"\0", command=1)
    draws, found = random.Random(1), []
    for _ in range(frames):
        for _ in range(60):
            paced.hear(bytes(TICK))
        paced.keyed = None
        time.sleep(draws.random() * 0.01)
        sent = time.monotonic()
        host.send(FRAME)
        for _ in range(40):
            paced.hear(bytes(TICK))
        if paced.keyed:
            found.append(paced.keyed - sent)
    paced.end()
    return found


def in_a_row(tnc, rounds):
    """Seconds from two questions in one write to the second answer, after questions and answers one by one, when the host's
    system acknowledges late; one for each round."""
    paced = Paced(tnc)
    line = paced.station.connect(paced.station.agw)
    ask, size, found = written(Message("R")), 44, []

    def feed():
        while rounds > len(found):
            paced.hear(bytes(TICK))

    def wait(count):
        while count > 0:
            count -= len(line.recv(min(count, 4096)))

    feeder = threading.Thread(target=feed)
    feeder.start()
    while len(found) < rounds:
        for _ in range(20):
            line.sendall(ask)
            wait(size)
        began = time.monotonic()
        line.sendall(ask * 2)
        wait(2 * size)
        found.append(time.monotonic() - began)
    feeder.join()
    paced.end()
    return found


def tell(name, seconds, wanted):
    """A line on latencies."""
    if not seconds:
        print(f"latency {name}: nothing came")
        return
    seconds = sorted(1000 * it for it in seconds)
    near = seconds[int(len(seconds) * 0.95)]
    print(f"latency {name}: median {statistics.median(seconds):.1f} ms, 95 % below {near:.1f}, at most"
          f" {seconds[-1]:.1f}; {len(seconds)} of {wanted} frames")


def main():
    given = wanted()
    with open(f"{TOP}/samples/direwolf-clean.raw", "rb") as file:
        recording = file.read()
    print("load average before:", os.getloadavg())
    shares = [
        load(given.tnc, name, sound, hosts, given.seconds)
        for name, sound, hosts in (
            ("silence", bytes(TICK), 0), ("noise", noise(), 0), ("recording", recording, 0), ("noise", noise(), 64),
        )
    ]
    if installed("the share of threads", "strace", "cc"):
        with tempfile.TemporaryDirectory() as room:
            cost = float(subprocess.check_output([compiled("threads", room)]))
        count = threads_a_second(given.tnc)
        part = count * cost / 1e6
        print(f"threads: {count:.0f} a second, {cost:.1f} microseconds each: {100 * part:.2f} % of a processor;"
              f" without them {', '.join(f'{100 * (share - part):.2f}' for share in shares)} %")
    tell("air to host", to_host(given.tnc, given.frames), given.frames)
    tell("host to air", to_air(given.tnc, given.frames), given.frames)
    tell("answers in a row", in_a_row(given.tnc, given.frames // 2), given.frames // 2)


main()
