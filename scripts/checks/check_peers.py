#!/usr/bin/env python3
"""Checks `tnc serve` against Dire Wolf at the other end of the sound: connected sessions by REJ and SREJ, modulo 8 and 128,
called by either end, all at once and at the pace of sound, while parts of long transmissions are lost.

  scripts/checks/check_peers.py [--tnc PROGRAM] [--packets N] [--seed N] [--only N] [--times] [--log FOLDER] [--ptt] [--hf]
                                [--rate N]

In a session the host of each station gives so many packets, and the host of the other one has to get just these; then the
end that called disconnects. Modulo 128 the end that called asks by XID once, and is answered once. With --ptt the station keys
the dummy rig of a rigctld, and its sound goes out only while that is keyed; none may be cut off. With --hf both are on short
wave, at 300 bits a second. With --rate 48000, and without --ptt, the sound between them has so many samples a second, in place
of 9600. It prints a line for each session that failed, or for all, and ends with status 0 where all is well, and 77 if there
is to be a rigctld and none is installed."""
import argparse
import collections
import itertools
import os
import random
import sys
import threading

sys.path.append(os.path.join(os.path.dirname(__file__), "../shared"))
from air import Agw, Kiss, Station
from direwolf import DireWolf, PacedAir
from rigs import Rig, Transmitter, are_there

LIMIT = 100 * 100  # ticks: a session that takes longer has failed, or four times as long on short wave
SIZE = 48  # octets of a packet

SESSIONS = [
    (calls, mode, wide) for calls in ("tnc", "direwolf") for mode in ("rej", "srej") for wide in (False, True)
]


def wanted(words):
    """The options."""
    reader = argparse.ArgumentParser()
    reader.add_argument("--tnc", default="bin/tnc")
    reader.add_argument("--packets", type=int, default=12)
    reader.add_argument("--seed", type=int, default=1)
    reader.add_argument("--only", type=int)
    reader.add_argument("--times", action="store_true")
    reader.add_argument("--log")
    reader.add_argument("--ptt", action="store_true")
    reader.add_argument("--hf", action="store_true")
    reader.add_argument("--rate", type=int, choices=[9600, 48000], default=9600)
    given = reader.parse_args(words)
    if given.rate == 48000 and given.ptt:
        reader.error("--ptt is at 9600 samples a second")
    return given


class Session:
    """One connected session, and the hosts at its ends."""

    def __init__(self, given, number):
        self.calls, self.mode, self.wide = SESSIONS[number]
        draws = random.Random(given.seed * 100 + number)
        options = ["--mode", self.mode, *(["--wide"] if self.wide else []), "--monitor", "--seed", given.seed + number]
        options += ["--rate", given.rate]
        settings = ["FRACK 3"] if self.wide else ["MAXV22 0", "FRACK 3"]
        if given.hf:
            options += ["--hf"]
            settings += ["FRACK 10", "MODEM 300 1600:1800"]
        self.longer = 4 if given.hf else 1  # how many times as long as at 1200 bits a second a bit lasts
        transmitter = Transmitter(Rig().start()) if given.ptt else None
        self.station = Station(given.tnc, *options, transmitter=transmitter)
        self.wolf = DireWolf("DDDD", *settings, rate=given.rate)
        self.air = PacedAir(self.station, self.wolf, draws, longer=self.longer, rate=given.rate)
        self.kiss = Kiss(self.station)
        self.kiss.send(b"\x14", command=1)
        self.hosts = [Agw(self.station, "TTTT"), Agw(self.wolf, "DDDD")]
        if self.calls == "direwolf":
            self.hosts.reverse()
        self.packets = [[draws.randbytes(SIZE) for _ in range(given.packets)] for _ in range(2)]
        self.got = [b"", b""]

    def until(self, what, holds):
        """Lets the air go on until something holds."""
        while not holds():
            if self.air.ticks > LIMIT * self.longer:
                raise RuntimeError(f"gave up waiting: {what}")
            self.air.step()
            for host in self.hosts:
                host.pump()

    def both(self, kind):
        """Whether each host got a message of a kind since this call; and the bodies."""
        came = [[], []]

        def holds():
            for have, host in zip(came, self.hosts):
                have += host.take(kind)
            return all(came)

        self.until(f"both have {kind}", holds)
        return came

    def carry(self):
        """Both give all packets, and wait until all came."""
        for host, other, packets in zip(self.hosts, reversed(self.hosts), self.packets):
            for packet in packets:
                host.send("D", other.call, packet, 0xF0)

        def have_all():
            self.got = [got + b"".join(host.take("D")) for got, host in zip(self.got, self.hosts)]
            return all(len(got) >= len(packets) * SIZE for got, packets in zip(self.got, reversed(self.packets)))

        self.until("all octets", have_all)

    def run(self):
        """The whole session; tells what is wrong with it."""
        for host in self.hosts:
            host.send("X")
        self.both("X")
        caller, called = self.hosts
        caller.send("C", called.call)
        texts = [bodies[0].rstrip(b"\0") for bodies in self.both("C")]
        own = texts[0 if self.calls == "tnc" else 1]
        self.carry()
        caller.send("d", called.call)
        self.both("d")
        if self.got != [b"".join(packets) for packets in reversed(self.packets)]:
            yield "what came is not what was given"
        wanted = b"*** CONNECTED With Station DDDD\r" if self.calls == "tnc" else b"*** CONNECTED To Station DDDD\r"
        if own != wanted:
            yield f"the station's host was told {own}"


def told(session, number):
    """Runs one session; its line, and what is wrong with it."""
    try:
        wrong = list(session.run())
    except (RuntimeError, OSError) as error:
        wrong = [str(error)]
    status, _, report = session.station.end()
    log = session.wolf.end()
    if session.station.transmitter:
        wrong += session.station.transmitter.end()
    lines = [line.split() for line in report.splitlines() if line != "ptt ready"]
    frames = collections.Counter(f"{line[0]} {line[2]}" for line in lines if line[0] in ("rx", "tx") and len(line) > 2)
    others = [line for line in lines if line[0] not in ("rx", "tx")]
    if status or others:
        wrong.append(f"status {status}, report {others[:3]}")
    if session.wide and (frames["rx XID"], frames["tx XID"]) != (1, 1):
        wrong.append(f"{frames['rx XID']} XID heard and {frames['tx XID']} sent")
    kinds = ", ".join(f"{count} {kind}" for kind, count in sorted(frames.items()))
    line = (
        f"{number} {session.calls} calls, {session.mode}, modulo {128 if session.wide else 8}: {session.air.ticks / 100:.0f} s,"
        f" {session.air.to_wolf.count} and {session.air.to_station.count} damaged; {kinds}"
    )
    return line, wrong, report, log


def keep(folder, number, report, log):
    """Puts the frames and Dire Wolf's print into files."""
    for name, text in (("report", report), ("direwolf", log)):
        with open(f"{folder}/{number}.{name}", "w") as file:
            file.write(text)


def main(words):
    given = wanted(words)
    if given.ptt and not are_there():
        print("rigctld or rigctl is not installed")
        return 77
    numbers = range(len(SESSIONS)) if given.only is None else [given.only]
    answers = {}

    def one(number):
        answers[number] = told(Session(given, number), number)

    threads = [threading.Thread(target=one, args=(number,)) for number in numbers]
    for thread in threads:
        thread.start()
    for thread in threads:
        thread.join()
    failed = len(numbers) - len(answers)
    for number, (line, wrong, report, log) in sorted(answers.items()):
        if wrong or given.times:
            print(line)
        for it in wrong:
            print(f"FAILED: {it}")
        if given.log:
            keep(given.log, number, report, log)
        failed += bool(wrong)
    return 1 if failed else 0


if __name__ == "__main__":
    sys.exit(main(sys.argv[1:]))
