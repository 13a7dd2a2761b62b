#!/usr/bin/env python3
"""Checks `tnc call`: through a live station to a host of another one, over sound, and what it says if there is no such host.

  scripts/checks/check_call.py [--tnc PROGRAM] [--direwolf] [--appserver]

Two stations are joined by an air of pipes, as fast as they go. The called one has a host that greets, answers a line, and hangs
up on `bye`. With --appserver that host is Dire Wolf's, and with --direwolf the caller's station is a Dire Wolf; these two go at
the pace of sound and belong to scripts/check_live.sh. It ends with status 0 if all is well."""
import argparse
import os
import random
import subprocess
import sys
import threading

sys.path.append(os.path.join(os.path.dirname(__file__), "../shared"))
from air import Agw, Air, Station, free_port

LIMIT = 100 * 600  # ticks


def wanted(what, holds):
    if not holds:
        raise SystemExit(f"FAILED: {what}")


class Caller:
    """A running `tnc call` whose text is given at once."""

    def __init__(self, tnc, port, text, *words):
        words = [tnc, "call", "--agw", str(port), "--from", "AAAA", "--to", "BBBB", *map(str, words)]
        pipe = subprocess.PIPE
        self.program = subprocess.Popen(words, stdin=pipe, stdout=pipe, stderr=pipe)
        self.came = None
        self.waiter = threading.Thread(target=self.wait, args=(text,), daemon=True)
        self.waiter.start()

    def wait(self, text):
        self.came = self.program.communicate(text)

    def ended(self):
        """The status, the output and the report, once it has ended."""
        return (self.program.returncode, self.came[0], self.came[1].decode()) if self.came else None


class Host:
    """A host of the called station: it greets, answers each line, and hangs up on `bye`."""

    def __init__(self, station):
        self.agw, self.text = Agw(station, "BBBB"), b""
        self.agw.send("X")

    def pump(self):
        self.agw.pump()
        if self.agw.take("C"):
            self.agw.send("D", "AAAA", b"Hello\r", 0xF0)
        for part in self.agw.take("D"):
            self.text += part
        while b"\r" in self.text:
            line, self.text = self.text.split(b"\r", 1)
            if line == b"bye":
                self.agw.send("d", "AAAA")
            else:
                self.agw.send("D", "AAAA", b"You said: " + line + b"\r", 0xF0)


def over_two_stations(tnc, text, answer, *words):
    """A call over two of our stations, a tenth of whose transmissions are lost."""
    a, b = Station(tnc, "--seed", 5), Station(tnc, "--seed", 6)
    air, host = Air(a, b, 5, 10, 3), Host(b)
    for _ in range(4):
        air.step()
        host.pump()
    caller = Caller(tnc, a.agw, text, *words)
    while not caller.ended() and air.ticks < LIMIT:
        air.step()
        host.pump()
    status, output, report = caller.ended() or (None, b"", "")
    wanted(f"{words}: status 0, {answer!r} ({status}, {output!r}, {report!r})",
           (status, output, report) == (0, answer, f"got {len(answer)}\n"))
    a.end(), b.end()


def with_direwolf(tnc, by_appserver, by_direwolf):
    """A call with Dire Wolf's host at the other end, or its station at this one, at the pace of sound."""
    from direwolf import DireWolf, PacedAir

    station, wolf = Station(tnc, "--seed", 7), DireWolf("DDDD", "MAXV22 0", "FRACK 3")
    air = PacedAir(station, wolf, random.Random(1), damage=False)
    # The host is at the station that is called; the caller is a client of the other one.
    called, calls = (station, wolf) if by_direwolf else (wolf, station)
    called.connect(called.agw).close()
    calls.connect(calls.agw).close()
    server = host = None
    if by_appserver:
        server = subprocess.Popen(["appserver", "-h", "127.0.0.1", "-p", str(called.agw), "BBBB"],
                                  stdin=subprocess.DEVNULL, stdout=subprocess.DEVNULL, stderr=subprocess.DEVNULL)
    else:
        host = Host(called)

    def until(holds, most):
        end = air.ticks + most
        while not holds() and air.ticks < end:
            air.step()
            if host:
                host.pump()

    def answered(text, expect, wanted_part):
        caller = Caller(tnc, calls.agw, text, "--expect", expect)
        until(caller.ended, 100 * 90)
        if not caller.ended():
            caller.program.kill()
            caller.waiter.join()
        status, output, report = caller.ended()
        wanted(f"{text!r} over Dire Wolf ({status}, {output[:300]!r}, {report!r})",
               status == 0 and wanted_part in output and report == f"got {len(output)}\n")
        return len(output)

    try:
        until(lambda: False, 300)
        if by_appserver:
            # It takes a packet for a line. The caller hangs up once it was told enough, and then the host does.
            counts = [answered(b"help\r", 60, b"Welcome!"), answered(b"bye\r", 1000000, b"Welcome!")]
        else:
            counts = [answered(b"one\rbye\r", 1000000, b"You said: one\r")]
    finally:
        if server:
            server.kill(), server.wait()
        station.end(), wolf.end()
    print(f"a call {'by' if by_direwolf else 'to'} Dire Wolf: {' and '.join(map(str, counts))} octets")


def main():
    words = argparse.ArgumentParser(description=__doc__.split("\n")[0])
    words.add_argument("--tnc", default="bin/tnc")
    words.add_argument("--direwolf", action="store_true")
    words.add_argument("--appserver", action="store_true")
    given = words.parse_args()
    if given.direwolf or given.appserver:
        with_direwolf(given.tnc, given.appserver, given.direwolf)
        return
    # The other end hangs up; then this end does, once enough has come, and once the text has gone.
    over_two_stations(given.tnc, b"one\rtwo\rbye\r", b"Hello\rYou said: one\rYou said: two\r", "--expect", 1000000)
    over_two_stations(given.tnc, b"one\r", b"Hello\rYou said: one\r", "--expect", len(b"Hello\rYou said: one\r"))
    nobody = subprocess.run([given.tnc, "call", "--agw", str(free_port()), "--from", "AAAA", "--to", "BBBB"],
                            input=b"", capture_output=True)
    wanted(f"status 11 ({nobody.returncode}, {nobody.stderr!r})",
           (nobody.returncode, nobody.stdout, nobody.stderr) == (11, b"", b"tnc: no host\n"))
    print("two calls over two stations, and one without a host")


if __name__ == "__main__":
    sys.exit(main())
