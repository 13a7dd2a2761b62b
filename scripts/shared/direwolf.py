"""A Dire Wolf with an air of pipes in the place of its sound card, beside a live station. For the checks.

Dire Wolf hears standard input. What it sends goes to an ALSA device that writes into a named pipe: a whole transmission at
once, after which Dire Wolf waits as long as it takes on the air. So the air has to keep the pace of sound."""
import os
import subprocess
import tempfile
import time

from air import TICK, connect, free_port, tick_octets

CARD = 'pcm.air {{ type file slave.pcm null file "{}" format raw }}\n'
SETTINGS = """ADEVICE stdin air
ARATE {rate}
CHANNEL 0
MODEM 1200
TXDELAY 20
TXTAIL 5
MYCALL {call}
AGWPORT {agw}
KISSPORT {kiss}
"""


class DireWolf:
    """A running `direwolf` in a fresh folder, with so many samples a second."""

    def __init__(self, call, *settings, rate=9600):
        self.kiss, self.agw = free_port(), free_port()
        self.home = tempfile.TemporaryDirectory(prefix="direwolf-", ignore_cleanup_errors=True)
        pipe = f"{self.home.name}/sent"
        os.mkfifo(pipe)
        self.write(".asoundrc", CARD.format(pipe))
        self.write("direwolf.conf", SETTINGS.format(rate=rate, call=call, agw=self.agw, kiss=self.kiss) + "\n".join(settings) + "\n")
        self.sent = os.open(pipe, os.O_RDONLY | os.O_NONBLOCK)
        self.queue = b""
        self.log = open(f"{self.home.name}/log", "w+b")
        self.program = subprocess.Popen(
            ["direwolf", "-t", "0", "-q", "d", "-c", "direwolf.conf"],
            cwd=self.home.name, env={**os.environ, "HOME": self.home.name},
            stdin=subprocess.PIPE, stdout=self.log, stderr=self.log, bufsize=0,
        )

    def write(self, name, text):
        with open(f"{self.home.name}/{name}", "w") as file:
            file.write(text)

    def connect(self, port):
        """A socket to one of its ports."""
        return connect(port)

    def take(self, count):
        """So many octets of the sound that it sends now, or silence."""
        try:
            while part := os.read(self.sent, 65536):
                self.queue += part
        except BlockingIOError:
            pass
        part, self.queue = self.queue[:count], self.queue[count:]
        return part.ljust(count, b"\0")

    def sound(self, count):
        """The same, as a station of this program is asked."""
        return self.take(count)

    def end(self):
        """Ends it, and tells what it printed."""
        self.program.stdin.close()
        try:
            self.program.wait(5)
        except subprocess.TimeoutExpired:
            self.program.kill()
            self.program.wait()
        os.close(self.sent)
        self.log.seek(0)
        text = self.log.read().decode(errors="replace")
        self.log.close()
        self.home.cleanup()
        return text


class Damage:
    """What reaches the other side: of each long transmission a tenth of a second is missing, at a drawn place. Where bits last
    so many times as long as at 1200 a second, so do the places."""

    def __init__(self, draws, wanted=True, longer=1, tick=TICK):
        self.draws, self.wanted, self.tick, self.since, self.count = draws, wanted, tick, 0, 0
        self.places = (80 * longer, 300 * longer)
        self.at = self.places[0]

    def heard(self, ticks):
        out = []
        for at in range(0, len(ticks), self.tick):
            tick = ticks[at : at + self.tick]
            if not any(tick):
                self.since = 0
            elif self.since == 0:
                self.at = self.draws.randrange(*self.places)
            self.since += any(tick)
            gone = self.wanted and self.at <= self.since < self.at + 10
            self.count += gone and self.since == self.at
            out.append(bytes(self.tick) if gone else tick)
        return b"".join(out)


class PacedAir:
    """Carries the samples of a station and a Dire Wolf to each other at the pace of sound."""

    def __init__(self, station, wolf, draws, damage=True, ticks=2, longer=1, rate=9600):
        self.tick = tick_octets(rate)
        self.station, self.wolf, self.count = station, wolf, ticks * self.tick
        self.to_wolf, self.to_station = (Damage(draws, damage, longer, self.tick) for _ in range(2))
        if rate == 48000:
            # the filter hears a sample once fifteen more have come, so without a tick ahead the station would be one behind
            station.program.stdin.write(bytes(self.tick))
        self.ticks, self.began = 0, time.monotonic()

    def step(self):
        """A few ticks, and the time that they take."""
        self.station.program.stdin.write(self.to_station.heard(self.wolf.take(self.count)))
        self.wolf.program.stdin.write(self.to_wolf.heard(self.station.sound(self.count)))
        self.ticks += self.count // self.tick
        ahead = self.ticks / 100 - (time.monotonic() - self.began)
        if ahead > 0:
            time.sleep(ahead)
