"""What the checks of hostile use give to the program: a row for each command, form and end that it has."""
import collections
import os
import struct
import subprocess
import sys

sys.path.append(os.path.join(os.path.dirname(__file__), "../shared"))
from air import free_port
from refusing import TOP

# The words, the octets of input, and a name.
Row = collections.namedtuple("Row", "name words octets")


def sample(name, count=None):
    """The first octets of a shipped recording, or of its frames."""
    with open(f"{TOP}/samples/{name}", "rb") as file:
        return file.read() if count is None else file.read(count)


def wav_of(pcm):
    """A WAV file of these samples."""
    head = struct.pack("<4sI4s4sIHHIIHH4sI", b"RIFF", 36 + len(pcm), b"WAVE", b"fmt ", 16, 1, 1, 9600, 19200, 2, 16, b"data",
                       len(pcm))
    return head + pcm


def made(tnc, words, octets):
    """What the program makes of octets."""
    return subprocess.run([tnc, *words], input=octets, stdout=subprocess.PIPE, check=True).stdout


def rows(tnc, times=1):
    """Every command but `serve`, in each of its forms, and with an input that is wrong; those of many reads so many times as
    long."""
    sound = sample("direwolf-clean.raw", 90000)
    lines = b"".join(sample("direwolf-clean.frames").splitlines(True)[:4])
    more = b"".join(sample(f"{it}.frames") for it in ("direwolf-clean", "direwolf-long", "minimodem-clean")) * times
    kiss = made(tnc, ["decode", "--kiss"], sound)
    wav = wav_of(sound)
    short = ["--opening", "2", "--closing", "1"]
    yield Row("decode", ["decode"], sound)
    yield Row("decode, threads", ["decode", "--threads"], sound)
    yield Row("decode, sensitive", ["decode", "--sensitive"], sound)
    yield Row("decode to KISS", ["decode", "--kiss"], sound)
    yield Row("decode of WAV", ["decode", "--wav"], wav)
    yield Row("decode of a cut WAV", ["decode", "--wav"], wav[:-1])
    yield Row("decode of no WAV", ["decode", "--wav"], b"RIFX" + wav[4:])
    yield Row("encode", ["encode"], lines)
    yield Row("encode, short flags", ["encode", *short], more[: 6000 * times])
    yield Row("encode of KISS", ["encode", "--kiss"], kiss)
    yield Row("encode, joined", ["encode", "--join"], lines)
    yield Row("encode to WAV", ["encode", "--wav"], lines)
    yield Row("encode to WAV, joined", ["encode", "--wav", "--join"], lines)
    yield Row("encode of a bad line", ["encode"], lines + b"00 1\n" + lines)
    yield Row("encode of a short line", ["encode"], lines + b"0011\n" + lines)
    yield Row("show", ["show"], more)
    yield Row("show modulo 128", ["show", "--modulo", "128"], more[:4000])
    yield Row("show of a long line", ["show"], lines + b"4" * 2049)
    yield Row("loop", ["loop", "--seed", "7", "--frames", "3"], b"")
    yield Row("loop, rough, threads", ["loop", "--seed", "7", "--frames", "3", "--rough", "--threads"], b"")
    yield Row("bench", ["bench", "--seed", "7", "--octets", "0", "--full"], b"")
    yield Row("no command", ["decode", "--no"], b"")


def stations():
    """`serve` on six seconds of a recording, with no host."""
    sound = sample("direwolf-clean.raw", 115200)
    ports = lambda: ["serve", "--kiss", str(free_port()), "--agw", str(free_port())]
    yield Row("serve", ports(), sound)
    yield Row("serve, monitoring, a digipeater", [*ports(), "--monitor", "--digi", "ECHO", "--wide"], sound)
