#!/usr/bin/env python3
"""Measures `tnc encode` for ten and for forty minutes of audio, beside other encoders in the same run.

  bench/encode.py        after scripts/build.sh

The frames are those of the shipped recordings, again and again. Each program runs five times, and the best run counts.
Printed are seconds of audio made a second of processor time, the peak memory, and the time against that of tnc for as
much audio. A peer that is not installed is left out, and said so. The plain encoder is bench/plain_encoder.c, built
here with cc -O2; it writes a transmission at a time, as tnc does, and makes the same samples, which is looked at first.
Dire Wolf's gen_packets makes the same frames with fewer flags, by its own sums, at 9600 samples a second."""
import subprocess
import sys
import tempfile

from measuring import RATE, TOP, best, compiled, installed, tell, tnc


def frames():
    names = ("direwolf-clean", "direwolf-long", "direwolf-noise-15db", "minimodem-clean")
    return "".join(open(f"{TOP}/samples/{name}.frames").read() for name in names)


def monitor_line(text):
    """A line of `tnc show` of a UI frame as gen_packets takes it: the path, a colon, and the text."""
    path, *words = text.split()
    return path + ":" + bytes.fromhex(words[-1]).decode("ascii").rstrip() + "\n"


def main():
    lines = frames()
    sound = subprocess.run([tnc(), "encode"], input=lines.encode(), capture_output=True, check=True).stdout
    shown = subprocess.run([tnc(), "show"], input=lines.encode(), capture_output=True, check=True).stdout.decode()
    messages = "".join(map(monitor_line, shown.splitlines()))
    with tempfile.TemporaryDirectory() as room:
        measure = compiled("measure", room)
        given, said, made = f"{room}/frames", f"{room}/messages", f"{room}/made.wav"
        programs = [("tnc encode", [tnc(), "encode"], False), ("tnc encode --wav", [tnc(), "encode", "--wav"], False)]
        plain = compiled("plain_encoder", room)
        if subprocess.run([plain], input=lines.encode(), capture_output=True).stdout != sound:
            sys.exit("the plain encoder makes other samples")
        programs.append(("plain C encoder", [plain], False))
        if installed("gen_packets", "gen_packets"):
            programs.append(("gen_packets", ["gen_packets", "-r", str(RATE), "-o", made, said], True))
        for minutes in (10, 40):
            times = round(60 * minutes / (len(sound) / 2 / RATE))
            for name, text in ((given, lines), (said, messages)):
                with open(name, "w") as it:
                    it.write(text * times)
            base = None
            for name, words, to_file in programs:
                run = best(measure, words, given)
                octets = len(open(made, "rb").read()) if to_file else run.octets
                audio = octets / 2 / RATE
                rate = tell(minutes, name, audio, run, base, f"{audio / 60:4.1f} minutes made")
                base = base or rate


main()
