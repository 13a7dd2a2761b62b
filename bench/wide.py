#!/usr/bin/env python3
"""Measures `tnc decode --rate 48000` on ten minutes of audio, beside the same audio at 9600 in the same run.

  bench/wide.py                  after scripts/build.sh; sox makes the audio
  bench/wide.py --than PROGRAM   and beside another build of tnc

The audio is the shipped recordings without noise, one after another, brought to 48,000 samples a second. Each program runs
five times on it, and the best run counts. Printed are seconds of audio a second of processor time, the peak memory, and the
time against that of the first line."""
import subprocess
import sys
import tempfile

from measuring import PCM, RATE, TOP, best, compiled, tell, tnc

MINUTES = 10


def main():
    with tempfile.TemporaryDirectory() as room:
        measure = compiled("measure", room)
        narrow, wide = f"{room}/audio.9600", f"{room}/audio.48000"
        whole = b"".join(open(f"{TOP}/samples/{name}.raw", "rb").read() for name in ("direwolf-clean", "minimodem-clean"))
        wanted = 2 * RATE * 60 * MINUTES
        with open(narrow, "wb") as it:
            it.write((whole * (wanted // len(whole) + 1))[:wanted])
        subprocess.run(["sox", "-q", *PCM, narrow, "-t", "raw", "-r", "48000", wide], check=True)
        programs = [("tnc decode --rate 48000", [tnc(), "decode", "--rate", "48000"], wide)]
        if sys.argv[1:2] == ["--than"]:
            programs.append(("of the other build", [sys.argv[2], "decode", "--rate", "48000"], wide))
        programs.append(("tnc decode", [tnc(), "decode"], narrow))
        base = None
        for name, words, given in programs:
            run = best(measure, words, given)
            rate = tell(MINUTES, name, 60 * MINUTES, run, base, f"{run.lines} lines")
            base = base or rate


main()
