#!/usr/bin/env python3
"""Measures `tnc decode` on ten and on forty minutes of audio, beside other decoders in the same run.

  bench/decode.py        after scripts/build.sh

The audio is the shipped recordings without noise, one after another. Each program runs five times on it, and the best
run counts. Printed are seconds of audio a second of processor time, the peak memory, and the time against that of tnc.
Then come ten minutes of white noise, and what each receiver of tnc takes of a sample, beside what the sums and the bits of
the eight lanes alone would take: of the audio at 9600 and at 48,000 samples a second, and of the same frames at 300 bits a
second. Last comes what threads give, in seconds on the wall: of all
processors, and of one.
A peer that is not installed is left out, and said so. The plain decoder is bench/plain_decoder.c, built here with
cc -O2; it reads its input whole, of which tnc keeps nothing. The audio of multimon-ng is resampled for it beforehand. At
its best atest also tries to mend each frame by one bit, and multimon-ng keeps its lines until many have come."""
import array
import os
import random
import subprocess
import tempfile

from measuring import PCM, RATE, TOP, best, clock_rate, compiled, installed, tell, tnc


def audio(seconds):
    """Raw PCM of so many seconds."""
    whole = b"".join(open(f"{TOP}/samples/{name}.raw", "rb").read() for name in ("direwolf-clean", "minimodem-clean"))
    wanted = 2 * RATE * seconds
    return (whole * (wanted // len(whole) + 1))[:wanted]


def noise(seconds):
    """White noise of so many seconds, the same each time."""
    draws = random.Random(1)
    samples = (max(-32768, min(32767, round(draws.gauss(0, 6000)))) for _ in range(RATE * seconds))
    return array.array("h", samples).tobytes()


def short_wave(seconds):
    """Raw PCM of so many seconds of the frames of a recording, sent at 300 bits a second."""
    lines = open(f"{TOP}/samples/direwolf-clean.frames", "rb").read()
    whole = subprocess.run([tnc(), "encode", "--hf"], input=lines, capture_output=True, check=True).stdout
    wanted = 2 * RATE * seconds
    return (whole * (wanted // len(whole) + 1))[:wanted]


def written(name, octets):
    with open(name, "wb") as it:
        it.write(octets)
    return name


def beside_others(room, measure):
    """The table of decoders."""
    raw, wav, other = f"{room}/audio.raw", f"{room}/audio.wav", f"{room}/audio.22050"
    programs = [("tnc decode", [tnc(), "decode"], raw), ("tnc decode --wav", [tnc(), "decode", "--wav"], wav)]
    programs.append(("tnc decode --fx25", [tnc(), "decode", "--fx25"], raw))
    programs.append(("tnc decode --sensitive", [tnc(), "decode", "--sensitive"], raw))
    programs.append(("plain C decoder", [compiled("plain_decoder", room)], raw))
    if installed("atest", "atest", "sox"):
        programs.append(("atest (Dire Wolf)", ["atest", "-B", "1200", wav], raw))
        programs.append(("atest -F 1", ["atest", "-B", "1200", "-F", "1", wav], raw))
    if installed("multimon-ng", "multimon-ng", "sox"):
        words = ["multimon-ng", "-q", "-t", "raw", "-a", "AFSK1200", "-"]
        programs.append(("multimon-ng", words, other))
        programs.append(("multimon-ng -n", [words[0], "-n", *words[1:]], other))
    for minutes in (10, 40):
        written(raw, audio(60 * minutes))
        if installed("WAV and other rates", "sox"):
            subprocess.run(["sox", "-q", *PCM, raw, wav], check=True)
            subprocess.run(["sox", "-q", *PCM, raw, "-t", "raw", "-r", "22050", other], check=True)
        else:
            programs = [it for it in programs if it[2] == raw]
        base = None
        for name, words, given in programs:
            run = best(measure, words, given)
            rate = tell(minutes, name, 60 * minutes, run, base, f"{run.lines} lines")
            base = base or rate
    written(raw, noise(600))
    base = None
    for words in (["decode"], ["decode", "--fx25"], ["decode", "--sensitive"]):
        run = best(measure, [tnc(), *words], raw)
        rate = tell(10, " ".join(["tnc", *words]), 600, run, base, "noise")
        base = base or rate


# What the eight lanes cannot do without, in cycles a sample: about ten for the four sums of a window, and five for its bit.
LIMIT = 15


def cycles(room, measure):
    """What each receiver takes of a sample."""
    raw = written(f"{room}/audio.raw", audio(600))
    receivers = [(["decode"], raw), (["decode", "--sensitive"], raw), (["decode", "--fx25"], raw)]
    receivers.append((["decode", "--hf"], written(f"{room}/audio.hf", short_wave(600))))
    if installed("48,000 samples a second", "sox"):
        wide = f"{room}/audio.48000"
        subprocess.run(["sox", "-q", *PCM, raw, "-t", "raw", "-r", "48000", wide], check=True)
        receivers += [(["decode", "--rate", "48000"], wide), (["decode", "--rate", "48000", "--sensitive"], wide)]
    for words, given in receivers:
        run = best(measure, [tnc(), *words], given)
        taken = run.seconds * clock_rate() / (os.path.getsize(given) / 2)
        print(f"{' '.join(['tnc', *words]):37} {taken:7.1f} cycles a sample, {taken / LIMIT:6.1f} times the limit of the"
              f" eight lanes  {run.peak / 1024:6.1f} MiB")


def threads(room, measure):
    """What threads give."""
    raw = written(f"{room}/audio.raw", audio(600))
    for place, front in (("all processors", []), ("one processor", ["taskset", "-c", "0"])):
        for words in (["decode"], ["decode", "--sensitive"]):
            without, on = (best(measure, [*front, tnc(), *words, *more], raw, lambda it: it.wall)
                           for more in ([], ["--threads"]))
            print(f"{' '.join(['tnc', *words]):23} on {place:14} {1000 * without.wall:6.0f} ms on the wall,"
                  f" with --threads {1000 * on.wall:6.0f}: {on.wall / without.wall:4.2f} times,"
                  f" and {on.seconds / without.seconds:4.2f} times the processor time, {on.peak / 1024:3.1f} MiB")


def main():
    with tempfile.TemporaryDirectory() as room:
        measure = compiled("measure", room)
        beside_others(room, measure)
        cycles(room, measure)
        threads(room, measure)


main()
