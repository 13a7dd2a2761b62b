#!/usr/bin/env python3
"""Checks that `tnc decode` hears the same however its input is cut: the shipped recordings out of a pipe.

  scripts/checks/check_cuts.py [--tnc PROGRAM] [--seed N]

Each recording is written into a pipe in pieces of random lengths, of which most are odd or short, once for `decode` and
once for `decode --threads`. A piece is written once the one before it was read, so each read ends where a piece does. What
comes has to be the frames of the recording. It prints one line, and ends with status 0 where all is well."""
import argparse
import array
import fcntl
import glob
import os
import random
import subprocess
import sys
import termios
import threading
import time

TOP = os.path.dirname(os.path.dirname(os.path.dirname(os.path.abspath(__file__))))
LONGEST = (1, 7, 300, 5000)


def unread(pipe):
    """How many octets of a pipe are not read yet."""
    count = array.array("i", [0])
    fcntl.ioctl(pipe, termios.FIONREAD, count)
    return count[0]


def write_in_pieces(program, octets, draw):
    """Writes octets in pieces, each after the one before it was read, until the program ends. Tells how many there were."""
    at = pieces = 0
    while at < len(octets) and program.poll() is None:
        piece = octets[at : at + draw.randint(1, draw.choice(LONGEST))]
        program.stdin.write(piece)
        at, pieces = at + len(piece), pieces + 1
        while unread(program.stdin) and program.poll() is None:
            time.sleep(0)
    program.stdin.close()
    return pieces


def decoded(tnc, words, octets, draw):
    """What the program makes of octets in pieces, and their count."""
    with subprocess.Popen([tnc, "decode", *words], stdin=subprocess.PIPE, stdout=subprocess.PIPE, bufsize=0) as program:
        taken = []
        reader = threading.Thread(target=lambda: taken.append(program.stdout.read()))
        reader.start()
        pieces = write_in_pieces(program, octets, draw)
        reader.join()
    return b"".join(taken) if program.returncode == 0 else None, pieces


def main():
    reader = argparse.ArgumentParser()
    reader.add_argument("--tnc", default=f"{TOP}/bin/tnc")
    reader.add_argument("--seed", type=int, default=1)
    given = reader.parse_args()
    draw = random.Random(given.seed)
    wrong = runs = pieces = 0
    for recording in sorted(glob.glob(f"{TOP}/samples/*.raw")):
        with open(recording, "rb") as sound, open(f"{recording[:-4]}.frames", "rb") as lines:
            octets, frames = sound.read(), lines.read()
        for words in [], ["--threads"]:
            output, count = decoded(given.tnc, words, octets, draw)
            runs, pieces = runs + 1, pieces + count
            if output != frames:
                wrong += 1
                print(f"WRONG: decode {' '.join(words)} of {recording}, seed {given.seed}")
    print(f"{runs} recordings in {pieces} pieces, {wrong} wrong")
    sys.exit(wrong > 0)


if __name__ == "__main__":
    main()
