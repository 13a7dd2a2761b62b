#!/usr/bin/env python3
"""Whether the documents show what the program prints: each command of a block marked `console` is run, one after
another in a folder with bin/tnc and samples/, and has to print the lines below it.

  scripts/checks/check_readme.py [PROGRAM]      bin/tnc, where no other is named

A block whose commands call a program that is not installed, or a command that the program does not have, is left out, and said so. The sound card of `arecord` and
`aplay` is one that ALSA makes of files: it hears a recording, and what it plays is decoded."""
import os
import re
import shutil
import subprocess
import sys
import tempfile

TOP = os.path.dirname(os.path.dirname(os.path.dirname(os.path.abspath(__file__))))
PAGES = ("README.md", "docs/COMMANDS.md", "docs/RECEIVING.md", "docs/BENCH.md")
OTHERS = ("sox", "atest", "multimon-ng", "arecord", "aplay")
CARD = """pcm.!default {{
  type asym
  capture.pcm {{ type file slave.pcm null file /dev/null infile "{heard}" format raw }}
  playback.pcm {{ type file slave.pcm null file "{played}" format raw }}
}}
"""


def blocks(text):
    """The console blocks of a page: lists of a command and the lines that it prints."""
    for block in re.findall(r"^```console\n(.*?)^```$", text, re.M | re.S):
        steps = []
        for line in block.splitlines():
            if line.startswith("$ "):
                steps.append((line[2:], []))
            else:
                steps[-1][1].append(line)
        yield steps


def resampled(given, rate, taken, other):
    """The raw samples of a file at another rate."""
    form = ["-e", "signed", "-b", "16", "-c", "1"]
    subprocess.run(["sox", "-q", "-t", "raw", "-r", rate, *form, given, "-t", "raw", "-r", other, taken], check=True)


def with_card(command, room):
    """Makes the sound card of a command that uses one, and gives the file of what it plays and its rate."""
    used = re.search(r"\b(arecord|aplay) .*?-r (\d+)", command)
    if not used:
        return None
    heard, played = f"{TOP}/samples/direwolf-clean.raw", f"{room}/played.raw"
    if used[2] != "9600":
        resampled(heard, "9600", f"{room}/heard.raw", used[2])
        heard = f"{room}/heard.raw"
    with open(f"{room}/.asoundrc", "w") as it:
        it.write(CARD.format(heard=heard, played=played))
    return (played, used[2]) if used[1] == "aplay" else None


def plays(card, room):
    """Whether what the card played has the frames of hello.hex."""
    played, rate = card
    if rate != "9600":
        resampled(played, rate, f"{room}/played-9600.raw", "9600")
        played = f"{room}/played-9600.raw"
    with open(played, "rb") as given:
        told = subprocess.run([f"{room}/bin/tnc", "decode"], stdin=given, stdout=subprocess.PIPE).stdout
    return told == open(f"{room}/hello.hex", "rb").read()


def commands_missing(tnc, called):
    """The commands of the program that a block uses and the program refuses, as `bench` was before it came."""
    used = set(re.findall(r"bin/tnc (bench)\b", called))
    return [it for it in used if subprocess.run([tnc, it, "--seed", "1", "--octets", "0"], capture_output=True).returncode == 1]


def main():
    tnc = os.path.abspath(sys.argv[1] if len(sys.argv) > 1 else f"{TOP}/bin/tnc")
    wrong = run = 0
    with tempfile.TemporaryDirectory() as room:
        os.mkdir(f"{room}/bin")
        os.symlink(tnc, f"{room}/bin/tnc")
        os.symlink(f"{TOP}/samples", f"{room}/samples")
        for page in PAGES:
            for steps in blocks(open(f"{TOP}/{page}").read()):
                called = " ".join(command for command, _ in steps)
                missing = [it for it in OTHERS if re.search(rf"(^|[ |]){it} ", called) and not shutil.which(it)]
                missing += commands_missing(tnc, called)
                if missing:
                    print(f"skipped: {page}: {steps[0][0]} ({', '.join(missing)} is not there)")
                    continue
                for command, wanted in steps:
                    card = with_card(command, room)
                    told = subprocess.run(["bash", "-c", command], cwd=room, env={**os.environ, "HOME": room}, text=True,
                                          stdin=subprocess.DEVNULL, stdout=subprocess.PIPE,
                                          stderr=subprocess.STDOUT).stdout.splitlines()
                    run += 1
                    if card and not plays(card, room):
                        wrong += 1
                        print(f"{page}: $ {command}\n  does not play the frames of hello.hex")
                    if told != wanted:
                        wrong += 1
                        print(f"{page}: $ {command}\n  prints {told[:4]}\n  and not {wanted[:4]}")
    if not run:
        sys.exit("check_readme.py: no command was found")
    sys.exit(wrong > 0)


main()
