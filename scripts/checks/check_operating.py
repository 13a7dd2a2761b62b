#!/usr/bin/env python3
"""Whether docs/OPERATING.md and docs/HOSTS.md show what happens: each block marked `console` is one session of bash, whose
commands run one after another in a folder with bin/, samples/ and scripts/, and have to print the lines below them.

  scripts/checks/check_operating.py [PROGRAM]      bin/tnc, where no other is named

A line `...` on the page stands for any lines. A block whose commands call a program that is not installed is left out, and
said so. The sound card of `arecord` and `aplay` is one that ALSA makes of files, at the pace of sound where a station hears
it, and the ports of the pages become free ones."""
import os
import re
import shutil
import subprocess
import sys
import tempfile

sys.path.append(os.path.join(os.path.dirname(__file__), "../shared"))
from air import free_port

TOP = os.path.dirname(os.path.dirname(os.path.dirname(os.path.abspath(__file__))))
PAGES = ("docs/OPERATING.md", "docs/HOSTS.md")
OTHERS = (
    "sox", "arecord", "aplay", "nc", "socat", "kissutil", "aclients", "appserver", "aprx", "pat-winlink", "systemd-analyze",
    "rigctld", "rigctl",
)
PORTS = ("8000", "8001", "8002", "8010", "8011", "8080", "4532")
CARD = """pcm.!default {{
  type asym
  capture.pcm {{ type file slave.pcm null file /dev/null infile "{heard}" format raw }}
  playback.pcm {{ type file slave.pcm null file "{played}" format raw }}
}}
"""
# What stands in front of the card's programs on the path: the program itself, and its sound at the pace of sound.
PACED = """#!/bin/sh
exec {real} "$@" | python3 -c '
import sys, time
began, count = time.monotonic(), 0
while part := sys.stdin.buffer.read(960):
    sys.stdout.buffer.write(part)
    sys.stdout.buffer.flush()
    count += len(part)
    time.sleep(max(0, count / 2 / {rate} - (time.monotonic() - began)))
'
"""


def blocks(text):
    """The console blocks of a page: lists of a command and the lines that it prints."""
    for block in re.findall(r"^```console\n(.*?)^```$", text, re.M | re.S):
        steps = []
        for line in block.splitlines():
            if line.startswith("$ "):
                steps.append((line[2:], []))
            else:
                steps[-1][1].append(line)
        yield steps


def folder(room, tnc):
    """Makes the folder that a block runs in."""
    os.mkdir(f"{room}/bin")
    os.symlink(tnc, f"{room}/bin/tnc")
    for name in ("samples", "scripts", "man", "systemd"):
        os.symlink(f"{TOP}/{name}", f"{room}/{name}")


def card(room, called):
    """Makes the sound card, and its programs for a block."""
    rate = re.search(r"\barecord .*?-r (\d+)", called)
    rate = int(rate[1]) if rate else 9600
    heard = f"{TOP}/samples/direwolf-clean.raw"
    if "--ptt" in called:
        # a station that is to send at once hears nobody, but a click each five seconds
        heard = f"{room}/silence.raw"
        with open(heard, "wb") as file:
            file.write((b"\1\0" + bytes(95_998)) * 2)
    if rate != 9600:
        form = ["-e", "signed", "-b", "16", "-c", "1"]
        words = ["sox", "-q", "-t", "raw", "-r", "9600", *form, heard, "-t", "raw", "-r", str(rate), f"{room}/heard.raw"]
        subprocess.run(words, check=True)
        heard = f"{room}/heard.raw"
    with open(f"{room}/.asoundrc", "w") as file:
        file.write(CARD.format(heard=heard, played=f"{room}/played.raw"))
    os.makedirs(f"{room}/card", exist_ok=True)
    path = f"{room}/card/arecord"
    if os.path.exists(path):
        os.remove(path)
    if "serve" in called and shutil.which("arecord"):
        with open(path, "w") as file:
            file.write(PACED.format(real=shutil.which("arecord"), rate=rate))
        os.chmod(path, 0o755)


def with_ports(text, ports):
    return re.sub(r"\b(?:80(?:[01][0-2]|80)|4532)\b", lambda it: ports.get(it[0], it[0]), text)


def session(room, commands):
    """What each command of a block prints. What it left running is ended with it, also what passes over a signal."""
    mark = "-- command --"
    script = "".join(f"{command}\necho '{mark}'\n" for command in commands)
    script += "kill $(jobs -p) 2>/dev/null; sleep 0.2; kill -KILL -- -$$\n"
    env = {**os.environ, "HOME": room, "PATH": f"{room}/card:{os.environ['PATH']}:/usr/sbin"}
    told = subprocess.run(["bash", "-c", script], cwd=room, env=env, text=True, stdin=subprocess.DEVNULL,
                          stdout=subprocess.PIPE, stderr=subprocess.STDOUT, timeout=120, start_new_session=True).stdout
    return [part.splitlines() for part in told.split(f"{mark}\n")[:-1]]


def fits(told, wanted):
    """Whether lines are those of the page, where `...` stands for any."""
    pattern = "".join(r"(?:.*\n)*" if line == "..." else re.escape(line) + "\n" for line in wanted)
    return re.fullmatch(pattern, "".join(f"{line}\n" for line in told)) is not None


def checked(room, page, steps):
    """Runs a block; how much of it is wrong."""
    called = " ".join(command for command, _ in steps)
    missing = [it for it in OTHERS if re.search(rf"(^|[ |(]){it} ", called) and not shutil.which(it)]
    if missing:
        print(f"skipped: {page}: {steps[0][0]} ({', '.join(missing)} is not installed)")
        return 0
    card(room, called)
    ports = {port: str(free_port()) for port in PORTS}
    told = session(room, [with_ports(command, ports) for command, _ in steps])
    wrong = 0
    for (command, wanted), lines in zip(steps, told):
        if not fits(lines, [with_ports(line, ports) for line in wanted]):
            wrong += 1
            print(f"{page}: $ {command}\n  prints {lines[:6]}\n  and not {wanted[:6]}")
    return wrong + len(steps) - len(told)


def main():
    tnc = os.path.abspath(sys.argv[1] if len(sys.argv) > 1 else f"{TOP}/bin/tnc")
    wrong = run = 0
    with tempfile.TemporaryDirectory() as room:
        folder(room, tnc)
        for page in PAGES:
            for steps in blocks(open(f"{TOP}/{page}").read()):
                wrong += checked(room, page, steps)
                run += len(steps)
    if not run:
        sys.exit("check_operating.py: no command was found")
    sys.exit(wrong > 0)


main()
