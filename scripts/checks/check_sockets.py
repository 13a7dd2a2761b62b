#!/usr/bin/env python3
"""Looks up in the system's tables which sockets a running station has: its two ports, on 127.0.0.1 or where the words
bind them, or the one that they leave, and nothing else.

  scripts/checks/check_sockets.py [--tnc PROGRAM] [--kiss N] [--agw N]

Linux tells them in /proc. It exits with 0 if the station has exactly these, and tells what it has if not."""
import argparse
import os
import subprocess
import sys
import time
from pathlib import Path

LISTENS = "0A"
TABLES = ("tcp", "tcp6", "udp", "udp6", "raw", "raw6")


def sockets_of(process):
    """Each socket of a process: its table, its address and its state."""
    ours = set()
    for link in Path(f"/proc/{process}/fd").iterdir():
        try:
            ours.add(os.readlink(link))
        except FileNotFoundError:
            pass
    found = []
    for table in TABLES:
        for line in Path(f"/proc/{process}/net/{table}").read_text().splitlines()[1:]:
            fields = line.split()
            if f"socket:[{fields[9]}]" in ours:
                address, port = fields[1].split(":")
                found.append((table, address, int(port, 16), fields[3]))
    return sorted(found)


def found_of(tnc, words, wanted):
    """The sockets of a station with these words, once they are as wanted or ten seconds have passed, and some ticks later."""
    program = subprocess.Popen([tnc, "serve", *words], stdin=subprocess.PIPE, stdout=subprocess.DEVNULL)
    try:
        for _ in range(100):
            if sockets_of(program.pid) == wanted:
                break
            time.sleep(0.1)
        # What opens later would show here.
        program.stdin.write(bytes(192 * 20))
        program.stdin.flush()
        time.sleep(0.3)
        return sockets_of(program.pid)
    finally:
        program.stdin.close()
        program.wait(20)


def main():
    words = argparse.ArgumentParser(description=__doc__.split("\n")[0])
    words.add_argument("--tnc", default="bin/tnc")
    words.add_argument("--kiss", type=int, default=18102)
    words.add_argument("--agw", type=int, default=18103)
    given = words.parse_args()
    kiss, agw = ("--kiss", str(given.kiss)), ("--agw", str(given.agw))
    # addresses as Linux prints them: the octets from the last to the first
    here, everywhere = "0100007F", "00000000"
    for row, address, ports in (
        ((*kiss, *agw), here, (given.kiss, given.agw)),
        (("--kiss", "none", *agw), here, (given.agw,)),
        (("--kiss=none", "--agw=none"), here, ()),
        ((*kiss, *agw, "--bind", "0.0.0.0"), everywhere, (given.kiss, given.agw)),
    ):
        wanted = sorted(("tcp", address, port, LISTENS) for port in ports)
        found = found_of(given.tnc, row, wanted)
        if found != wanted:
            print("serve", *row, "wanted", wanted, "found", found)
            sys.exit(1)


if __name__ == "__main__":
    main()
