#!/usr/bin/env python3
"""A terminal over AGWPE: calls a station, sends the lines of standard input, and prints what comes.

  scripts/tools/agw_call.py OWN OTHER [--port N] [--via CALL ..] [--wait SECONDS]

The TNC is at 127.0.0.1, port 8000 where no other is given. Lines end with CR on the air. After the end of standard input it
disconnects when nothing has come for so many seconds, 10 where no other number is given, if the other side does not do so
before. Its status is 0 if the station answered the call."""
import argparse
import os
import socket
import sys
import threading
import time

sys.path.append(os.path.join(os.path.dirname(__file__), "../shared"))
from agwpe import Message, read_all, repeaters, written


class Call:
    """A link to another station, from the call to its end."""

    def __init__(self, own, other, port):
        self.socket = socket.create_connection(("127.0.0.1", port))
        self.socket.settimeout(0.2)
        self.own, self.other, self.rest, self.came = own, other, b"", time.monotonic()
        self.connected = self.said_all = self.leaves = False

    def send(self, kind, body=b"", to=None):
        pid = 0xF0 if kind == "D" else 0
        self.socket.sendall(written(Message(kind, self.own, self.other if to is None else to, body, pid)))

    def messages(self):
        """The messages as they come, until the TNC goes; none now and then, so that its caller can look at the time."""
        while True:
            try:
                part = self.socket.recv(65536)
            except TimeoutError:
                yield None
                continue
            if not part:
                return
            self.came = time.monotonic()
            found, self.rest = read_all(self.rest + part)
            yield from found

    def say(self):
        """Sends the lines of standard input."""
        for line in sys.stdin:
            self.send("D", line.rstrip("\n").encode() + b"\r")
        self.came, self.said_all = time.monotonic(), True

    def take(self, message):
        """Prints what a message says; tells whether the call is over."""
        if message.kind == "X" and message.body != b"\1":
            print(f"{self.own} is no call, or another program has it", file=sys.stderr)
            return True
        if message.kind in ("C", "d", "D"):
            print(message.body.decode(errors="replace").replace("\r", "\n"), end="", flush=True)
        if message.kind == "C":
            self.connected = True
            threading.Thread(target=self.say, daemon=True).start()
        return message.kind == "d"

    def run(self, via, wait):
        """The whole call."""
        self.send("X", to="")
        if via:
            self.send("v", repeaters(via))
        else:
            self.send("C")
        for message in self.messages():
            if message is not None and self.take(message):
                return
            if self.said_all and not self.leaves and time.monotonic() - self.came > wait:
                self.leaves = True
                self.send("d")


def main():
    reader = argparse.ArgumentParser()
    reader.add_argument("own")
    reader.add_argument("other")
    reader.add_argument("--port", type=int, default=8000)
    reader.add_argument("--via", nargs="+", default=[])
    reader.add_argument("--wait", type=float, default=10)
    given = reader.parse_args()
    call = Call(given.own, given.other, given.port)
    call.run(given.via, given.wait)
    return 0 if call.connected else 1


if __name__ == "__main__":
    try:
        sys.exit(main())
    except (KeyboardInterrupt, BrokenPipeError):
        sys.exit(1)
