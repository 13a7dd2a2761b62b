#!/usr/bin/env python3
"""Lists the AGWPE messages between host programs and a TNC, in words: a proxy that passes every octet on.

  scripts/tools/agw_log.py LISTEN [PORT] [--host HOST]      hosts connect to LISTEN; the TNC is at PORT (8000)

A line is the time in seconds, the number of the connection, `>` for a message to the TNC and `<` for one to the host, the
kind and what it means, the calls, and the body. It runs until it is stopped."""
import argparse
import os
import socket
import sys
import threading
import time

sys.path.append(os.path.join(os.path.dirname(__file__), "../shared"))
from agwpe import in_words, read_all


class Log:
    """Lines on standard output, whole ones, from all connections."""

    def __init__(self):
        self.lock, self.began = threading.Lock(), time.monotonic()

    def say(self, number, text):
        with self.lock:
            print(f"{time.monotonic() - self.began:9.3f} {number} {text}", flush=True)


def carry(log, number, source, sink, from_host):
    """Lists the messages that come one way, and passes their octets on at once; then ends the other side's input."""
    rest, mark = b"", ">" if from_host else "<"
    try:
        while part := source.recv(65536):
            messages, rest = read_all(rest + part)
            for message in messages:
                log.say(number, f"{mark} {in_words(message, from_host)}")
            sink.sendall(part)
        if rest:
            log.say(number, f"{mark} {len(rest)} octets that are no whole message")
        log.say(number, f"{mark} ended")
        sink.shutdown(socket.SHUT_WR)
    except OSError as error:
        log.say(number, f"{mark} {error}")


def serve(log, number, host, tnc):
    """One host program's connection."""
    try:
        station = socket.create_connection(tnc)
    except OSError as error:
        log.say(number, f"the TNC does not answer: {error}")
        host.close()
        return
    for side in (host, station):
        side.setsockopt(socket.IPPROTO_TCP, socket.TCP_NODELAY, 1)
    log.say(number, "connected")
    back = threading.Thread(target=carry, args=(log, number, station, host, False), daemon=True)
    back.start()
    carry(log, number, host, station, True)
    back.join()
    host.close()
    station.close()


def main():
    reader = argparse.ArgumentParser()
    reader.add_argument("listen", type=int)
    reader.add_argument("port", type=int, nargs="?", default=8000)
    reader.add_argument("--host", default="127.0.0.1")
    given = reader.parse_args()
    log, number = Log(), 0
    with socket.create_server(("127.0.0.1", given.listen)) as listener:
        log.say(number, f"listens on {given.listen}, for the TNC on {given.port}")
        while True:
            host, _ = listener.accept()
            number += 1
            words = (log, number, host, (given.host, given.port))
            threading.Thread(target=serve, args=words, daemon=True).start()


if __name__ == "__main__":
    try:
        main()
    except KeyboardInterrupt:
        pass
