#!/usr/bin/env python3
"""Checks that no web page keys the radio: what a browser can be made to send to the ports of `tnc serve` closes its
connection, and no frame in it goes on the air. By clients of this script's own, and by curl and chromium where they are
installed.

  scripts/checks/check_web.py [--tnc PROGRAM] [--only NAME]

Each check has two fresh stations whose sound reaches each other. It prints what failed and what was left out, and ends with
status 0 where all is well."""
import argparse
import os
import shutil
import subprocess
import sys
import tempfile

sys.path.append(os.path.join(os.path.dirname(__file__), "../shared"))
from agwpe import Message, written
from hosts import World, run, same, ui_frame

FRAME = ui_frame("N0CALL", "APRS", b"from a web page")
LAST = ui_frame("N0CALL", "APRS", b"from a host")
KISS = b"\xc0\0" + FRAME + b"\xc0"
AGWPE = written(Message("K", body=b"\0" + FRAME))
METHODS = "GET HEAD POST PUT DELETE CONNECT OPTIONS TRACE PATCH PRI DANCE get kiss".split()


class Guest:
    """A connection to the KISS port that says anything."""

    def __init__(self, world):
        self.socket = world.stations[0].connect(world.stations[0].kiss)
        self.socket.setblocking(False)

    def say(self, octets):
        try:
            self.socket.sendall(octets)
        except OSError:
            pass  # it is closed already

    def is_shut(self):
        try:
            return self.socket.recv(1) == b""
        except BlockingIOError:
            return False
        except OSError:
            return True


def sends_last(world):
    """A host's frame is the only one that has gone on the air."""
    near, far = world.kiss(0), world.far
    near.send(LAST)
    same(world.frames(far, 1), [LAST])


def begun(tnc):
    """Two stations, and a KISS host of the far one."""
    world = World(tnc)
    world.far = world.kiss(1)
    return world


def shuts_the_web(tnc):
    """HTTP methods, those of other names too, and a TLS handshake, whole and octet by octet, with a frame."""
    world, guests = begun(tnc), []
    for beginning in [*(f"{it} / HTTP/1.1\r\n\r\n".encode() for it in METHODS), b"\x16\x03\x01\0\xf8\x01"]:
        whole, cut = Guest(world), Guest(world)
        guests += [whole, cut]
        whole.say(beginning + KISS)
        for octet in beginning + KISS:
            cut.say(bytes([octet]))
            world.go(1)
    world.until("each is closed", lambda: all(it.is_shut() for it in guests))
    sends_last(world)
    world.end(closed=len(guests))


def takes_texts(tnc):
    """What only looks like a method is passed over, and the frames after it are sent."""
    world, far = begun(tnc), 0
    texts = [b"kiss on\r", b"KISS ON\r", b"INT KISS\r", b"GETTY\r", b"PO", b"\xc0POST / HTTP/1.1\r\n", b"\x16\x04"]
    for beginning in texts:
        guest = Guest(world)
        guest.say(beginning)
        world.go(2)
        guest.say(KISS)
        far += 1
        same(world.frames(world.far, far), [FRAME] * far)
        same(guest.is_shut(), False)
    world.end()


def with_curl(tnc):
    """curl posts a KISS frame to the KISS port, by HTTP/1 and by HTTP/2, and a message of AGWPE to the AGWPE port."""
    world = begun(tnc)
    port, agw = world.stations[0].kiss, world.stations[0].agw
    asked = [(port, KISS, words) for words in ([], ["--http2-prior-knowledge"], ["-X", "PUT"], ["-X", "DANCE"])]
    asked.append((agw, AGWPE, []))
    told = subprocess.run(["curl", "--version"], capture_output=True, text=True).stdout
    if "HTTP2" not in told:
        print("skipped: curl by HTTP/2 (this curl has none)")
        del asked[1]
    for to, body, words in asked:
        words = ["curl", "-s", "--max-time", "60", *words, "--data-binary", "@-", f"http://127.0.0.1:{to}/"]
        program = subprocess.Popen(words, stdin=subprocess.PIPE, stdout=subprocess.DEVNULL)
        program.stdin.write(body)
        program.stdin.close()
        world.until("curl ends", lambda: program.poll() is not None)
        same(program.returncode != 0, True)
    sends_last(world)
    world.end(closed=len(asked))


PAGE = """<!doctype html>
<form id="form" method="post" enctype="text/plain" action="http://127.0.0.1:%d/"><textarea name="a"></textarea></form>
<script>
const frame = new Uint8Array(%s), message = new Uint8Array(%s);
const form = document.getElementById("form");
form.elements[0].value = String.fromCharCode(...frame);
const posts = [["%d", frame], ["%d", message]].map(([port, body]) =>
    fetch("http://127.0.0.1:" + port + "/", { method: "POST", mode: "no-cors", body }).catch(() => 0));
Promise.all(posts).then(() => form.submit());
</script>
"""


OWN_PAGE = """<!doctype html>
<script>
fetch("http://127.0.0.1:%d/", { method: "DANCE", body: new Uint8Array(%s) }).catch(() => 0);
</script>
"""


def browse(world, page, closed, *words):
    """Lets chromium load a page until so many connections are closed. It may ask again after one that closed."""
    with tempfile.TemporaryDirectory(ignore_cleanup_errors=True) as home:
        with open(os.path.join(home, "page.html"), "w") as file:
            file.write(page)
        words = ["chromium", "--headless", "--no-sandbox", "--disable-gpu", f"--user-data-dir={home}/data", *words]
        program = subprocess.Popen(
            [*words, "--virtual-time-budget=5000", "--dump-dom", f"file://{home}/page.html"],
            stdout=subprocess.DEVNULL, stderr=subprocess.DEVNULL, start_new_session=True,
        )
        try:
            world.pause = 0.005
            world.until(f"{closed} are closed", lambda: world.stations[0].report().count("closed ") >= closed)
        finally:
            program.kill()
            program.wait()
    sends_last(world)
    world.end(closed=world.stations[0].report().count("closed "))


def with_chromium(tnc):
    """A page in chromium posts a KISS frame and a message of AGWPE by `fetch`, and then a form."""
    world = begun(tnc)
    port, agw = world.stations[0].kiss, world.stations[0].agw
    browse(world, PAGE % (port, list(KISS), list(AGWPE), port, agw), 3)


def with_own_page_in_chromium(tnc):
    """A page that may ask as one of the port's own origin does, as after its name was made to mean 127.0.0.1, asks by a
    method of its own. (Chromium is told to hold every page for such a one.)"""
    world = begun(tnc)
    browse(world, OWN_PAGE % (world.stations[0].kiss, list(KISS)), 1, "--disable-web-security")


def main():
    reader = argparse.ArgumentParser()
    reader.add_argument("--tnc", default="bin/tnc")
    reader.add_argument("--only", default="")
    given = reader.parse_args()
    checks = [shuts_the_web, takes_texts]
    for program, check in (
        ("curl", with_curl), ("chromium", with_chromium), ("chromium", with_own_page_in_chromium),
    ):
        if shutil.which(program):
            checks.append(check)
        else:
            print(f"skipped: {program} at the ports ({program} is not installed)")
    results = [run(check, given.tnc, False) for check in checks if given.only in check.__name__]
    return 0 if all(results) else 1


if __name__ == "__main__":
    sys.exit(main())
