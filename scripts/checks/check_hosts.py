#!/usr/bin/env python3
"""Checks how `tnc serve` treats host programs: each message of AGWPE and each KISS command that docs/HOSTS.md names, by
clients of this script's own; or, with --programs, by other people's programs where they are installed.

  scripts/checks/check_hosts.py [--tnc PROGRAM] [--programs] [--only NAME] [--times]

Each check has two fresh stations whose sound reaches each other. This script's own clients go in step with the sound, which
is the only clock then; other programs have clocks of their own, and are waited for. It prints what failed and what was left
out, and ends with status 0 where all is well."""
import argparse
import concurrent.futures
import os
import random
import re
import struct
import sys
import time

sys.path.append(os.path.join(os.path.dirname(__file__), "../shared"))
from agwpe import Message, repeaters, written
from air import Station
from host_programs import with_programs
from hosts import Client, RAW, World, little, run, same, ui_frame


def answers(tnc):
    """R, G, g, y and Y are answered, also for port 255; P, H while nobody was heard, and kinds that are none are not."""
    world = World(tnc)
    host = world.client(0)
    for port in (0, 1, 255):
        same(world.ask(host, "R", port=port), Message("R", body=little(1, 8)))
        same(world.ask(host, "G", port=port), Message("G", body=b"1;Port1 sound card;\0"))
        same(world.ask(host, "g", port=port), Message("g", body=bytes([0, 255, 5, 2, 63, 10, 4, 0, 1, 0, 0, 0])))
        same(world.ask(host, "y", port=port), Message("y", body=little(0)))
        host.send("Y", "N1CALL", source="N0CALL", port=port)
        same(world.one(host, "Y"), Message("Y", "N0CALL", "N1CALL", little(0)))
    host.send("P", body=b"user".ljust(255, b"\0") + b"word".ljust(255, b"\0"))
    for kind in "HUISTZaz0\0\xff":
        host.send(kind, body=b"what?")
    world.quiet(host)
    world.end()


def settings(tnc):
    """What KISS sets is what g tells; another port's settings are passed over."""
    world = World(tnc, "--window", "7")
    host, kiss = world.client(0), world.kiss(0)
    for command, value in ((1, 7), (2, 128), (3, 20), (4, 9), (5, 1), (6, 1), (0x11, 99), (0x22, 99)):
        kiss.send(bytes([value]), command=command)
    kiss.send(b"", command=2)
    world.go(5)
    same(world.ask(host, "g"), Message("g", body=bytes([0, 255, 7, 9, 128, 20, 7, 0, 1, 0, 0, 0])))
    world.end()


def registers(tnc):
    """X and x: a call belongs to one host, until it gives it back or leaves."""
    world = World(tnc)
    one, other = world.client(0), world.client(0)

    def asks(host, call, answer):
        host.send("X", source=call)
        same(world.one(host, "X"), Message("X", call, body=answer))

    asks(one, "N0CALL", b"\1")
    asks(one, "N0CALL", b"\1")
    asks(other, "N0CALL", b"\0")
    asks(other, "N0CALL-15", b"\1")
    for bad in ("", "N0CALL-16", "TOOLONGX", "N0-CALL", "N 0CA"):
        asks(one, bad, b"\0")
    other.send("x", source="N0CALL")
    asks(other, "N0CALL", b"\0")
    one.send("x", source="N0CALL")
    world.go(5)
    asks(other, "N0CALL", b"\1")
    other.socket.close()
    world.hosts.remove(other)
    world.go(10)
    asks(one, "N0CALL", b"\1")
    asks(one, "N0CALL-15", b"\1")
    world.end()


def sends_unproto(tnc):
    """M and V: the frames that the other station hears, octet for octet; what does not fit is passed over."""
    world = World(tnc)
    host, far = world.client(0), world.kiss(1)
    for pid, sent in ((0, 0xF0), (0xCF, 0xCF)):
        host.send("M", "APRS", b"hello", pid, "N0CALL-1")
    for count in range(9):
        calls = [f"R{it}-{it}" for it in range(count)]
        host.send("V", "APRS", repeaters(calls) + b"via", 0, "N0CALL", port=255)
    wanted = [ui_frame("N0CALL-1", "APRS", b"hello", pid) for pid in (0xF0, 0xCF)]
    wanted += [ui_frame("N0CALL", "APRS", b"via", 0xF0, [f"R{it}-{it}" for it in range(count)]) for count in range(9)]
    same(world.frames(far, len(wanted)), wanted)
    host.send("V", "APRS", bytes([9]) + bytes(90), 0, "N0CALL")
    host.send("V", "APRS", bytes([2]) + bytes(19), 0, "N0CALL")
    host.send("V", "APRS", b"", 0, "N0CALL")
    host.send("M", "APRS", b"x", 0, "no call")
    host.send("M", "", b"x", 0, "N0CALL")
    host.send("M", "APRS", bytes(938), 0, "N0CALL")
    host.send("M", "APRS", bytes(937), 0, "N0CALL")
    same(world.frames(far, len(wanted) + 1)[-1], ui_frame("N0CALL", "APRS", bytes(937)))
    same(host.take(), [])
    world.end()


def raw_frames(tnc):
    """K and k: frames as they are, to the air and from it."""
    world = World(tnc)
    host, far, kiss = world.client(0), world.client(1), world.kiss(1)
    far.send("k")
    long = RAW + bytes(1024 - len(RAW))
    for body in (b"\0" + RAW, b"\x13" + long, b"\0" + RAW[:14], b"\0" + long + b"\0", b"", b"\0"):
        host.send("K", body=body)
    same(world.frames(kiss, 2), [RAW, long])
    wanted = [Message("K", "N7LEM", "APRS", b"\0" + it) for it in (RAW, long)]
    world.until("two raw frames", lambda: len(far.messages) == 2)
    same(far.take(), wanted)
    far.send("k")
    world.go(5)
    host.send("K", body=b"\0" + RAW)
    same(len(world.frames(kiss, 3)), 3)
    same(far.take(), [])
    odd = bytes([1] * 20)
    far.send("k")
    world.go(5)
    host.send("K", body=b"\0" + odd)
    same(world.one(far, "K"), Message("K", "", "", b"\0" + odd))
    world.end()


def in_words(message):
    """What a host that monitors is shown: the kind, the calls, and the text without its time."""
    found = re.fullmatch(rb"( 1:Fm .* >)\[\d\d:\d\d:\d\d\]\r(.*)\0", message.body, re.DOTALL)
    return (message.kind, message.source, message.to, *(found.groups() if found else [message.body]))


def monitors(tnc):
    """m: each frame that is heard or sent in words, once, on or off again."""
    world = World(tnc)
    near, far = world.client(0), world.client(1)
    for host in (near, far):
        host.send("m")
    world.go(5)
    line, wanted = b" 1:Fm N0CALL To APRS Via R1-1,R2 <UI pid=F0 Len=2 P=0 >", ("N0CALL", "APRS")
    near.send("V", "APRS", repeaters(["R1-1", "R2"]) + b"\xc0\0", source="N0CALL")
    same(in_words(world.one(near, "T")), ("T", *wanted, line, b"\xc0\0\r"))
    same(in_words(world.one(far, "U")), ("U", *wanted, line, b"\xc0\0\r"))
    far.send("m")
    a, b = world.client(0, "AAAA"), world.client(1, "BBBB")
    world.linked(a, b)
    a.send("D", "BBBB", b"text")
    same(world.data(b, 4), (b"text", {0xF0}))
    world.go(300)
    b.send("d", "AAAA")
    world.unlinked(a, b)
    world.go(50)
    shown = [in_words(it) for it in near.take()]
    for kind, source, to, what, text in (
        ("T", "AAAA", "BBBB", b"<SABM P=1 >", b""), ("S", "BBBB", "AAAA", b"<UA F=1 >", b""),
        ("T", "AAAA", "BBBB", b"<I S0 R0 pid=0xF0 Len=4 P=0 >", b"text\r"), ("S", "BBBB", "AAAA", b"<RR R1 F=0 >", b""),
        ("S", "BBBB", "AAAA", b"<DISC P=1 >", b""), ("T", "AAAA", "BBBB", b"<UA F=1 >", b""),
    ):
        same(shown.count((kind, source, to, f" 1:Fm {source} To {to} ".encode() + what, text)), 1)
    world.quiet(far)
    world.end()


def lists_stations(tnc):
    """H: the last 20 stations that were heard, the last one first, each in a message of its own."""
    world = World(tnc)
    near, far, kiss = world.client(0), world.client(1), world.kiss(0)
    near.send("H")
    world.quiet(near)
    calls = [f"N{it}C-{it % 15 + 1}" for it in range(22)] + ["N5C-6"]
    for call in calls:
        far.send("M", "APRS", b"x", source=call)
    world.frames(kiss, len(calls))
    near.send("H")
    world.until("20 stations", lambda: len(near.messages) == 20)
    told = near.take()
    world.quiet(near)
    wanted = ["N5C-6", *(it for it in reversed(calls[:-1]) if it != "N5C-6")][:20]
    for message, call in zip(told, wanted, strict=True):
        same((message.kind, message.source, message.to), ("H", "", ""))
        found = re.fullmatch(rb"([^ ]+) (\d\d:\d\d:\d\d)  (\d\d:\d\d:\d\d)\0", message.body)
        same((found[1].decode(), found[2] < found[3]), (call, call == "N5C-6"))
    world.end()


def carries(tnc, *words):
    """C, D, d, Y, y: a link, what goes over it, and who is told."""
    world = World(tnc, *words)
    a, b, third = world.client(0, "AAAA"), world.client(1, "BBBB-7"), world.client(1, "CCCC")
    world.linked(a, b)
    same(world.ask(a, "g").body[7], 1)
    texts = [random.Random(1).randbytes(1500), random.Random(2).randbytes(700)]
    a.send("D", b.call, texts[0], 0xF0)
    b.send("D", a.call, texts[1][:256], 0xF0)
    b.send("D", a.call, b"", 0xF0)
    b.send("D", a.call, texts[1][256:], 0xCC)
    a.send("Y", b.call)
    same(world.one(a, "Y"), Message("Y", "AAAA", "BBBB-7", little(6)))
    world.until("frames wait", lambda: struct.unpack("<I", world.ask(a, "y").body)[0] > 0)
    same(world.data(b, 1500), (texts[0], {0xF0}))
    same(world.data(a, 700), (texts[1], {0xF0, 0xCC}))
    world.go(100)
    a.send("Y", b.call)
    same(world.one(a, "Y").body, little(0))
    b.send("d", a.call)
    world.unlinked(a, b)
    same(world.ask(a, "g").body[7], 0)
    for host in (a, b):
        host.send("D", "BBBB-7", b"late", 0xF0)
        host.send("d", "BBBB-7")
    for host in (a, b, third):
        world.quiet(host)
    world.end()


def connects_with_pid(tnc):
    """c: the PID of data whose own is 0."""
    world = World(tnc)
    a, b = world.client(0, "AAAA"), world.client(1, "BBBB")
    for pid, came in ((0xCF, 0xCF), (0, 0xF0)):
        a.send("c", "BBBB", pid=pid)
        same(world.one(a, "C").source, "BBBB")
        same(world.one(b, "C").source, "AAAA")
        a.send("D", "BBBB", b"plain", 0)
        same(world.data(b, 5), (b"plain", {came}))
        a.send("D", "BBBB", b"named", 0x08)
        same(world.data(b, 5), (b"named", {0x08}))
        b.send("D", "AAAA", b"back", 0)
        same(world.data(a, 4), (b"back", {0xF0}))
        a.send("d", "BBBB")
        world.unlinked(a, b)
    world.end()


def connects_by_repeater(tnc):
    """v: two hosts of one station, by way of the other one, which repeats."""
    world = World(tnc, "--digi", "DIGI-1")
    a, b = world.client(0, "AAAA"), world.client(0, "BBBB")
    a.send("v", "BBBB", repeaters(["DIGI-1"]))
    same(world.one(a, "C").body, b"*** CONNECTED With Station BBBB\r")
    same(world.one(b, "C").body, b"*** CONNECTED To Station AAAA\r")
    a.send("D", "BBBB", b"there", 0xF0)
    same(world.data(b, 5), (b"there", {0xF0}))
    b.send("D", "AAAA", b"and back", 0xF0)
    same(world.data(a, 8), (b"and back", {0xF0}))
    b.send("d", "AAAA")
    world.unlinked(a, b)
    world.end()


def refuses_calls(tnc):
    """C, v and c that are refused are answered by d, the calls as they came."""
    world = World(tnc)
    a, other = world.client(0, "AAAA"), world.client(0, "CCCC")
    del other
    bad = [
        ("C", "no call", "AAAA", b""), ("C", "", "AAAA", b""), ("C", "BBBB", "A B", b""), ("C", "BBBB", "CCCC", b""),
        ("C", "BBBB", "DDDD", b""), ("c", "BBBB-16", "AAAA", b""), ("v", "BBBB", "AAAA", b""),
        ("v", "BBBB", "AAAA", bytes([9]) + bytes(90)), ("v", "BBBB", "AAAA", bytes([1]) + bytes(9)),
        ("v", "BBBB", "AAAA", bytes([1]) + b"NO CALL".ljust(10, b"\0")),
    ]
    for kind, to, source, body in bad:
        a.send(kind, to, body, source=source)
        text = f"*** DISCONNECTED From Station {to}\r".encode()
        same(world.one(a, "d"), Message("d", to, source, text))
    a.send("C", "bbbb", source="cccc")
    same(world.one(a, "d"), Message("d", "BBBB", "CCCC", b"*** DISCONNECTED From Station BBBB\r"))
    a.send("C", "BBBB")
    a.send("C", "BBBB")
    same(world.one(a, "d"), Message("d", "BBBB", "AAAA", b"*** DISCONNECTED From Station BBBB\r"))
    world.end()


def has_links_for_64(tnc):
    """A 65th link is refused; one of them that nobody answers ends as a link does."""
    world = World(tnc)
    a = world.client(0, "AAAA")
    for at in range(64):
        a.send("C", f"B{at}")
    same(world.ask(a, "g").body[7], 64)
    same(a.take(), [])
    a.send("C", "B64")
    same(world.one(a, "d"), Message("d", "B64", "AAAA", b"*** DISCONNECTED From Station B64\r"))
    world.end()


def is_refused_by_nobody(tnc):
    """A call that no host has registered is not answered, and ends after the retries; a called host's station refuses
    nothing. A host that leaves ends its links."""
    world = World(tnc)
    a, b = world.client(0, "AAAA"), world.client(1, "BBBB")
    a.send("C", "NOBODY")
    same(world.one(a, "d"), Message("d", "NOBODY", "AAAA", b"*** DISCONNECTED From Station NOBODY\r"))
    world.linked(a, b)
    a.socket.close()
    world.hosts.remove(a)
    same(world.one(b, "d").body, b"*** DISCONNECTED From Station AAAA\r")
    world.end()


def takes_pieces(tnc):
    """Messages that come octet by octet, or many at once, are the same messages."""
    world = World(tnc)
    host, far = world.client(0), world.kiss(1)
    message = written(Message("M", "N0CALL", "APRS", b"pieces"))
    for at in range(len(message)):
        host.octets(message[at : at + 1])
        world.go(1)
    host.octets(message * 5 + message[:20])
    world.go(3)
    host.octets(message[20:] + written(Message("R")))
    same(world.frames(far, 7), [ui_frame("N0CALL", "APRS", b"pieces")] * 7)
    same(world.one(host, "R").body, little(1, 8))
    world.end()


def closes(tnc):
    """A header that tells more than 4096 octets closes its host, and no other; 4096 are taken."""
    world = World(tnc)
    good, bad = world.client(0), world.client(0)
    good.send("P", body=bytes(4096))
    bad.octets(written(Message("P"))[:28] + little(4097) + little(0))
    world.until("closed", lambda: bad.ended)
    same(world.ask(good, "R").body, little(1, 8))
    world.end(closed=1)


def has_room_for_64(tnc):
    """A 65th host is closed at once; after one has left, there is room for another."""
    world = World(tnc)
    hosts = [world.client(0) for _ in range(32)] + [world.kiss(0) for _ in range(32)]
    world.go(10)
    late = world.client(0)
    world.until("closed", lambda: late.ended)
    world.hosts.remove(late)
    same(world.ask(hosts[0], "R").body, little(1, 8))
    hosts[40].socket.close()
    world.go(20)
    same(world.ask(world.client(0), "R").body, little(1, 8))
    world.end(closed=1)


def is_flooded(tnc):
    """A host that reads nothing is closed when more than 262,144 octets wait for it; another one is served on."""
    world = World(tnc)
    good, bad = world.client(0), Client.__new__(Client)
    import socket

    bad.socket = socket.socket()
    bad.socket.setsockopt(socket.SOL_SOCKET, socket.SO_RCVBUF, 2048)
    bad.socket.connect(("127.0.0.1", world.stations[0].agw))
    bad.socket.setblocking(False)
    ask = written(Message("G")) * 1000
    closed = False
    for _ in range(1000):
        try:
            bad.socket.send(ask)
        except BlockingIOError:
            pass
        except OSError:
            closed = True
            break
        world.go(1)
    same(closed, True)
    same(world.ask(good, "R").body, little(1, 8))
    world.end(closed=1)


def keeps_nobody_waiting(tnc):
    """A host that sends raw frames without end waits alone: another one that asks 20 times a second is answered at once."""
    world = World(tnc)
    good, bad = world.client(0), world.kiss(0)
    frames = (b"\xc0\0" + ui_frame("NOISE", "ALL", b"without end") + b"\xc0") * 100
    for _ in range(100):
        try:
            bad.socket.send(frames)
        except BlockingIOError:
            pass
        good.send("R")
        world.go(3)
        same([it.body for it in good.take("R")], [little(1, 8)])
    world.end()


def speaks_kiss(tnc):
    """KISS: frames both ways, each once, with the octets that are written as two; other ports and commands are passed over."""
    world = World(tnc)
    near, far, also = world.kiss(0), world.kiss(1), world.kiss(1)
    odd = ui_frame("N0CALL", "APRS", b"\xc0\xdb\xdc\xdd\xdb\xc0")
    near.send(RAW)
    near.send(odd)
    for command in (0x10, 0xF0, 0x0D, 0x0E, 0x07):
        near.send(RAW, command=command)
    near.send(RAW[:14])
    near.send(RAW + bytes(1025 - len(RAW)))
    near.socket.sendall(b"\xc0\xc0\xc0\xff\xc0\0" + RAW[:3] + b"\xdb\x41\xc0")
    near.send(RAW + b"last")
    for host in (far, also):
        wanted = [RAW, odd, RAW[:3], RAW + b"last"][:2] + [RAW + b"last"]
        same(world.frames(host, 3), wanted)
    same(near.frames(), [])
    world.end()


def tells_of_sent_frames(tnc):
    """KISS command 12, ACKMODE: who asks is told of each frame of its own once that has been sent, in order; no other host is."""
    world = World(tnc)
    near, other, far = world.kiss(0), world.kiss(0), world.kiss(1)
    long = RAW + bytes(1024 - len(RAW))
    near.send(b"\xc0\xdb" + RAW, command=12)
    world.go(3)
    same(near.items(12), [])
    for frame, command in ((long, 0), (b"\1\2" + RAW, 12)):
        other.send(frame, command=command)
        world.go(5)
    for command in (0x1C, 0xFC):
        near.send(b"\3\4" + RAW, command=command)
    for passed_over in (b"\5\6" + RAW[:14], b"\7\x08" + long + b"\0", b"\x09", b""):
        near.send(passed_over, command=12)
    near.send(b"\x0c\x0c" + long, command=12)
    same(world.frames(far, 4), [RAW, long, RAW, long])
    for host, marks in ((near, [b"\xc0\xdb", b"\x0c\x0c"]), (other, [b"\1\2"]), (far, [])):
        same(host.items(12), marks)
    same(near.frames(), [])
    world.end()


def repeats(tnc):
    """--digi: the other station's KISS host is sent what this one repeats."""
    world = World(tnc, "--digi", "DIGI-1")
    near, far = world.kiss(0), world.kiss(1)
    near.send(ui_frame("N0CALL", "APRS", b"please", via=["DIGI-1", "WIDE2-1"]))
    same(world.frames(far, 1), [ui_frame("N0CALL", "APRS", b"please", via=["DIGI-1", "WIDE2-1"])])
    repeated = ui_frame("N0CALL", "APRS", b"please", via=["DIGI-1", "WIDE2-1"])
    repeated = repeated[:20] + bytes([repeated[20] | 0x80]) + repeated[21:]
    same(world.frames(near, 1), [repeated])
    world.end()
OWN = [
    answers, settings, registers, sends_unproto, raw_frames, monitors, carries, connects_with_pid, connects_by_repeater,
    refuses_calls, has_links_for_64, is_refused_by_nobody, takes_pieces, closes, has_room_for_64, is_flooded,
    keeps_nobody_waiting, speaks_kiss,
    tells_of_sent_frames, lists_stations, repeats,
]


def carries_by_srej(tnc):
    """The same by SREJ."""
    carries(tnc, "--mode", "srej")


def carries_wide(tnc):
    """The same modulo 128."""
    carries(tnc, "--wide")


def main():
    reader = argparse.ArgumentParser()
    reader.add_argument("--tnc", default="bin/tnc")
    reader.add_argument("--only")
    reader.add_argument("--programs", action="store_true")
    reader.add_argument("--times", action="store_true")
    given = reader.parse_args()
    checks = with_programs() if given.programs else [*OWN, carries_by_srej, carries_wide]
    if given.only:
        checks = [check for check in checks if given.only in check.__name__]
    with concurrent.futures.ThreadPoolExecutor(6) as pool:
        results = list(pool.map(lambda check: run(check, given.tnc, given.times), checks))
    return 0 if all(results) else 1


if __name__ == "__main__":
    sys.exit(main())
