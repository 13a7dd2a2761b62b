#!/usr/bin/env python3
"""Checks the blocks that the tests of fx25_blocks have written, and what the program hears, against what Dire Wolf's
gen_packets sends.

  scripts/checks/check_fx25.py [--tests FILE] [--program FILE]

For 16, 32 and 64 check octets gen_packets sends N7LEM>APRS:hello, its sound is turned into bits, and the tag and the block
have to be those of the constants UNIT_16, UNIT_32 and UNIT_64. gen_packets keeps the line of a block apart from that of
the flags before it, so the first bit of the tag may differ, and no other. Then a stretch of the data and check octets is
silenced, as long as is promised to be repaired: `decode --fx25` has to print the frame once, and `decode` nothing. With the
sound as it is both have to print it once. Then `serve --fx25` hears such sound live, and sends the frame that its host gives:
the host has to get the repaired frame once, `atest` has to hear what was sent, and `decode --fx25` also with a stretch of it
silenced; and all of it with `serve --fx25 --sensitive`. It takes about a minute, and ends with status 0 where all is well.
What is not installed is left out."""
import argparse
import cmath
import pathlib
import re
import shutil
import socket
import subprocess
import sys
import tempfile
import threading
import time
import wave

RATE, BAUD, MARK, SPACE = 9600, 1200, 1200, 2200
PORT = 18067
PER_BIT = RATE // BAUD
FRAME = b"82a0a4a64040e09c6e988a9a40e103f068656c6c6f"
HERE = pathlib.Path(__file__).resolve().parents[2]


def units(path):
    """The octets of each unit, by the count of its check octets."""
    text = pathlib.Path(path).read_text()
    found = re.findall(r"const UNIT_(\d+): \[u8; \d+\] = \[(.*?)\];", text, re.S)
    return {int(count): bytes(int(octet, 16) for octet in re.findall(r"0x([0-9A-F]{2})", body)) for count, body in found}


def bits(octets):
    """Bits in the order in which they are sent, the least significant of each octet first."""
    return [octet >> place & 1 for octet in octets for place in range(8)]


def sound(count):
    """The samples that gen_packets sends with so many check octets."""
    with tempfile.TemporaryDirectory() as folder:
        text, out = pathlib.Path(folder, "text"), pathlib.Path(folder, "out.wav")
        text.write_text("N7LEM>APRS:hello")
        subprocess.run(
            ["gen_packets", "-r", str(RATE), "-X", str(count), "-o", str(out), str(text)],
            check=True,
            stdout=subprocess.DEVNULL,
        )
        with wave.open(str(out)) as file:
            data = file.readframes(file.getnframes())
    return [int.from_bytes(data[k : k + 2], "little", signed=True) for k in range(0, len(data), 2)]


def energy(window, tone):
    """How much of a tone a window holds."""
    return abs(sum(s * cmath.exp(-2j * cmath.pi * tone * k / RATE) for k, s in enumerate(window)))


def heard(samples, offset):
    """The bits of the windows of one offset: a 0 changes the tone, a 1 keeps it."""
    tones = [
        energy(samples[k : k + PER_BIT], MARK) >= energy(samples[k : k + PER_BIT], SPACE)
        for k in range(offset, len(samples) - PER_BIT + 1, PER_BIT)
    ]
    return [int(a == b) for a, b in zip([True] + tones, tones)]


def differences(samples, unit):
    """In which bits of the unit the best offset differs from it, and the sample with which it begins there."""
    wanted = bits(unit)
    best = None
    for offset in range(PER_BIT):
        line = heard(samples, offset)
        for start in range(len(line) - len(wanted) + 1):
            wrong = [k for k, (a, b) in enumerate(zip(line[start:], wanted)) if a != b]
            if best is None or len(wrong) < len(best[0]):
                best = wrong, offset + PER_BIT * start
    return best


def printed(program, samples, *options):
    """The lines that decode prints of samples."""
    raw = b"".join(s.to_bytes(2, "little", signed=True) for s in samples)
    return subprocess.run([program, "decode", *options], input=raw, capture_output=True, check=True).stdout.splitlines()


def repaired(program, samples, start, count):
    """Whether a stretch that is lost is repaired, wherever it lies. The tag is 64 bits long."""
    lost = 32 * count - 71
    first = start + 64 * PER_BIT
    good = True
    for front in (first, first + 300, first + 1000):
        silenced = samples[:front] + [0] * lost + samples[front + lost :]
        good = good and printed(program, silenced, "--fx25") == [FRAME]
    plainly = samples[:first] + [0] * lost + samples[first + lost :]
    return good and printed(program, plainly) == [] and printed(program, samples) == printed(program, samples, "--fx25") == [FRAME]


def raw(samples):
    """Samples as a station reads them."""
    return b"".join(s.to_bytes(2, "little", signed=True) for s in samples)


def paced(sink, sound):
    """Gives sound at its pace."""
    for at in range(0, len(sound), RATE // 5):
        sink.write(sound[at : at + RATE // 5])
        sink.flush()
        time.sleep(0.1)


def lived(program, samples, count, *options):
    """What a host of a live station gets while it hears samples, and the samples that it sends for the frame of its host."""
    words = ["serve", "--kiss", str(PORT), "--agw", "none", "--fx25", str(count), "--duplex", "--txdelay", "20", *options]
    with subprocess.Popen([program, *words], stdin=subprocess.PIPE, stdout=subprocess.PIPE, stderr=subprocess.DEVNULL) as station:
        sent = []
        reading = threading.Thread(target=lambda: sent.append(station.stdout.read()))
        reading.start()
        silence = bytes(2 * RATE)
        paced(station.stdin, silence)
        with socket.create_connection(("127.0.0.1", PORT)) as host:
            host.sendall(b"\xc0\x00" + bytes.fromhex(FRAME.decode()) + b"\xc0")
            paced(station.stdin, silence + raw(samples) + 3 * silence)
            host.settimeout(2)
            got = host.recv(4096)
        station.stdin.close()
        reading.join()
    return got, [int.from_bytes(sent[0][k : k + 2], "little", signed=True) for k in range(0, len(sent[0]), 2)]


def told_by_atest(samples):
    """How many frames atest hears."""
    with tempfile.TemporaryDirectory() as folder:
        path = pathlib.Path(folder, "sound.wav")
        with wave.open(str(path), "wb") as file:
            file.setnchannels(1)
            file.setsampwidth(2)
            file.setframerate(RATE)
            file.writeframes(raw(samples))
        told = subprocess.run(["atest", str(path)], capture_output=True, check=False, text=True).stdout
    return int(re.search(r"(\d+) packets decoded", told)[1])


def serves(program, samples, start, count, unit, *options):
    """Whether a station hears a block of which a stretch is lost, and sends one that stands the same."""
    lost = 32 * count - 71
    first = start + 64 * PER_BIT
    got, sent = lived(program, samples[:first] + [0] * lost + samples[first + lost :], count, *options)
    good = got == b"\xc0\x00" + bytes.fromhex(FRAME.decode()) + b"\xc0"
    wrong, there = differences(trimmed(sent), unit)
    sound = trimmed(sent)
    return (good and wrong == [] and told_by_atest([0] * RATE + sound + [0] * RATE) == 1
            and repaired(program, sound, there, count))


def trimmed(samples):
    """Samples without the zeros before and after them."""
    loud = [k for k, sample in enumerate(samples) if sample]
    return samples[loud[0] : loud[-1] + 1]


def main():
    reader = argparse.ArgumentParser()
    reader.add_argument("--tests", default=HERE / "crates/fx25_blocks/src/tests.rt")
    reader.add_argument("--program", default=HERE / "bin/tnc")
    words = reader.parse_args()
    known = units(words.tests)
    if sorted(known) != [16, 32, 64]:
        sys.exit("the tests have other units")
    if not shutil.which("gen_packets"):
        print("gen_packets is not installed: nothing was checked")
        return
    program = pathlib.Path(words.program).resolve()
    good = True
    for count, unit in sorted(known.items()):
        samples = sound(count)
        wrong, start = differences(samples, unit)
        same = wrong in ([], [0])
        good = good and same
        print(f"{count} check octets, {8 * len(unit)} bits: {'the same' if same else f'differ at {wrong}'}"
              + (", but for the first bit of the tag" if wrong == [0] else ""))
        if program.is_file():
            well = repaired(program, samples, start, count)
            good = good and well
            print(f"{count} check octets, {32 * count - 71} samples lost: {'repaired' if well else 'NOT as promised'}")
            for options in ((), ("--sensitive",)) if shutil.which("atest") else ():
                well = serves(program, samples, start, count, unit, *options)
                good = good and well
                print(f"{count} check octets, {' '.join(('live', *options))}: {'heard and sent' if well else 'NOT as promised'}")
    sys.exit(0 if good else 1)


if __name__ == "__main__":
    main()
