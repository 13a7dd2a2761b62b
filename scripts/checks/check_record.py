#!/usr/bin/env python3
"""Checks `tnc record` on a shipped recording: what it tells, what it keeps, and how much memory it takes.

  scripts/checks/check_record.py [--tnc PROGRAM] [--sound FILE] [--pace N]

The recording is written N times as fast as sound goes (20 if nothing is said), since a ring holds seven seconds. Every frame has
to be told, no sample lost, the file has to be the recording, and `tnc decode --wav` and, if it is installed, `atest` have to hear
the recording's frames in it. With a `--keep` of five seconds the file has to be the last five. It ends with status 0 if all is
well."""
import argparse
import shutil
import subprocess
import sys
import tempfile
import time
from pathlib import Path

RATE = 9600
HEAD = 44


def peak_of(program):
    """The most memory that a running program has had so far, in KiB, as Linux tells it in /proc."""
    try:
        lines = Path(f"/proc/{program.pid}/status").read_text().splitlines()
    except OSError:
        return 0
    return max((int(line.split()[1]) for line in lines if line.startswith("VmHWM")), default=0)


def recorded(tnc, sound, pace, *words):
    """The file, the report and the peak of memory in KiB of a recording."""
    with tempfile.TemporaryFile() as out, tempfile.TemporaryFile() as told:
        program = subprocess.Popen([tnc, "record", *words], stdin=subprocess.PIPE, stdout=out, stderr=told)
        began, step = time.monotonic(), 2 * RATE // 10
        for at in range(0, len(sound), step):
            program.stdin.write(sound[at : at + step])
            program.stdin.flush()
            ahead = at / (2 * RATE * pace) - (time.monotonic() - began)
            if ahead > 0:
                time.sleep(ahead)
        peak = peak_of(program)
        program.stdin.close()
        # What it still takes to write the file shows here, if it is not over at once.
        while program.poll() is None:
            peak = max(peak, peak_of(program))
        out.seek(0), told.seek(0)
        return program.returncode, out.read(), told.read().decode(), peak


def frames_in(report):
    """The frames that a report tells, and its other lines."""
    lines = report.splitlines()
    frames = [line.split()[2] for line in lines if line.startswith("frame ")]
    return frames, [line for line in lines if not line.startswith("frame ")]


def wanted(what, holds):
    if not holds:
        raise SystemExit(f"FAILED: {what}")


def main():
    words = argparse.ArgumentParser(description=__doc__.split("\n")[0])
    words.add_argument("--tnc", default="bin/tnc")
    words.add_argument("--sound", default="samples/direwolf-clean.raw")
    words.add_argument("--pace", type=float, default=20)
    given = words.parse_args()
    sound = Path(given.sound).read_bytes()
    frames = Path(given.sound).with_suffix(".frames").read_text().split()

    status, file, report, peak = recorded(given.tnc, sound, given.pace)
    told, others = frames_in(report)
    wanted(f"status 0 ({status}: {report[:200]})", status == 0)
    wanted("the frames, and no gap and no loss", told == frames and not others)
    wanted("the sound", file[HEAD:] == sound[: len(sound) // 2 * 2])
    keep = min(576000, len(sound) // 2)
    wanted(f"{keep} samples and 4 MB at most ({peak} KiB)", peak * 1024 <= 2 * 576000 + 4_000_000)
    heard = subprocess.run([given.tnc, "decode", "--wav"], input=file, stdout=subprocess.PIPE, check=True).stdout
    wanted("the frames in the file", heard.decode().split() == frames)
    if shutil.which("atest") and shutil.which("sox"):
        with tempfile.TemporaryDirectory() as room:
            Path(f"{room}/r.wav").write_bytes(file)
            subprocess.run(["sox", "-q", f"{room}/r.wav", "-r", "48000", f"{room}/w.wav"], check=True)
            lines = subprocess.run(["atest", f"{room}/w.wav"], stdout=subprocess.PIPE, check=True).stdout
            count = int(lines.decode(errors="replace").split(" packets decoded")[0].split()[-1])
            wanted(f"as many frames heard by atest ({count})", count >= len(frames))
    else:
        print("skipped: atest on the file (atest or sox is not installed)")

    status, file, report, _ = recorded(given.tnc, sound, given.pace, "--keep", str(5 * RATE), "--sensitive")
    told, others = frames_in(report)
    wanted("all frames of all lanes", status == 0 and sorted(told) == sorted(frames) and not others)
    wanted("the last five seconds", file[HEAD:] == sound[: len(sound) // 2 * 2][-10 * RATE :])
    print(f"{len(frames)} frames, {len(sound) // 2} samples kept, {peak} KiB at most")


if __name__ == "__main__":
    sys.exit(main())
