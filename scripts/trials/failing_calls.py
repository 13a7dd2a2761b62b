#!/usr/bin/env python3
"""Lets one call of the input, the output, the report or the ports fail, the first, the second and so on, for every command.

  scripts/trials/failing_calls.py [--tnc PROGRAM] [--most N] [--only NAME]

A run in which a read fails ends with status 4, and has written what comes of the octets that were read; one in which a write or
a report fails ends with status 5, and has written a first part of its output. A station goes on where its ports fail; if they
cannot be opened it ends with status 10. Each is tried with the one call failing and with all later ones failing too, up to
call N, 50 where nothing else is said. A WAV file is cut at each of its octets, and each octet of its head is changed. It prints a
line for each command, and ends with status 0 where all is well."""
import argparse
import os
import sys

sys.path.append(os.path.join(os.path.dirname(__file__), "../shared"))
from hostile_inputs import rows, sample, stations
from refusing import Refusing

BAD_INPUT, READ, WRITE, NO_PORT = 2, 4, 5, 10
SILENT = b""
LONG = 12  # times what the other checks give, so that there are fifty calls


def is_first_part(part, whole):
    return whole.startswith(part)


def written_of(refusing, row, taken):
    """What may stand written where a read failed after so many octets: a list of texts."""
    command, options, octets = row.words[0], row.words[1:], row.octets[:taken]
    if "--join" in options or command == "encode" and "--wav" in options:
        return [SILENT]
    if command == "encode" and "--kiss" in options:
        octets = octets[: octets.rfind(b"\xc0") + 1]
    elif command in ("encode", "show"):
        octets = octets[: octets.rfind(b"\n") + 1]
    whole = refusing.run(row.words, octets).output
    # a frame that ends with the last sample is written once a later one was read
    frames = whole.splitlines(True) if "--kiss" not in options else [it + b"\xc0" for it in whole.split(b"\xc0")[:-1]]
    return [whole, b"".join(frames[:-1]), b"".join(frames[:-2])] if command == "decode" else [whole]


def fault_of(refusing, row, kind, ordinary, run):
    """What is wrong with a run in which a call failed, or nothing."""
    wanted = {"input": READ, "output": WRITE, "report": WRITE}.get(kind)
    is_live = row.words[0] == "serve"
    if kind == "ports":
        if run.status == NO_PORT:
            return "" if (run.output, run.report) == (SILENT, b"tnc: no port\n") else "a report or an output with status 10"
        return "" if run[:3] == ordinary[:3] else f"status {run.status}, or another output or report than with its ports"
    if run.status != wanted:
        return f"status {run.status}, and not {wanted}"
    if not is_first_part(run.output, ordinary.output):
        return "an output that is no first part"
    if not is_first_part(run.report, ordinary.report):
        return f"a report that is no first part: {run.report[:80]!r}"
    if kind == "input" and not is_live and run.output not in written_of(refusing, row, run.taken):
        return f"other output than that of the {run.taken} octets that were read"
    if kind == "report" and not is_live and run.output != ordinary.output:
        return "an output that is not whole"
    return ""


def failing(refusing, row, most):
    """Lets each call fail. How many runs there were, and how many were wrong."""
    ordinary = refusing.run(row.words, row.octets)
    runs = wrong = 0
    kinds = ["input", "output", "report"] + (["ports"] if row.words[0] == "serve" else [])
    for kind in kinds:
        for later in "", "+":
            for call in range(most + 1):
                run = refusing.run(row.words, row.octets, kind, f"{call}{later}")
                if run.calls is not None and run.calls <= call:
                    break
                runs += 1
                fault = fault_of(refusing, row, kind, ordinary, run)
                if fault:
                    wrong += 1
                    print(f"WRONG: {row.name}, {kind} {call}{later}: {fault}", flush=True)
    return runs, wrong


# The octets of a WAV file's head that are looked at, and what is told if one of them is another.
LOOKED_AT = {**dict.fromkeys(range(4), "not riff"), **dict.fromkeys(range(8, 12), "not wave")}
FORMAT = range(20, 28), range(32, 36)  # the format, but for the octets a second, which follow from the others


def cut_files(refusing):
    """A short WAV file, cut at each octet, and with each octet of its head changed. How many runs, and how many were wrong."""
    line = sample("direwolf-clean.frames").splitlines(True)[0]
    whole = refusing.run(["encode", "--wav", "--opening", "2", "--closing", "1"], line).output
    samples = refusing.run(["encode", "--opening", "2", "--closing", "1"], line).output
    wrong = 0
    for count in range(len(whole)):
        run = refusing.run(["decode", "--wav"], whole[:count])
        heard = refusing.run(["decode"], samples[: max(0, count - 44)]).output
        if run[:3] != (BAD_INPUT, heard, f"tnc: bad input: truncated at {count}\n".encode()):
            wrong += 1
            print(f"WRONG: a WAV file cut at {count}: status {run.status}, {run.report!r}")
    for place in range(36):
        changed = bytearray(whole)
        changed[place] ^= 0x55
        run = refusing.run(["decode", "--wav"], bytes(changed))
        told = LOOKED_AT.get(place)
        if any(place in it for it in FORMAT):
            told = "bad format"
        if told and not run.report.startswith(f"tnc: bad input: {told}".encode()) or run.status not in (0, BAD_INPUT):
            wrong += 1
            print(f"WRONG: a WAV file with octet {place} changed: status {run.status}, {run.report!r}")
    return len(whole) + 36, wrong


def main():
    reader = argparse.ArgumentParser()
    reader.add_argument("--tnc", default="bin/tnc")
    reader.add_argument("--most", type=int, default=50)
    reader.add_argument("--only", default="")
    given = reader.parse_args()
    refusing = Refusing(given.tnc)
    faults = 0
    for row in [*rows(refusing.tnc, LONG), *stations()]:
        if given.only in row.name:
            runs, wrong = failing(refusing, row, given.most)
            faults += wrong
            print(f"{row.name}: {runs} runs, {wrong} wrong", flush=True)
    if given.only in "cut files":
        runs, wrong = cut_files(refusing)
        faults += wrong
        print(f"cut files: {runs} runs, {wrong} wrong", flush=True)
    sys.exit(faults > 0)


if __name__ == "__main__":
    main()
