#!/usr/bin/env python3
"""Checks what scripts/build.sh tells while it proves and builds, in a small repository with an `rt` that only pretends:
a line a crate, or one line that is written anew on a terminal; and that a second run has nothing to do.

  scripts/checks/check_build.py"""
import os
import pty
import shutil
import subprocess
import sys
import tempfile
from pathlib import Path

SCRIPTS = Path(__file__).resolve().parents[1]
CRATES = {"tone_table": "", "kiss_port": "", "tnc_main": "tone_table kiss_port", "ring_bench": ""}
PRETENDS = """#!/bin/sh
case "$1" in
    version) echo pretended ;;
    all)
        echo "$*" >asked
        for it in tone_table kiss_port tnc_main; do echo "== $it"; echo proved; done
        echo "== summary"
        ;;
    run) echo '#!/bin/sh' >out/tnc_main ;;
esac
"""


def made(room):
    """Makes the repository."""
    (room / "scripts/shared").mkdir(parents=True)
    for name in ("build.sh", "shared/prove_program.py"):
        shutil.copy(SCRIPTS / name, room / "scripts" / name)
    (room / "crates.txt").write_text("".join(f"{it}: {below}\n" for it, below in CRATES.items()))
    (room / "HANDLES").write_text("Handles allowed: none.\n")
    for crate in CRATES:
        (room / "crates" / crate / "src").mkdir(parents=True)
        (room / "crates" / crate / "src/lib.rt").write_text("//! A crate.\n")
    (room / "crates/tnc_main/out").mkdir()
    (room / "path").mkdir()
    (room / "path/rt").write_text(PRETENDS)
    (room / "path/rt").chmod(0o755)


def told(room, **how):
    """Runs the build, and returns what it tells."""
    env = {**os.environ, "PATH": f"{room}/path:{os.environ['PATH']}"}
    run = subprocess.run([room / "scripts/build.sh"], cwd=room, env=env, stdin=subprocess.DEVNULL, **how)
    if run.returncode:
        sys.exit(f"check_build.py: the build ends with status {run.returncode}")
    return run.stdout


def told_on_a_terminal(room):
    """The same on a terminal."""
    ours, theirs = pty.openpty()
    told(room, stdout=subprocess.DEVNULL, stderr=theirs)
    os.close(theirs)
    text = os.read(ours, 65536).decode()
    os.close(ours)
    return text


def wants(what, is_so):
    if not is_so:
        sys.exit(f"check_build.py: not so: {what}")


def main():
    with tempfile.TemporaryDirectory() as name:
        room = Path(name)
        made(room)
        lines = told(room, stdout=subprocess.PIPE, stderr=subprocess.STDOUT, text=True).splitlines()
        wants("how many crates", lines[0].startswith("3 crates are proved"))
        wants("how long and why", "half an hour" in " ".join(lines[:4]) and "checked against" in " ".join(lines[:4]))
        told_of = [it.split(",")[0] for it in lines if " of 3 " in it]
        wants("a line a crate", told_of == [f"{done} of 3 crates proved" for done in (1, 2, 3)])
        jobs = (room / "crates/tnc_main/asked").read_text().split()[-1]
        wants("a crate for each processor, if memory allows", 1 <= int(jobs) <= len(os.sched_getaffinity(0)))
        wants("the program is there", lines[-1] == "bin/tnc" and (room / "bin/tnc").exists())
        again = told(room, stdout=subprocess.PIPE, stderr=subprocess.STDOUT, text=True)
        wants("nothing to do", again.startswith("nothing to do"))
        (room / "crates/kiss_port/src/lib.rt").write_text("//! A crate that has changed.\n")
        text = told_on_a_terminal(room)
        wants("one line, written anew", text.count("\r1 of 3 ") == 1 and "\n2 of 3" not in text and "\r3 of 3 " in text)
        (room / "crates/ring_bench/src/lib.rt").write_text("//! No part of the program.\n")
        wants("nothing to do for another crate", "nothing to do" in told_on_a_terminal(room))
    return 0


if __name__ == "__main__":
    sys.exit(main())
