"""What the measuring scripts share: a program is run five times, and the best run counts."""
import os
import shutil
import subprocess
import sys
import tempfile

TOP = os.path.dirname(os.path.dirname(os.path.abspath(__file__)))
RATE = 9600
RUNS = 5
PCM = ["-t", "raw", "-r", str(RATE), "-e", "signed", "-b", "16", "-c", "1"]


class Run:
    """The processor seconds, the peak memory in KiB, the seconds on the wall, and the octets and lines of output of one
    run."""

    def __init__(self, measure, words, standard_input):
        with open(standard_input, "rb") as given, tempfile.TemporaryFile() as taken:
            told = subprocess.run([measure, *words], stdin=given, stdout=taken, stderr=subprocess.PIPE).stderr.split()
            self.octets = taken.seek(0, os.SEEK_END)
            taken.seek(0)
            self.lines = sum(part.count(b"\n") for part in iter(lambda: taken.read(1 << 20), b""))
        self.seconds, self.peak, self.wall = float(told[0]), int(told[1]), float(told[2])


def best(measure, words, standard_input, key=lambda it: it.seconds):
    return min((Run(measure, words, standard_input) for _ in range(RUNS)), key=key)


def clock_rate():
    """The cycles a second of this processor, as the system tells it."""
    with open("/proc/cpuinfo") as told:
        return 1e6 * float(next(line for line in told if line.startswith("cpu MHz")).split(":")[1])


def tnc():
    program = f"{TOP}/bin/tnc"
    if not os.path.exists(program):
        sys.exit("there is no bin/tnc: run scripts/build.sh first")
    return program


def compiled(name, room):
    """A C program of this folder, compiled with cc -O2."""
    if not shutil.which("cc"):
        sys.exit("there is no cc")
    subprocess.run(["cc", "-O2", "-o", f"{room}/{name}", f"{TOP}/bench/{name}.c"], check=True)
    return f"{room}/{name}"


def installed(name, *programs):
    missing = [program for program in programs if not shutil.which(program)]
    if missing:
        print(f"left out: {name} ({', '.join(missing)} is not installed)")
    return not missing


def tell(minutes, name, audio, run, base, more):
    """A line of the table: seconds of audio a second of processor time, memory, and the time against that of tnc for as
    much audio. Gives the first of these."""
    rate = audio / run.seconds
    print(f"{minutes:3} min  {name:22} {rate:7.0f} s of audio a second  {run.peak / 1024:6.1f} MiB"
          f"  {(base or rate) / rate:5.2f} times tnc's time  {more}")
    return rate
