"""Runs of the program in which one call fails: scripts/shared/refusing.c, loaded in front of the C library. For the checks of hostile
use."""
import collections
import os
import subprocess
import tempfile

TOP = os.path.dirname(os.path.dirname(os.path.dirname(os.path.abspath(__file__))))
PATIENCE = 60  # seconds that a run may take

# How a run ended: status (negative for a signal), output, report, the calls of the kind that were made, and the octets of
# input that were read. Without a tally, as after a signal, the last two are None.
Run = collections.namedtuple("Run", "status output report calls taken")


class Refusing:
    """The program, and the library that makes its calls fail."""

    def __init__(self, tnc):
        self.tnc = os.path.abspath(tnc)
        self.folder = tempfile.TemporaryDirectory(prefix="refusing-")
        self.library = f"{self.folder.name}/refusing.so"
        words = ["cc", "-O2", "-shared", "-fPIC", "-o", self.library, f"{TOP}/scripts/shared/refusing.c"]
        subprocess.run(words, check=True)
        self.count = 0

    def surroundings(self, kind, call, tally=""):
        """The environment in which this call of a kind fails; `call` is a number, or one with a + for all from it on."""
        return {**os.environ, "LD_PRELOAD": self.library, "REFUSE": f"{kind}:{call}", "TALLY": tally}

    def run(self, words, octets, kind="memory", call=-1):
        """A run on these octets of input; where no call is named, none fails."""
        self.count += 1
        tally = f"{self.folder.name}/tally-{self.count}"
        with tempfile.TemporaryFile(dir=self.folder.name) as given:
            given.write(octets)
            given.seek(0)
            try:
                done = subprocess.run([self.tnc, *words], stdin=given, env=self.surroundings(kind, call, tally),
                                      capture_output=True, timeout=PATIENCE)
            except subprocess.TimeoutExpired as fault:
                return Run("none: it does not end", fault.stdout or b"", fault.stderr or b"", None, None)
        calls = taken = None
        if os.path.exists(tally):
            with open(tally) as file:
                calls, taken = map(int, file.read().split())
            os.remove(tally)
        return Run(done.returncode, done.stdout, done.stderr, calls, taken)
