"""How tests run programs, count checks and report failures."""

import shutil
import subprocess
import sys
from functools import cache
from pathlib import Path

ROOT = Path(__file__).resolve().parent.parent.parent
MOST_SHOWN = 20


class Count:
    """How many checks passed and failed."""

    def __init__(self):
        self.passed = self.failed = 0

    def check(self, is_right, what):
        """Counts a check. The first failures are printed, each with what is wrong."""
        self.passed += bool(is_right)
        self.failed += not is_right
        if not is_right and self.failed <= MOST_SHOWN:
            print(f"failed: {what}", flush=True)

    def same(self, name, found, wanted):
        """Counts a check, which passes if `found` equals `wanted`."""
        self.check(found == wanted, f"{name}: {found} in place of {wanted}")

    def end(self):
        """Prints the totals, and ends the program."""
        print(f"{self.passed} passed, {self.failed} failed")
        sys.exit(self.failed > 0)


def left_out(what):
    """Reports what is skipped."""
    print(f"left out: {what}", flush=True)


def has(tool, what):
    """The path of a tool. If it is not installed, reports that what needs it is skipped."""
    return shutil.which(tool) or left_out(f"{what}, since there is no {tool}")


@cache
def is_built(name):
    """Whether `rt ci` built a program from these sources."""
    return run([ROOT / "bin/is_built", name, name])[0] == 0


@cache
def built(name):
    """A program that `rt ci` built. If it is older than its sources, everything ends with a line that says so."""
    if not is_built(name):
        sys.exit(f"{name} is not built from these sources: `rt ci` builds it")
    return ROOT / f"crates/{name}/out/{name}"


def run(words, **how):
    """The status, the output and the errors of a program."""
    done = subprocess.run(words, **{"capture_output": True, "text": True, **how})
    return done.returncode, done.stdout, done.stderr
