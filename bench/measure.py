"""Runs programs, measures their times and instructions, and prints and saves tables."""

import json
import os
import re
import resource
import subprocess
import sys
import tempfile
from pathlib import Path

BENCH = Path(__file__).resolve().parent
ROOT = BENCH.parent

CRATE = "the crate"


def run(words, **how):
    """The output of a program, and its time in nanoseconds: the time that it writes to standard error or, without that,
    its CPU time."""
    before = resource.getrusage(resource.RUSAGE_CHILDREN)
    ran = subprocess.run(list(map(str, words)), stderr=subprocess.PIPE, **how)
    after = resource.getrusage(resource.RUSAGE_CHILDREN)
    if ran.returncode not in (0, 1):
        sys.exit(f"bench: {words}: status {ran.returncode} {ran.stderr[-300:].decode()}")
    busy = (after.ru_utime + after.ru_stime - before.ru_utime - before.ru_stime) * 1e9
    return ran.stdout, int(ran.stderr) if ran.stderr.strip().isdigit() else busy


def digits(number):
    return f"{number:,.0f}" if number >= 100 else f"{number:.3g}"


def heads_of(sides):
    """The heads of the columns that `cells` fills."""
    return [*sides, *(f"to {head}" for head in sides if head != "ours")]


def counted(words):
    """The number of instructions that a program executes. It is the same in each run of a build."""
    words = ["valgrind", "--tool=callgrind", "--callgrind-out-file=/dev/null", *map(str, words)]
    ran = subprocess.run(words, stdout=subprocess.DEVNULL, stderr=subprocess.PIPE, text=True, check=True)
    return int(re.search(r"Collected : (\d+)", ran.stderr)[1])


def calls(words, folder):
    """The number of system calls that a program makes in a folder."""
    with tempfile.NamedTemporaryFile() as file:
        words = ["strace", "-f", "-c", "-o", file.name, *map(str, words)]
        subprocess.run(words, stdout=subprocess.DEVNULL, stderr=subprocess.DEVNULL, cwd=folder, check=False)
        return int(re.search(r"(\d+)(?: +\d+)? total$", Path(file.name).read_text(encoding="utf-8"), re.M)[1])


def peak(words):
    """The peak of the bytes that a program has from `malloc`."""
    with tempfile.NamedTemporaryFile() as file:
        words = ["valgrind", "--tool=massif", f"--massif-out-file={file.name}", *map(str, words)]
        subprocess.run(words, stdout=subprocess.DEVNULL, stderr=subprocess.DEVNULL, check=True)
        return max(map(int, re.findall(r"mem_heap_B=(\d+)", Path(file.name).read_text(encoding="utf-8"))))


class Table:
    """A table that prints each row as it is added."""

    def __init__(self, title, heads):
        self.title, self.heads, self.rows = title, heads, []

    def add(self, *cells):
        if not self.rows:
            print(f"\n{self.title}\n\n| {' | '.join(self.heads)} |\n|{'---|' * len(self.heads)}")
        self.rows.append(list(cells))
        print(f"| {' | '.join(cells)} |", flush=True)


def about(bench):
    version = subprocess.run(["rt", "version"], capture_output=True, text=True).stdout.strip() or "no rt"
    rust = subprocess.run(["rustc", "--version"], capture_output=True, text=True, check=True).stdout.strip()
    load = " ".join(f"{it:.2f}" for it in os.getloadavg())
    return [f"Built by {version} and by {rust}, beside the crate glob {bench.release}.",
        f"The least of {bench.rounds} rounds, seed {bench.seed}. Load at the start: {load}, on {os.cpu_count()} processors."]


def keep(name, said, tables):
    """Writes a report, with each row of a table on its own line."""
    commit = subprocess.run(["git", "-C", ROOT, "rev-parse", "--short", "HEAD"], capture_output=True, text=True, check=True)
    report = {"name": name, "commit": commit.stdout.strip(), "about": said, "tables": [vars(it) for it in tables]}
    text = json.dumps(report, indent=1, ensure_ascii=False)
    row = r'\[\n\s+("(?:[^\n]*",\n\s+)*[^\n]*")\n\s+\]'
    text = re.sub(row, lambda it: "[" + re.sub(r",\n\s+", ", ", it[1]) + "]", text)
    (BENCH / f"results/{name}.json").write_text(text + "\n", encoding="utf-8")
