#!/usr/bin/env python3
"""Runs the built `glob_run` and `globs`: replays the tables of tests/rows and the rows of glob_run's own test, and
makes each allocation fail in turn. Prints each row that fails, and last 'N passed, M failed'."""

import codecs
import os
import re
import shutil
import subprocess
import tempfile
from pathlib import Path

from lib.count import ROOT, Count, built, has, left_out, run
from lib.make import place
from lib.sides import AS_USER, MAY_SHUT

ROWS = ROOT / "tests/rows"
USAGE = "usage: glob_run match [-i] [-s] [-d] PATTERN | escape TEXT | find [-i] [-s] [-d] [-n LIMIT] PATTERN\n"


def decoded(text):
    """The bytes of a text in which `\\n` is a line feed."""
    return codecs.escape_decode(text.encode())[0]


class Programs:
    """Both programs, and the folder for what is made for them."""

    def __init__(self, folder):
        self.work, self.count = folder, Count()
        (folder / "bin").mkdir()
        for name in ("glob_run", "globs"):
            shutil.copy(built(name), folder / "bin")
        self.env = {**os.environ, "PATH": f"{folder}/bin:{os.environ['PATH']}", "root": str(ROOT), "LC_ALL": "C.UTF-8"}

    def folder(self):
        """An empty folder."""
        return tempfile.mkdtemp(dir=self.work)

    def run(self, program, words, text=b"", folder=None, **env):
        """The status, the output and the errors of a program."""
        words = [self.work / "bin" / program, *words]
        return run(words, input=text, cwd=folder, env={**self.env, **env}, text=False)

    # Tables

    def tables(self):
        """A row is WORDS|INPUT|STATUS|OUTPUT|ERRORS, with a blank between words; a row with only words is a usage
        fault. A line that begins with + has the paths to make; a + alone stands for an empty folder. # begins a
        comment."""
        self.replay("glob_run", self.rows_of_test(), self.row)
        for program, table, row in (
            ("globs", "find", self.row),
            ("globs", "match", self.row),
            ("globs", "ignore", self.row),
            ("globs", "explain", self.row),
            ("globs", "advice", self.advises),
            ("glob_run", "patterns", self.row),
            ("glob_run", "links", self.finds),
        ):
            self.replay(program, (ROWS / f"{table}.txt").read_text(encoding="utf-8").splitlines(), row)

    def rows_of_test(self):
        """The rows of glob_run's test, except for those with failing streams, directories that cannot be listed, or
        absolute paths."""
        text = (ROOT / "crates/glob_run/src/tests/rows.rt").read_text(encoding="utf-8")
        is_left_out = False
        for line in re.search(r'ROWS: &str = "\n(.*?)^";', text, re.S | re.M)[1].splitlines():
            if line.startswith("+"):
                is_left_out = "#" in line
                yield "+"
            if not is_left_out and not re.search(r"[∅✗]| /", line):
                yield line.replace("⏎", "\\n").replace("␀", "\\0").replace("␦", "\\xff")

    def replay(self, program, lines, row):
        folder, before = self.folder(), self.count.passed + self.count.failed
        for line in lines:
            if line == "+":
                folder = self.folder()
            elif line.startswith("+"):
                place(folder, map(decoded, line[1:].split()))
            elif line and not line.startswith("#"):
                row(program, folder, line.split("|"))
        if self.count.passed + self.count.failed == before:
            self.count.check(False, f"a table of {program} without a row")

    def row(self, program, folder, fields):
        words, text, status, output, errors = [*fields, "", ""][:5] if len(fields) > 1 else [*fields, "a\n", "2", "", USAGE]
        found = self.run(program, [decoded(it) for it in words.split(" ")] if words else [], decoded(text), folder)
        self.count.same(f"{program} {words}", found, (int(status), decoded(output), decoded(errors)))

    def finds(self, program, folder, fields):
        """PATTERNS|PATHS: what find writes for each pattern, relative and below the absolute path of the folder."""
        for pattern in fields[0].split():
            for front in ("", f"{folder}/"):
                lines = "".join(f"{front}{path}\n" for path in fields[1].split())
                found = self.run(program, ["find", front + pattern], folder=folder)
                self.count.same(f"find {front}{pattern}", found, (int(not lines), lines.encode(), b""))

    def advises(self, program, _folder, fields):
        """PATTERN|LINE: the last line that explain writes for a text that does not match. Without LINE it gives no
        advice."""
        status, output, errors = self.run(program, ["explain", "--", decoded(fields[0]), b"\1\1/\1"])
        last = output.splitlines()[-1] if output else b""
        is_right = last == decoded(fields[1]) if len(fields) > 1 else output and not last.startswith(b"write")
        is_right = is_right and (status, errors) == (1, b"")
        self.count.check(is_right, f"what to write instead of {fields[0]}: {output} {errors}")

    # Transcripts

    def transcript(self):
        """The rows of system.txt, in one folder."""
        folder = self.folder()
        os.chmod(folder, 0o777)
        text = re.sub(r"\A(#.*\n)*", "", (ROWS / "system.txt").read_text(encoding="utf-8"))
        row = r"^# (.*?)(?: \((\w+)\))?\n\$ (.*)\n((?:(?!# |\n).*\n)*)"
        for name, need, command, wanted in re.findall(row, text, re.M):
            if (need == "user" and not MAY_SHUT) or (need not in ("", "user") and not shutil.which(need)):
                left_out(f"{name}: it needs {need}")
                continue
            how = {"cwd": folder, "env": self.env, "stdin": subprocess.DEVNULL, "text": False}
            how |= AS_USER if need == "user" else {}
            status, *written = run(["bash", "-o", "pipefail", "-c", command], **how)
            found, errors = (it.decode(errors="replace") for it in written)
            found += re.sub("^", "! ", errors, flags=re.M).removesuffix("! ")
            found += f"[{status}]\n" if status else ""
            pattern = ".*".join(map(re.escape, wanted.split("…")))
            self.count.check(re.fullmatch(pattern, found), f"{name}: {found[:500]} in place of {wanted}")

    # Help

    def pages(self):
        """Checks that lines of help pages have at most 100 bytes."""
        for name in ("", "find", "match", "ignore", "explain", "escape"):
            status, page, _ = self.run("globs", ["help", *name.split()])
            is_short = all(len(line) <= 100 for line in page.splitlines())
            self.count.check(status == 0 and page and is_short, f"the page of {name or 'all'}: {page}")

    # Memory

    def refused(self):
        """Runs a program with ample memory, and then again with each of its allocations failing in turn: it must end
        the same way, or with status 2, a line that ends in `out of memory`, and the first lines of the output, each
        whole. No block may leak."""
        if not has("gcc", "each request for memory"):
            return
        library, folder = self.work / "refusing.so", self.folder()
        subprocess.run(["gcc", "-shared", "-fPIC", "-O1", ROOT / "tests/lib/refusing.c", "-o", library], check=True)
        place(folder, ["src/a.rs", "src/deep/b.rs", "docs/x/A.md", "a.o", "rules=*.o\n/target/\n", "beyond=a\n[é]\n"])
        lines = "a.rs\nb.c\n" + "a" * 70 + ".rs\na.o\n"
        for number, (status, program, *words) in enumerate(REFUSED):
            text = (lines + ("a.rs\n" * 20_000 + "b" * 200_000 + ".rs\n") * (number == 0)).encode()
            ample, asked, _ = self.scarce(library, 0, program, words, text, folder)
            wrong = [] if ample[0] == status and asked > 1 else [f"{ample}, {asked} requests"]
            for request in range(1, asked + 1):
                found, _, held = self.scarce(library, request, program, words, text, folder)
                is_beginning = ample[1].startswith(found[1]) and found[1][-1:] in (b"", b"\n")
                is_memory = found[0] == 2 and re.fullmatch(rb".*out of memory\n", found[2])
                is_right = (found == ample or is_beginning and is_memory) and held == 0
                wrong += [] if is_right else [f"request {request}: {found[0]} {found[2]}, {held} blocks left"]
            self.count.check(not wrong, f"each request is refused: {program} {words}: {wrong[:3]}")

    def scarce(self, library, request, program, words, text, folder):
        """Runs the program with one allocation failing. Returns also how many allocations there were and how many
        blocks leaked."""
        counted = self.work / "counted"
        env = {"REFUSED": str(request), "COUNTED": str(counted), "LD_PRELOAD": str(library)}
        found = self.run(program, words, text, folder, **env)
        return found, *map(int, counted.read_text().split())


# Status, program and words.
REFUSED = [
    (0, "glob_run", "match", "*.rs"),
    (0, "glob_run", "match", "*[a-z]" * 64 + ".rs"),
    (2, "glob_run", "match", "abc[def"),
    (0, "glob_run", "escape", "a*[b]"),
    (2, "glob_run", "match"),
    (0, "glob_run", "find", "docs/**/A*.md"),
    (2, "glob_run", "find", "-n", "9", "**/*"),
    (2, "glob_run", "find", "a**b"),
    (0, "globs", "find", "-x", "target", "-x", ".git", "**/*.rs"),
    (0, "globs", "find", "--ignore", "rules", "*"),
    (0, "globs", "find", "--git", "--ignore-files", "rules", "**"),
    (0, "globs", "find", "-C", "src", "-x", "a", "**/*.rs"),
    (0, "globs", "ignore", "rules"),
    (2, "globs", "ignore", "beyond"),
    (0, "globs", "match", "*.{o,c}"),
    (0, "globs", "explain", "a?", "ab"),
    (1, "globs", "explain", "a?", "b"),
    (0, "globs", "explain", "*.{c,h}", "a.h"),
    (1, "globs", "explain", ".*\\.{c,h}$", "a/b"),
    (0, "globs", "explain", "src/*.c", "src/a/b.c"),
    (2, "globs", "explain", "a**", "a"),
    (2, "globs", "explain", "a"),
]


def main():
    os.umask(0o022)
    work = tempfile.mkdtemp()
    try:
        os.chmod(work, 0o755)
        programs = Programs(Path(work))
        programs.tables()
        programs.transcript()
        programs.pages()
        programs.refused()
    finally:
        # Parts are unreadable, or too deep for Python's own removal of folders.
        subprocess.run(f"chmod -R u+rwx {work}; rm -r {work}", shell=True, check=True)
    programs.count.end()


main()
