"""The report on random searches, beside fd with the same patterns as one regular expression."""

import os
import random
import re
import shutil
import subprocess
from dataclasses import dataclass
from pathlib import Path

import inputs
from lib.count import has, left_out
from measure import Table, calls, digits, run
from worst import shortened, spread

# How many searches there are in each tree, and how often a path is passed over before one is taken to make a pattern.
SEARCHES = {"source tree": 40, "150 levels": 25, "100,000 files": 25}
WORST = 10


@dataclass
class Search:
    """What is searched for: the patterns of a search, and what it leaves out."""

    patterns: list
    folds: bool
    depth: int
    rules: list

    def of_globs(self):
        """The arguments of `globs find`."""
        words = ["-i"] * self.folds + ["--max-depth", str(self.depth)] * (self.depth > 0)
        return words + [word for rule in self.rules for word in ("-x", rule)] + self.patterns

    def of_rust(self):
        """The arguments of the program `searches`."""
        return ["-i" if self.folds else "-", str(self.depth), str(len(self.rules)), *self.rules, *self.patterns]

    def of_fd(self, folder):
        """The arguments of fd. It matches whole paths by a regular expression."""
        some = "|".join(map(regex, self.patterns))
        words = ["-uu", "-j1", "--color=never", "-i" if self.folds else "-s"]
        words += ["--max-depth", str(self.depth)] * (self.depth > 0)
        words += [word for rule in self.rules for word in ("-E", rule)]
        return [*words, "--full-path", f"^{re.escape(str(folder))}/(?:{some})$"]


def regex(pattern):
    """A pattern as a regular expression."""
    components = pattern.split("/")
    text = ""
    for component in components[:-1]:
        text += "(?:.*/)?" if component == "**" else of_component(component) + "/"
    return text + (".+" if components[-1] == "**" else of_component(components[-1]))


def of_component(component):
    known = {"*": "[^/]*", "?": "[^/]"}
    return "".join(known.get(it) or re.escape(it) for it in component)


def part(source, name):
    """A component that takes a name."""
    stem, dot, ending = name.rpartition(".")
    forms = [name] * 4 + ["*"] + [name[: source.randint(1, len(name))] + "*"]
    if dot and stem:
        forms += [f"*.{ending}"] * 2 + [f"{stem}.*"]
    at = source.randrange(len(name))
    forms.append(name[:at] + "?" + name[at + 1 :])
    return source.choice(forms)


def pattern_of(source, path):
    """A pattern that takes a path, which has no wildcard."""
    parts = [part(source, name) for name in path.split("/")]
    if source.random() < 0.5:
        start = source.randint(0, len(parts) - 1)
        end = source.randint(start, len(parts) - 1)
        parts[start:end] = ["**"]
    return "/".join(parts)


def drawn(source, paths, names):
    """A random search below paths, with rules that name some of the names."""
    patterns = [pattern_of(source, source.choice(paths)) for _ in range(source.randint(1, 5))]
    depth = source.randint(1, 8) if source.random() < 0.2 else 0
    rules = source.sample(names, min(len(names), source.randint(1, 3))) if source.random() < 0.3 else []
    return Search(patterns, source.random() < 0.3, depth, rules)


def deep(folder, share):
    """150 nested directories, each with ten files and a directory of ten more."""
    for _ in range(150 // share):
        folder = folder / "deep"
        (folder / "side").mkdir(parents=True)
        inputs.add_files(folder, 10)
        inputs.add_files(folder / "side", 10)


def folder_of(bench, name):
    """The folder of a tree. The source tree is that of the toolchain, or without it this repository."""
    if name == "source tree":
        where = subprocess.run(["rt", "doc"], capture_output=True, text=True, check=False).stdout.strip()
        return Path(where).parent if where else Path(__file__).resolve().parent.parent
    folder = bench.at / name.replace(" ", "-")
    folder.mkdir()
    (deep if name == "150 levels" else inputs.flat)(folder, bench.share)
    return folder.resolve()


def paths_in(folder):
    """The paths below a folder that can be patterns, and the names of directories, or of files where there are none."""
    paths, directories = [], set()
    for at, below, files in os.walk(folder):
        known = os.path.relpath(at, folder)
        paths += [os.path.normpath(os.path.join(known, name)) for name in (*below, *files)]
        directories.update(below)
    plain = sorted(path for path in paths if re.fullmatch(r"[\w./+-]+", path, re.ASCII))
    names = sorted(name for name in directories or {os.path.basename(path) for path in plain[:1000]})
    return plain, [name for name in names if re.fullmatch(r"[\w.+-]+", name, re.ASCII)]


def lines_of(words, folder):
    output, _ = run(words, stdout=subprocess.PIPE, cwd=folder)
    return sorted(line.removeprefix(b"./").rstrip(b"/") for line in output.splitlines())


def measured(bench, fd, programs, folder, search):
    """The least processor times of each program and of fd, in milliseconds, after the paths were compared."""
    sides = {head: [*words, *arguments(search)] for head, (words, arguments) in programs.items()}
    sides["fd"] = [fd, *search.of_fd(folder)]
    found = {head: lines_of(words, folder) for head, words in sides.items()}
    for head, lines in found.items():
        if lines != found["fd"]:
            raise SystemExit(f"bench: {head} finds {len(lines)} paths and fd {len(found['fd'])}: {search}")
    least = bench.least(sides, 1, cwd=folder)
    return len(found["fd"]), {head: time / 1_000_000 for head, time in least.items()}


def plain(*patterns, rules=()):
    return Search(list(patterns), False, 0, list(rules))


def chain(folder, share):
    """120 nested directories with a file in each."""
    for number in range(120 // share):
        folder = folder / f"d{number}"
        folder.mkdir()
        inputs.add_files(folder, 1)


# Searches by themselves, each beside another one of the same tree: by rules, and by how many patterns there are.
PAIRS = [
    ("200 rules, 120 nested directories, to no rules", chain, plain("**/*", rules=[f"*.n{it}" for it in range(200)]),
        plain("**/*")),
    ("1,000 patterns `**/fN.txt`, to one", inputs.wide, plain(*(f"**/f{it}.txt" for it in range(1000))), plain("**/f1.txt")),
    ("1,000 patterns `**/*aN*.txt`, to one", inputs.wide, plain(*(f"**/*a{it}*.txt" for it in range(1000))),
        plain("**/*a1*.txt")),
]


def pairs(bench, programs):
    """How much longer a search takes than a smaller one."""
    table = Table("Searches to smaller ones, processor time in milliseconds",
        ["case", *(f"{head}{what}" for head in programs for what in ("", ", the smaller one", ", ratio"))])
    for name, make, search, smaller in PAIRS:
        with bench.made(make) as folder:
            cells = []
            for words, arguments in programs.values():
                sides = {"ours": [*words, *arguments(search)], "smaller": [*words, *arguments(smaller)]}
                cells += bench.cells(bench.least(sides, 2, cwd=folder), 1_000_000)
            table.add(name, *cells)
    return table


def causes(bench, sides, folder, search):
    """What explains the time of a search: how many directories it lists, how many entries these have, how many paths it
    looks up, how many of all these are alive, and how many system calls each side makes."""
    asked, _ = run([bench.of_rust("searches"), "counts", *search.of_rust()], stdout=subprocess.PIPE, cwd=folder)
    counts = [calls(words, folder) if shutil.which("strace") else None for words in sides]
    return ["-" if it is None else f"{int(it):,}" for it in (*asked.split(), *counts)]


def searches(bench, fd):
    """The quantiles of the ratios to fd in each tree, the worst searches, and some searches by themselves."""
    programs = {"from Rust": ([bench.of_rust("searches"), "paths"], Search.of_rust)}
    if bench.has_rattle("searches"):
        programs["globs"] = ([bench.ours("globs"), "find"], Search.of_globs)
    yield pairs(bench, programs)
    source, all_found = random.Random(bench.seed), []
    for name, count in SEARCHES.items():
        folder = folder_of(bench, name)
        paths, names = paths_in(folder)
        for _ in range(max(3, count // bench.share)):
            search = drawn(source, paths, names)
            all_found.append((name, folder, search, *measured(bench, fd, programs, folder, search)))
    has("strace", "numbers of system calls")
    for head, (words, arguments) in programs.items():
        table = Table(f"Random searches, {head} to fd", ["tree", "searches", "together", "median", "nine of ten",
            "99 of 100", "worst", "slower"])
        for name in SEARCHES:
            table.add(name, *spread([(times[head], times["fd"]) for it, *_, times in all_found if it == name]))
        yield table
        table = Table(f"Random searches, {head}: the worst", ["ratio", "ms", "fd", "tree", "paths", "listed",
            "entries", "looked up", "alive", "calls", "fd's calls", "search"])
        by_ratio = sorted(all_found, key=lambda it: -it[-1][head] / it[-1]["fd"])
        for name, folder, search, count, times in by_ratio[:WORST]:
            sides = [[*words, *arguments(search)], [fd, *search.of_fd(folder)]]
            table.add(digits(times[head] / times["fd"]), digits(times[head]), digits(times["fd"]), name, f"{count:,}",
                *causes(bench, sides, folder, search), shortened(" ".join(search.of_globs())))
        yield table


def without_fd():
    left_out("random searches, since there is no fd")
    return []
