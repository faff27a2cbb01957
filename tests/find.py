#!/usr/bin/env python3
"""Compares the output of `globs find` on random trees on the disk: with a filter of all paths by tests/lib/reference.py,
where symbolic links are not followed, with several patterns with braces and leads, excluded paths, kinds and depths; and,
with `--git`, with what git lists, where the trees have ignore files at any depth, and a search begins anywhere in them,
perhaps with excluded names. Half of the searches are compared with each. Order and duplicates count. In a table it counts
the directories that are listed. The last line counts searches: 'N passed, M failed'.

    tests/find.py [--seed N] [--searches N]
"""

import argparse
import itertools
import os
import random
import re
import tempfile

from lib import make, reference
from lib.count import Count, built, has, run

EACH = 20
OPTIONS = [[], [], ["-i"], ["-d"], ["-i", "-d"], ["-t", "f"], ["-t", "d"], ["-t", "l"],
    ["-t", "l", "-t", "f"], ["-t", "d", "-t", "f"], ["--max-depth", "1"], ["--max-depth", "2"]]
RULES = ["a", "b", "/a", "/b", "a/", "b/", "*", "!*", "!a", "!b", "!a/", "!/a/b", "a/b", "/a/*", "a/**", "**/b", "?", "!?", "[ab]",
    "*b", "!*b", ".*", "!.a", "a*", "e", "!A", "# a", "", "*.b", "\\!a", "a ", "/*/", "!*/"]
NAMES = ["a", "b", "a/", "b/", "*", "!a", "!b", "!a/", "?", "!?", "[ab]", "*b", "!*b", ".*", "!.a", "a*", "e", "!A", "*.b"]
GIT = {"GIT_CONFIG_NOSYSTEM": "1", "GIT_CONFIG_GLOBAL": "/dev/null"}

# Lines about words that may have been meant otherwise.
HINT = re.compile(
    r"globs: (`.*` (is a (directory|regular file|symbolic link)|is not (there|a directory),"
    r"|matches (one path|only (names at the start|paths of more names)))"
    r"|-x .* ignores all that |\[\^ lists a \^ here|the start is ignored by )"
)

# Patterns, and how many directories are listed in a tree with src/{a.c,b.c,deep/c.c}, lib/{a.h,b.h} and doc/x. If the
# last word is a path that does not exist, one more is listed, for a line about what is there.
LISTED = [("src/*.c lib/a*", 2), ("src/a.c lib/a.h doc", 0), ("*", 1), ("*/a.c", 1), ("src/**/*.c", 2), ("**/*.c", 5),
    ("doc/y src/deep/*.c", 1), ("-x deep src/**", 1), ("--max-depth 2 **", 4), ("-i SRC/*.c", 2),
    ("src/deep/*.c doc/y", 2)]


def some_components(source, count):
    """`count` components, each as a list of its alternatives."""
    return [source.choices(make.PLAIN_COMPONENTS, k=source.choice([1, 1, 1, 2])) for _ in range(count)]


def some_patterns(source):
    """One to three patterns, each of up to four components, which are lists of alternatives. In half of the cases the
    patterns have a common beginning."""
    shared = some_components(source, source.choice([0, 0, 1, 2]))
    return [shared + some_components(source, source.choice([1, 1, source.randint(1, 4 - len(shared))]))
        for _ in range(source.choice([1, 1, 2, 3]))]


def written(pattern):
    """The text of a pattern, with braces where a component has alternatives."""
    return "/".join(some[0] if len(some) == 1 else "{" + ",".join(some) + "}" for some in pattern)


def is_kept(path, rules, tree):
    """Whether no rule names the path or a directory above it."""
    above = list(itertools.accumulate(path.split("/"), "{}/{}".format))
    return not any(rule in above and (tree[rule] or not only_directories) for rule, only_directories in rules)


def is_wanted(path, end, options):
    """Whether the options ask for a path with this end."""
    kinds = options[1::2] if options[:1] == ["-t"] else "fdl"
    depth = int(options[1]) if options[:1] == ["--max-depth"] else 99
    return {"": "f", "/": "d"}.get(end, "l") in kinds and path.count("/") < depth


def matched(paths, patterns, options):
    """Those of the paths that one of the patterns matches, in order."""
    plain = ["/".join(it) for pattern in patterns for it in itertools.product(*pattern)]
    letters = "s" + "".join(word[1] for word in options if word in ("-i", "-d"))
    found = [path for path in paths if any(reference.matches(pattern, path, letters) for pattern in plain)]
    return sorted(found, key=lambda path: [name.encode() for name in path.split("/")])


def some_end(source, path, tree):
    """The end of a path for `place`: that of a directory, a file, or a link, perhaps to a directory, even one above."""
    if tree[path]:
        return "/"
    target = os.path.relpath(source.choice([*tree, "."]), os.path.dirname(path) or ".")
    return source.choice(["", f"->{target}"])


def ascii_name(source):
    """A name in which git, too, takes each character for one."""
    return make.few_name(source).replace("é", "e")


class Searches:
    """What is compared, in a folder for each tree."""

    def __init__(self, source):
        self.source, self.count = source, Count()

    def same(self, top, what, words, wanted):
        """Compares the output of a search."""
        status, output, errors = run([built("globs"), "find", *words], cwd=top)
        faults = [line for line in errors.splitlines() if not HINT.match(line)]
        self.count.same(f"{what} {words}", (output.splitlines(), faults, status), (wanted, [], not wanted))

    def filtered(self, top):
        """Searches a tree, and compares with a filter of its paths. Most of the searches begin in another directory, or
        have patterns that lead from there to the top."""
        source = self.source
        tree = make.grown(source, source.randint(0, 30), make.few_name, 0.7)
        ends = {path: some_end(source, path, tree) for path in tree}
        make.place(top, [path + end for path, end in ends.items()])
        for _ in range(EACH):
            options, patterns = source.choice(OPTIONS), some_patterns(source)
            rules = [(source.choice([*tree] or ["b"]), source.random() < 0.5) for _ in range(source.randint(0, 3))]
            kept = [path for path in tree if is_kept(path, rules, tree) and is_wanted(path, ends[path], options)]
            excluded = [word for rule, only in rules for word in ("-x", f"/{rule}" + "/" * only)]
            starts = [([], top, ["", "./", "././"]), (["-C", top], "/", ["", "./"])]
            starts += [(["-C", path], top, ["../" * len(path.split("/")), "./" + "../" * len(path.split("/"))])
                for path in tree if tree[path]]
            start, place, leads = source.choice(starts)
            led = [(source.choice(leads), pattern) for pattern in patterns]
            words = [*start, *excluded, *options, *(lead + written(pattern) for lead, pattern in led)]
            wanted = [lead + path for lead in dict.fromkeys(lead for lead, _ in led)
                for path in matched(kept, [pattern for other, pattern in led if other == lead], options)]
            self.same(place, sorted(tree), words, wanted)

    def beside_git(self, top):
        """Searches a tree with ignore files, or a directory in it, and compares with what git lists there."""
        source = self.source
        tree = make.grown(source, source.randint(1, 30), ascii_name, 0.7)
        files = {f"{path}/.gitignore" for path in ["."] + [it for it in tree if tree[it]] if source.random() < 0.4}
        run(["git", "init", "-q", "--template=", top], env={**os.environ, **GIT})
        make.place(top, [path + "/" * is_dir for path, is_dir in tree.items()])
        make.place(top, [f"{file}={self.rules()}" for file in [*files, ".git/info/exclude"]])
        below = source.choice([".", source.choice([".", *(path for path in tree if tree[path])])])
        start = os.path.join(top, below)
        # git asks its `-x` about the start, too.
        rules = source.choices(NAMES, k=source.choice([0, 0, 1, 2])) if below == "." else []
        excluded = [word for rule in rules for word in ("-x", rule)]
        words = ["git", "ls-files", "-co", "--exclude-standard", "-z", *excluded]
        listed = run(words, cwd=start, env={**os.environ, **GIT})[1].split("\0")[:-1]
        for _ in range(EACH):
            patterns, options = some_patterns(source), source.choice([[], ["-i"], ["-d"], ["--max-depth", "2"]])
            words = ["--git", "-t", "f", *excluded, *options, *map(written, patterns)]
            found = [path for path in listed if is_wanted(path, "", options)]
            self.same(start, f"{sorted(tree)} {sorted(files)} {start}", words, matched(found, patterns, options))

    def rules(self):
        """The text of an ignore file."""
        return "".join(f"{rule}\n" for rule in self.source.choices(RULES, k=self.source.randint(0, 4)))

    def listed(self, top):
        """Counts the directories that searches list."""
        make.place(top, ["src/a.c", "src/b.c", "src/deep/c.c", "lib/a.h", "lib/b.h", "doc/x"])
        for words, wanted in LISTED:
            calls = ["strace", "-f", "-e", "trace=open,openat", "-o", "/dev/stdout", built("globs"), "find", *words.split()]
            output = run(calls, cwd=top)[1]
            opened = re.findall(r'open(?:at)?\((?:AT_FDCWD, )?"(?!/)[^"]*", [^)]*O_DIRECTORY', output)
            self.count.same(f"directories listed by {words}", len(opened), wanted)


def main():
    options = argparse.ArgumentParser()
    options.add_argument("--seed", type=int, default=1)
    options.add_argument("--searches", type=int, default=40_000)
    options = options.parse_args()
    searches = Searches(random.Random(options.seed))
    rounds = [searches.filtered] + [searches.beside_git] * bool(has("git", "searches beside git"))
    for number in range(options.searches // EACH):
        with tempfile.TemporaryDirectory() as top:
            rounds[number % len(rounds)](top)
    if has("strace", "directories that are listed"):
        with tempfile.TemporaryDirectory() as top:
            searches.listed(top)
    searches.count.end()


main()
