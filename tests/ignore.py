#!/usr/bin/env python3
"""Compares ignore lists with git. First, questions with recorded answers in tests/rows/git.answers, in the format of
`glob_vectors rules`: answers of git 2.39 and, at the end and marked R, lists that are refused according to
docs/IGNORE.md. Then random lists and trees, and which line decides for each path: for some of them by `globs ignore -v`.
Then random repositories with ignore files at any depth, and paths asked about from any directory in them: which of them
`globs ignore --git` copies, and which file and line decides.

    tests/ignore.py [--seed N] [--lists N] [--repositories N]

Prints each difference, except for those that docs/IGNORE.md lists. The last line counts recorded answers, lists and
questions about repositories: 'N passed, M failed'."""

import argparse
import itertools
import os
import random
import re
import subprocess
import sys
import tempfile

from lib.count import ROOT, Count, built, has, run
from lib.make import grown, place, some

# The number of lists for one git process.
BATCH = 400

NAMES = ["a", "b", "c", "ab", "abc", "ba", ".a", ".b", "a.o", "b.o", "A", "1", "x.c", "F", "_", "~", "\n", "\x0b", "a b", "a ", " a",
    "a-b", "-", "]", "[", "!a", "#a", "^", "*", "?", "a*", "**", "b\\", "\\a", "a\\b", "a1", "12", "é", "aé", "{a}", "a\tb", "\x7f", "a\r",
    ":", "a,b", "[a]", "a]"]
PIECES = ["a", "b", "c", "ab", ".o", ".", "*", "*", "*", "?", "**", "**/", "/**", "/**/", "/", "/", "/", "[ab]", "[!a]", "[^a]", "[a-c]",
    "[]a]", "[!]a]", "[a-]", "[-a]", "[--a]", "[z-a]", "[a-c-e]", "[\\]a]", "[a\\-z]", "[!-]", "[\\!-]", "[a/b]", "[/]", "[", "]", "[a",
    "\\*", "\\?", "\\[", "\\a", "\\!", "\\#", "\\ ", "\\/", "\\", " ", "-", "!", "#", "***", "****", "1", "é", "[.-9]", "[*]", "[?]", "[!*]"]
ODD = ["[[:word:]]", "[[:ALPHA:]]", "[[::]]", "[[:a[:digit:]]", "[é]", "a**/", "[:a]"]
CLASSES = ["alnum", "alpha", "blank", "cntrl", "digit", "graph", "lower", "print", "punct", "space", "upper", "xdigit"]
ITEMS = ["a", "A-Z", "0", "-", "-", "[", "[:", ":", ":]", "\\]", "!", " "] + [f"[:{name}:]" for name in CLASSES]
SOUP = "ab*/[]!-\\?.^ c#{"
REAL = ["*.o", "*.[oa]", "!keep.o", "/build", "/build/", "a/", "!a/", "b/", "/a/*", "!/a/b", "a/**", "!a/b", "**/a", "**/a/b", "a/**/b",
    ".*", "!.a", "*~", "#*#", "\\#*", "a?", "[Aa]", "*.c", "ab*", "/*", "!/a", "/a/b/", "c", "!c", "", "# text", "*", "!*/", "!*.o", "a b", "a\\ "]


def bracket(rng):
    """A bracket that may have classes, or what looks like one."""
    return "[" + rng.choice(["", "", "!", "^", "]", "^]"]) + some(rng, 1, 4, ITEMS) + "]"


def rule(rng):
    kind = rng.random()
    if kind < 0.3:
        return rng.choice(REAL)
    if kind < 0.4:
        text = rng.choice(["", "", "a", "*", "*/"]) + bracket(rng) + rng.choice(["", "", "", "*", "/b", bracket(rng)])
    elif kind < 0.7:
        text = some(rng, 1, 5, PIECES)
    elif kind < 0.73:
        text = rng.choice(ODD) + rng.choice(["", "a", "/b", "*"])
    elif kind < 0.9:
        text = some(rng, 1, 7, SOUP)
    else:
        text = "/".join(rng.choices(NAMES, k=rng.randint(1, 3)))
    front, end = rng.choice(["", "", "", "!", "/", "!/"]), rng.choice(["", "", "", "", "/", " ", "  ", "\r", "\\ ", " \\ "])
    return front + text + end


def file_of(rng):
    lines = [rule(rng) for _ in range(rng.randint(1, 7))]
    return rng.choice(["", "", "", "", "\ufeff"]) + "\n".join(lines) + rng.choice(["", "\n", "\n", "\r\n"])


def name(rng):
    return rng.choice(NAMES[:12] if rng.random() < 0.7 else NAMES)


def git_says(folder, cases):
    """The deciding line of each question, 0 for none, and how that rule is written."""
    subprocess.run(["git", "init", "-q", folder], check=True)
    for number, (text, paths) in enumerate(cases):
        place(f"{folder}/L{number}", [f".gitignore={text}", *(path + "/" * is_dir for path, is_dir in paths)])
    asked = [f"L{number}/{path}" for number, (_, paths) in enumerate(cases) for path, _ in paths]
    env = {**os.environ, "GIT_CONFIG_NOSYSTEM": "1", "HOME": folder, "XDG_CONFIG_HOME": folder}
    words = ["git", "-C", folder, "check-ignore", "--no-index", "-v", "-n", "-z", "--stdin"]
    status, output, errors = run(words, input="\0".join(asked).encode(), env=env, text=False)
    fields = output.decode().split("\0")[:-1]
    if status > 1 or fields[3::4] != asked:
        sys.exit(f"git: {errors.decode()}")
    return [(int(line or 0), rule) for line, rule in zip(fields[1::4], fields[2::4])]


def answers(asked):
    """The lines that the program answers."""
    return subprocess.check_output([built("glob_vectors"), "rules"], input=asked).decode().splitlines()


def ours(cases):
    """The answers of the program: for each list a refusal, or the deciding line for each question."""
    asked = [word for text, paths in cases for word in ["L" + text, *("fd"[is_dir] + path for path, is_dir in paths)]]
    lines = iter(answers("\0".join(asked).encode()))
    for _, paths in cases:
        first = next(lines)
        yield first if first.startswith("R ") else [int(first)] + [int(next(lines)) for _ in paths[1:]]


# refused according to docs/IGNORE.md: an unknown class, a bracket beyond ASCII, stars beside other text, a NUL
REFUSED = re.compile(rf"\[:(?!({'|'.join(CLASSES)}):\])[^\]]*:|\[.*[^\x00-\x7f]|[^/]\*\*|\0")


# taken by git for the name of a directory, according to docs/IGNORE.md: a**//
STARS_AT_END = re.compile(r"[^/]\*\*//\s*$", re.MULTILINE)


def is_named(text, path):
    """Whether a difference is a known one: git matches a byte where the list matches a character, and takes `a**//` for
    `a/`."""
    return STARS_AT_END.search(text) or not path.isascii() and any(unit in text for unit in ["?", "[!", "[^"])


def compare_refusal(count, text, refusal):
    """A refused list must have a line that is refused according to docs/IGNORE.md."""
    number, reason = refusal.removeprefix("R line ").split(": ", 1)
    count.check(REFUSED.search(text.split("\n")[int(number) - 1]), f"list {text!r}: refused, {reason}")


def compare(count, text, paths, expected, answer):
    wrong = [(path, git, we) for (path, _), git, we in zip(paths, expected, answer)
        if git != we and not is_named(text, path)]
    count.check(not wrong, f"list {text!r}, path, line of git, line of ours: {wrong}")


def compare_batch(count, cases):
    with tempfile.TemporaryDirectory() as folder:
        says = iter(git_says(folder, cases))
        for number, ((text, paths), answer) in enumerate(zip(cases, ours(cases))):
            expected = [next(says) for _ in paths]
            if isinstance(answer, str):
                compare_refusal(count, text, answer)
                continue
            lines = [line for line, _ in expected]
            compare(count, text, paths, lines, answer)
            if number % 20 == 0 and lines == answer:
                compare_named(count, f"{folder}/L{number}", text, paths, expected)


def compare_named(count, folder, text, paths, expected):
    """`globs ignore -v` names the rules that git does."""
    asked = "".join(path + "/" * is_dir + "\0" for path, is_dir in paths)
    words = [built("globs"), "ignore", "-v", "-0", ".gitignore"]
    status, output, _ = run(words, input=asked.encode(), cwd=folder, text=False)
    named = []
    for (path, is_dir), (line, rule) in zip(paths, expected):
        if line:
            named += [".gitignore", str(line), rule, path + "/" * is_dir]
    wanted = 0 if named else 1, "".join(field + "\0" for field in named)
    count.same(f"list {text!r}, -v", (status, output.decode()), wanted)


def plain_name(rng):
    return rng.choice(NAMES[:12])


def check_ignore(start, asked, *words):
    """The fields that git writes about paths below a directory."""
    env = {**os.environ, "GIT_CONFIG_NOSYSTEM": "1", "GIT_CONFIG_GLOBAL": "/dev/null"}
    words = ["git", "check-ignore", "--no-index", "-z", "--stdin", *words]
    status, output, errors = run(words, input="\0".join(asked).encode(), cwd=start, env=env, text=False)
    if status > 1:
        sys.exit(f"git: {errors.decode()}")
    return output.decode().split("\0")[:-1]


def compare_repository(count, rng, top):
    """`globs ignore --git` copies the paths of a random repository that git does not ignore, and with -v it names the
    rules that git does. Each directory is asked about with a `/` at its end, which git does not need."""
    tree = grown(rng, rng.randint(1, 30), plain_name, 0.6)
    files = [path for path in [".", *(it for it in tree if tree[it])] if rng.random() < 0.5]
    run(["git", "init", "-q", "--template=", top])
    place(top, [path + "/" * is_dir for path, is_dir in tree.items()])
    rules = [f"{path}/.gitignore" for path in files] + [".git/info/exclude"]
    place(top, [f"{path}=" + "\n".join(rng.choices(REAL, k=rng.randint(0, 5))) for path in rules])
    for start in {".", rng.choice([".", *(path for path in tree if tree[path])])}:
        compare_start(count, rng, top, start, {os.path.relpath(path, start): tree[path] for path in tree})


def compare_start(count, rng, top, start, tree):
    """The same for paths from one directory on."""
    place_of = os.path.join(top, start)
    asked = [path for path in tree if not path.startswith("..") and path != "."]
    asked += [f"{path}/{plain_name(rng)}" for path in asked if rng.random() < 0.3]
    rng.shuffle(asked)
    ours = [path + "/" * tree.get(path, False) for path in asked]
    fields = check_ignore(place_of, asked, "-v", "-n")
    says = list(zip(fields[::4], fields[1::4], fields[2::4], ours))
    ignored = set(check_ignore(place_of, asked))
    kept = [our for path, our in zip(asked, ours) if path not in ignored]
    named = [(os.path.relpath(file, start), *others) for file, *others in says if file]
    what = f"repository {top} {start} {ours}"
    for words, wanted in (([], kept), (["-v"], [field for fields in named for field in fields])):
        words = [built("globs"), "ignore", "--git", "-0", *words]
        status, output, _ = run(words, input="\0".join(ours).encode(), cwd=place_of, text=False)
        count.same(f"{what} {words[4:]}", (status, output.decode().split("\0")[:-1]), (0 if wanted else 1, wanted))


def compare_kept(count):
    kept = (ROOT / "tests/rows/git.answers").read_text(encoding="utf-8").splitlines()
    found = answers((ROOT / "tests/rows/git.questions").read_bytes())
    for at, (git, we) in enumerate(itertools.zip_longest(kept, found), 1):
        count.same(f"kept answer {at}", we, git)


def main():
    options = argparse.ArgumentParser()
    options.add_argument("--seed", type=int, default=random.randrange(10**6))
    options.add_argument("--lists", type=int, default=2000)
    options.add_argument("--repositories", type=int, default=80)
    options = options.parse_args()
    print(f"--seed {options.seed}")
    source, count = random.Random(options.seed), Count()
    compare_kept(count)
    for _ in range(options.lists // BATCH if has("git", "random ignore lists") else 0):
        trees = [grown(source, source.randint(8, 30), name, 0.6) for _ in range(BATCH)]
        compare_batch(count, [(file_of(source), sorted(tree.items())) for tree in trees])
    for _ in range(options.repositories if has("git", "random repositories") else 0):
        with tempfile.TemporaryDirectory() as top:
            compare_repository(count, source, top)
    count.end()


main()
