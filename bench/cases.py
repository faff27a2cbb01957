"""What is measured: a row for each case, in the tables of each report. In the arguments of a row, `paths` and `stars`
are files."""

from collections import namedtuple

# The meaning of each option letter.
RULES = {"i": "case-insensitive", "s": "separator rule", "d": "dot rule"}


# A case: its name, the arguments for the programs, and how often ours and the crate's repeat it.
Row = namedtuple("Row", "name words times times_of_crate", defaults=(1, 0))


# An argument that is a file with this content, after a mark.
Text = namedtuple("Text", "content mark")


def said(letters):
    """The options in words, after a comma."""
    return "".join(f", {RULES[letter]}" for letter in letters)


# A pattern, its options, and how often it is matched with a million paths.
PATTERNS = [
    ("*.rs", "", 1),
    ("**/*.rs", "", 1),
    ("src/**/mod.rs", "", 1),
    ("**/test*/**/*.rs", "", 1),
    ("src/walk/mod.rs", "", 10),
    ("=never/*.rs", "", 10),
    ("*[0-9][a-f]*", "", 1),
    ("*/[!.]*_?ath*.[ch]", "", 1),
    ("*", "", 1),
    ("*readme*", "i", 1),
    ("src/*/[A-Z]*.RS", "i", 1),
    ("*/*/*.rs", "s", 1),
    ("**/*.rs", "d", 1),
    ("**/.*", "sd", 1),
]


def of_patterns(patterns):
    """A row for each pattern."""
    return [Row(f"match `{it}`{said(letters)}", ("match", letters or "-", it, "paths"), times)
        for it, letters, times in patterns]


MATCHES = of_patterns(PATTERNS)

# Patterns that are each matched case-sensitively and case-insensitively.
SIX = ("*.rs", "**/*.h", "[a-z]*/[!.]*", "*config*", "src/config.toml", "*[a-z][0-9]*")
BOTH_CASES = of_patterns((it, letters, 1) for it in SIX for letters in ("", "i"))

# The text has the pattern's literal suffix, so that its end does not decide. The crate's time grows about tenfold with
# each star.
STARS = [Row(f"match `*a` {stars} times and `b`, with `a` 60 times and `/ab`, separator rule",
    ("match", "s", "*a" * stars + "b", "stars"), 1000, 1) for stars in (4, 5, 6)]

# Ten characters or a pattern, and how often it is repeated in the text to parse.
TEXTS = [(ten, often) for ten in ("a*b[c-e]?/", "abcdefgh*/", "*?a?*?b?*?") for often in (1, 10, 1_000)]
TEXTS += [(it, 1) for it in ("*.rs", "*", "?", "src/**/*.rs", "**/node_modules/**", "[a-z]*/[!.]*", "src/config.toml")]


def of_texts(command, verb):
    """A row for each text, repeated until some million characters are read."""
    return [Row(f"{verb} `{it}` {often:,} times" if often > 1 else f"{verb} `{it}`", (command, it * often),
        10_000_000 // (len(it) * often)) for it, often in TEXTS]


PARSES, COPIES = of_texts("compile", "parse"), of_texts("clone", "copy")

# Cases for which matching could be slow: a name, the pattern, the text and the options.
TEN, CYRILLIC = "abcdefghij", "документы/проект/отчёт.txt"
LONG_PATH = "/data/somebody/projects/a-rather-long-name/src/{}/generated/{}_test.rs"
ATTACKS = [
    (f"`{CYRILLIC}` on itself", CYRILLIC, CYRILLIC, ""),
    (f"`{CYRILLIC}` on a text with another first character", CYRILLIC, "архив/проект/отчёт.txt", ""),
    ("`*` and 60 Cyrillic letters on 1,000", "*" + "а" * 60, "а" * 1000, "s"),
    ("`*привет*`", "*привет*", "мир/" * 10 + "привет" + "д" * 20, ""),
    ("`*.txt` on a Cyrillic path", "*.txt", CYRILLIC, ""),
    ("`**/*.txt` on a Cyrillic path", "**/*.txt", CYRILLIC, "s"),
    ("a path of 76 characters with `**` and `*`", LONG_PATH.format("**", "[a-z]*"), LONG_PATH.format("walk/inner", "x"), "s"),
    ("`**/`, 72 literals and `/*`", f"**/{'abcdefgh' * 9}/*", f"x/y/{'abcdefgh' * 9}/z", ""),
    *((f"`*`, {10 * often:,} literals of a period of ten and `*`, found at the start", f"*{TEN * often}*", f"{TEN * often}zz",
        "") for often in (30, 200, 10_000)),
    ("`*`, 500 `?` and `*` on 600 letters", f"*{'?' * 500}*", "a" * 600, ""),
    ("`*`, 600 `a` and `*` on 599", f"*{'a' * 600}*", "a" * 599, ""),
    ("`*a*`", "*a*", "bbbbbbbbbbabbbbbb", ""),
    ("`????????`", "????????", "abcdefgh", ""),
    ("`?`", "?", "a", ""),
    ("the empty pattern on the empty text", "", "", ""),
]
ESCAPES = [Row("escape `a*` 500 times", ("escape", "a*" * 500), 10_000)]
# Patterns whose memory in bytes is counted after a match of a text.
WEIGHED = ["*.rs", "*a*", "*test*", "**/node_modules/**", "[a-z]*/[!.]*", "src/**/*.rs", "*" + "?*" * 64]
WEIGHED_AFTER = "aaaaaaaaaaaaaaaaaaaaaaaatestaaa"
# Patterns with options that are matched with paths, compared with globset and wildmatch.
BESIDE_PEERS = [("*a*e*i*", ""), ("*[a-z][0-9]*", ""), ("????????*", ""), ("**/[a-c]*/**/*e*", "s")]

# The programs, with the paths as standard input.
FILTERS = [Row(f"program `{it}`{said(letters)}", ("match", *(f"-{letter}" for letter in letters), it))
    for it, letters, _ in PATTERNS]

# Trees of bench/inputs.py, each with the patterns whose walks are so short that they are repeated 200 times.
TREES = {"wide": ["*", "*.rs"], "flat": [], "chain": ["*", "*.rs", "*/*/*.rs"]}
# Patterns, how deep each reaches, and whether no entry of the last level is looked up.
WALKS = [("**/*.txt", 9999, False), ("*", 1, True), ("*.rs", 1, True), ("**", 9999, False), ("*/*/*.rs", 3, True)]

# The arguments with which each finder leaves out two directories, finds names with a suffix, and uses one thread.
OTHERS = ["target", "node_modules"]
FINDERS = {
    "ours": ["globs", "find", *(word for name in OTHERS for word in ("-x", name)), "**/*.rs"],
    "fd -I": ["fd", "-I", "--threads", "1", *(word for name in OTHERS for word in ("-E", name)), "--glob", "*.rs"],
    "rg --files": ["rg", "--files", "--no-ignore", "-j1", "-g", "*.rs",
        *(word for name in OTHERS for word in ("-g", f"!{name}"))],
}

# The number of patterns of a set, and of paths to match. With 5,000 patterns, globset needs milliseconds for a path.
SETS = {125: 20_000, 482: 2_000, 5_000: 50}
QUESTIONS = ["all", "first", "last", "any"]
# About how many paths ours is asked in one run, and how many patterns are read while sets are made. And of how many
# seconds two rounds are enough.
ASKED, MADE, LONG = 50_000, 20_000, 0.5


# Kinds of patterns, each with a placeholder for a number. The first ones are also measured by themselves, in sets of
# these sizes.
KINDS = ["name{}/**", "**/name{}/**", "src/mod{0}/file{0}.rs", "x/*/{}/*", "*.ext{}", "**/file{}.c", "src/mod{}/*.rs", "*n{}*x",
    "**/*.ext{}", "**/name{}*", "**/*-{}.js", "lib{}.a", "docs/{}/**", "**/*[0-9]{}?.log"]
KINDS_ALONE, SIZES_ALONE = KINDS[:8], (500, 5_000)
# The numbers of random sets and shapes, and of the worst ones to print.
RANDOM_SETS, RANDOM_SHAPES, WORST = 800, 8_000, 10
# About how many microseconds each side works in a round: on a shape or a million paths, on a random shape, and on a
# set. And the most seconds that a report takes.
ROUND, RANDOM_ROUND, SET_ROUND, SECONDS = 10_000, 150, 400, 600


# Work of size n, whose cost should be proportional to n: the arguments of the program, with long ones as a Text.
Growth = namedtuple("Growth", "name size words")


def parse(unit):
    return Growth(f"parse `{unit}` over and over, n characters", 10**6,
        lambda n: ("compile", Text(unit * (n // len(unit)), "@")))


def match(name, size, pattern, text, letters="-"):
    """Matches a pattern and a text made from n."""
    return Growth(f"match {name}", size, lambda n: ("match", letters, Text(pattern(n), "@"), Text(text(n) + "\n", "")))


def walk(name, pattern):
    """Walks directories in memory, by a pattern longer than a path on a disk can be."""
    return Growth(f"walk {name} n times", 10**5, lambda n: ("walk", Text(pattern * n, "@"), "1"))


def same(it):
    return lambda n: it


THOUSAND = "a" * 1000
SPANS = "".join(f"{chr(it)}-{chr(it)}" for it in range(0x10000, 0x10000 + 20_000, 2))
GROWTHS = [
    *map(parse, ("a", "?", "*a", "**/", "**/a/", "[a]", "[!a]", "[a-z]")),
    match("n `a` with n letters", 10**6, lambda n: "a" * n, lambda n: "a" * n),
    match("n `[a]` with n letters", 10**6, lambda n: "[a]" * n, lambda n: "a" * n),
    match("n `*a` and `b` with 1,000 letters", 10**5, lambda n: "*a" * n + "b", same(THOUSAND + "b")),
    match("n `*a` and `b`, separator rule, with `/ab` at the end", 10**5, lambda n: "*a" * n + "b", same(THOUSAND + "/ab"),
        "s"),
    match("n `**/a/` with 500 components", 10**5, lambda n: "**/a/" * n, same("a/" * 500)),
    match("n `*/`, separator rule, with 500", 10**5, lambda n: "*/" * n, same("a/" * 500), "s"),
    match("`*` and n ranges with 1,000 letters", 10_000, lambda n: f"*[{SPANS[:3 * n]}]", same("é" * 1000)),
    match("`*a` 1,000 times and `b` with n `a` and `b`", 10**6, same("*a" * 1000 + "b"), lambda n: "a" * n + "b"),
    match("`**/*.rs`, both rules, n `a` and `.rs`", 10**6, same("**/*.rs"), lambda n: "a" * n + ".rs", "sd"),
    match("`*[!a]*`, case-insensitive, n letters", 10**6, same("*[!a]*"), lambda n: "a" * n, "i"),
    *(walk(f"`{unit}`", unit) for unit in ("./", "*/", "**/")),
]
