"""Makes random shapes: patterns of pieces in four scripts, each with options and a text that matches or nearly does.
Also makes random sets of patterns, each with paths. The same seed gives the same cases."""

import itertools
import math
import random
import re
import string
from collections import namedtuple

import inputs
from cases import KINDS, KINDS_ALONE, SIZES_ALONE
from lib.make import SETTINGS, some

Shape = namedtuple("Shape", "script letters pattern text")
Patterns = namedtuple("Patterns", "kinds letters patterns paths")

# The letters of each script.
ASCII = "ASCII"
SCRIPTS = {
    ASCII: string.ascii_letters + string.digits + "_- ",
    "Latin with accents": "aeiounrst" * 2 + "àâäçéèêëîïñóôöúüßæøåÀÉÖÜ",
    "Cyrillic": "".join(map(chr, range(ord("А"), ord("я") + 1))) + "ёЁ",
    "CJK and astral": "中文資料東京漢字日本語年月日目録一二三" + "𝒳𝒴𝒵𠀀𠮷😀🙂",
}
# The share of shapes with few letters, in which many tokens may match a character, and how many letters those have.
SHARE_OF_FEW, FEW = 0.15, 3
# How many pieces a pattern has, and the kinds of pieces with how often each comes.
PIECES = (1, 14)
KINDS_OF_PIECES = {
    "short": 18, "word": 20, "line": 5, "long": 1, "/": 14, "end": 6, "?": 7, "??": 3, "*": 18, "**/": 9, "[a]": 5,
    "[a-z]": 6, "[!a]": 4, "[!a-z]": 3,
}
LENGTHS = {"short": (1, 3), "word": (3, 10), "line": (12, 60), "long": (60, 400)}
# Limits on the characters that the wildcards of a pattern match together, one of them chosen for each shape.
FILLS = (0, 8, 30, 30, 80, 400, 4000)
# The crate backtracks: shapes that it may split in more ways than this are left out.
MOST_WAYS = 200_000
# The most patterns of a random set, and the number of paths to match.
LARGEST_SET, PATHS = 3000, 100
# The share of the paths that are of the kind of a pattern.
SHARES = (0, 0.5)
# What wildcards of these patterns match in the paths. These are few, since globset is slow if texts vary much.
NAMES = {"**/": ["", "src/", "lib/", "a/b/"], "**": ["a.rs", "src/b.c"], "*": ["main", "other", "y"], "?": "0a"}


def bracket(source, kind, letters):
    """A bracket, and a character that it matches."""
    listed = source.sample(letters, min(len(letters), source.choice((1, 2, 3, 5))))
    if "-" in kind:
        listed = [f"{min(it)}-{max(it)}" for it in (source.sample(letters, 2) for _ in range(source.choice((1, 1, 2))))]
    held = [c for c in letters if any(it[0] <= c <= it[-1] for it in listed)]
    others = [c for c in letters if c not in held] or ["."]
    is_inverted = kind[1] == "!"
    return f"[{'!' * is_inverted}{''.join(listed)}]", source.choice(others if is_inverted else held)


def filled(source, letters, most, others=""):
    """Up to `most` characters, about one in seven of them from `others`."""
    return some(source, 0, most, letters * 2 + others * -(-len(letters) // 3))


def piece(source, kind, letters, options, fill):
    """A piece of a pattern, and a text that it matches."""
    if kind in LENGTHS:
        literal = some(source, *LENGTHS[kind], letters)
        return literal, literal
    if kind == "end":
        return (source.choice([it for it in inputs.ENDINGS if it]),) * 2
    if kind[0] == "?":
        run = source.randint(1, 8) if kind == "??" else 1
        return "?" * run, some(source, run, run, letters)
    if kind == "*":
        return kind, filled(source, letters, fill, "" if "s" in options else "/")
    if kind == "**/":
        folders = source.choice((0, 0, 1, 1, 2, 3, 8))
        return kind, "".join(f"{some(source, 1, max(1, fill // 8), letters)}/" for _ in range(folders))
    return bracket(source, kind, letters) if kind[0] == "[" else (kind, kind)


def other_case(source, text):
    """The text with some letters of ASCII in their other case."""
    return "".join(c.swapcase() if c.isascii() and source.random() < 0.3 else c for c in text)


def nearly(source, text, letters):
    """The text with a character removed, inserted or replaced, often at an end."""
    at = source.choice((0, len(text), max(0, len(text) - 1), source.randint(0, len(text))))
    return text[:at] + source.choice(("", source.choice(letters))) + text[at + source.choice((0, 1)) :]


def pieces(source, letters, options):
    """A pattern, and a text that it matches."""
    kinds = source.choices([*KINDS_OF_PIECES], KINDS_OF_PIECES.values(), k=source.randint(*PIECES))
    wildcards = sum(kind[0] == "*" for kind in kinds)
    fill = source.choice(FILLS) // max(1, wildcards)
    pattern = text = ""
    for kind in kinds:
        # Add what the grammar requires between stars and before `**/`.
        if kind == "**/" and pattern and pattern[-1] != "/":
            pattern, text = f"{pattern}/", f"{text}/"
        elif kind == "*" and pattern.endswith("*"):
            continue
        written, taken = piece(source, kind, letters, options, fill)
        pattern, text = pattern + written, text + taken
    return pattern, text


def ways(shape):
    """The most ways in which the crate may split the text."""
    wildcards = len(re.findall(r"\*\*/|\*", shape.pattern))
    return math.comb(len(shape.text) + wildcards, wildcards)


def shape(source):
    """A random shape."""
    script, options = source.choice([*SCRIPTS]), source.choice(SETTINGS)
    letters = SCRIPTS[script]
    if source.random() < SHARE_OF_FEW:
        letters = "".join(source.sample(letters, FEW))
    pattern, text = pieces(source, letters, options)
    if "i" in options:
        text = other_case(source, text)
    if source.random() < 0.5:
        text = nearly(source, text, letters)
    found = Shape(script, options, pattern, text)
    return found if ways(found) <= MOST_WAYS else shape(source)


def shapes(seed, count):
    """`count` shapes."""
    source = random.Random(seed)
    return [shape(source) for _ in range(count)]


def path_of(source, kind, number):
    """A path that the pattern of a kind and a number matches."""
    path = re.sub(r"\*\*/|\*\*|\*|\?", lambda it: source.choice(NAMES[it[0]]), kind.format(number))
    return re.sub(r"\[(.).*?\]", r"\1", path)


def set_of(source, kinds, size, share, letters="s"):
    """A set of patterns of these kinds, with paths. About `share` of the paths are of these kinds, some with a number
    that no pattern has."""
    patterns = [source.choice(kinds).format(number) for number in range(size)]
    others = [kind for kind in KINDS if kind not in kinds]
    asked = [source.choice(kinds if source.random() < share else others) for _ in range(PATHS)]
    return Patterns(kinds, letters, patterns, [path_of(source, kind, source.randrange(size + 50)) for kind in asked])


def sets_of_kinds(seed):
    """Sets with one kind of patterns each, and the share of paths of this kind."""
    source = random.Random(seed)
    some = itertools.product(KINDS_ALONE, SIZES_ALONE, SHARES)
    return [(set_of(source, [kind], size, share), share) for kind, size, share in some]


def sets(seed, count):
    """`count` random sets, of one to four kinds."""
    source = random.Random(seed)
    for _ in range(count):
        kinds, size = source.sample(KINDS, source.randint(1, 4)), round(LARGEST_SET ** source.random() ** 0.5)
        yield set_of(source, kinds, size, source.choice(SHARES), source.choice(("", "s", "s", "is")))
