"""The rules of docs/DEFINITIONS.md, implemented once more as simply as possible: which texts are valid patterns, which
characters a token matches, how tokens split a text, and what a walk over a disk gives and charges. Options are letters:
i for case-insensitive, s for the separator rule, d for the dot rule."""

import functools
import itertools
import os
import re
from dataclasses import dataclass

LEXEME = re.compile(r"\*+|\?|\[!.[^]]*\]|\[[^!][^]]*\]|.", re.S)
TOKEN = re.compile(r"(?:\*\*/)*\*\*\Z|(?:\*\*/)+|" + LEXEME.pattern, re.S)
# The marks of a walk: a unit of work, a path, a directory that cannot be listed, and a reached limit. Each is written
# before its path.
WORK, FOUND, UNREAD, REFUSED = ".", "=", "!", "^"


# Patterns


def stars_fault(text, at, stars):
    """The place and the message of the fault of `stars` stars at a place, or None."""
    after = at + stars
    recursive = "recursive wildcards must form a single path component"
    if stars > 2:
        return at + 2, "wildcards are either regular `*` or recursive `**`"
    if stars == 2 and at > 0 and text[at - 1] != "/":
        return at - 1, recursive
    return (after, recursive) if stars == 2 and text[after : after + 1] not in ("", "/") else None


def fault_of(text):
    """The place and the message of the first fault of a text, or None if it is a valid pattern."""
    for found in LEXEME.finditer(text):
        fault = stars_fault(text, found.start(), len(found[0])) if found[0][0] == "*" else None
        if fault or found[0] == "[":
            return fault or (found.start(), "invalid range pattern")
    return None


def escaped(text):
    """The pattern that matches a text literally."""
    return re.sub(r"[][?*]", r"[\g<0>]", text)


def components_of(pattern):
    """The components of a pattern. A separator at the end does not count."""
    return pattern.removeprefix("/").removesuffix("/").split("/")


def walk_fault(pattern):
    """The fault for which a walk refuses a pattern: that of the whole pattern or else of the first component with one;
    or None."""
    return next(filter(None, map(fault_of, [pattern, *components_of(pattern)])), None)


@dataclass(frozen=True)
class Token:
    """A token: its text, its kind, and the ranges of a bracket."""

    written: str
    kind: str
    ranges: tuple = ()
    is_last: bool = False


def ranges_of(content):
    """The ranges of a bracket. A single character is a range from itself to itself."""
    found = re.findall(r"(.)-(.)|(.)", content, re.S)
    return tuple((first, last) if first else (single, single) for first, last, single in found)


@functools.cache
def tokens_of(pattern):
    """The tokens of a valid pattern. Adjacent `**` are one token."""
    found = TOKEN.findall(pattern)
    made = []
    for number, it in enumerate(found):
        if it in ("?", "*") or it.startswith("**"):
            kind, ranges = it[:2], ()
        elif len(it) == 1:
            kind, ranges = "literal", ((it, it),)
        else:
            kind = "[!]" if it[1] == "!" else "[]"
            ranges = ranges_of(it[len(kind) - 1 : -1])
        made.append(Token(it, kind, ranges, number + 1 == len(found)))
    return made


# Matches


def holds(first, last, c, letters):
    """Whether the range from `first` to `last` holds a character."""
    if first <= c <= last:
        return True
    if "i" not in letters or not (first + last + c).isascii():
        return False
    low, high, middle = (first + last + c).lower()
    return low == high == middle or (low.isalpha() and high.isalpha() and low <= middle <= high)


def takes(token, text, place, letters):
    """Whether a token matches the character at the place."""
    c = text[place]
    is_listed = any(holds(*it, c, letters) for it in token.ranges)
    if token.kind == "literal":
        return is_listed
    if "d" in letters and c == "." and (place == 0 or text[place - 1] == "/"):
        return False
    if token.kind == "**":
        return True
    return not ("s" in letters and c == "/") and (token.kind in "?*" or is_listed == (token.kind == "[]"))


@functools.lru_cache(100_000)
def taken(token, text, letters):
    """For each place, the end of the characters from there on that the token matches."""
    found = [len(text)] * (len(text) + 1)
    for place in reversed(range(len(text))):
        found[place] = found[place + 1] if takes(token, text, place, letters) else place
    return found


@functools.lru_cache(100_000)
def ends(token, text, letters):
    """For each place, where a piece of the token that starts there may end, in ascending order."""
    found = []
    for start, most in enumerate(taken(token, text, letters)):
        if token.kind in ("*", "**"):
            is_whole = token.kind == "*" or token.is_last
            found.append([end for end in range(start, most + 1) if is_whole or end == start or text[end - 1] == "/"])
        else:
            found.append([start + 1] if most > start else [])
    return found


def fronts(tokens, text, letters):
    """For each number of tokens from the start, the places up to which they match the text."""
    found = [{0}]
    for token in tokens:
        found.append({end for start in found[-1] for end in ends(token, text, letters)[start]})
    return found


def matches(pattern, text, letters):
    """Whether a pattern matches a text."""
    return len(text) in fronts(tokens_of(pattern), text, letters)[-1]


def shortest(tokens, text, letters, start=0):
    """Where the pieces of the tokens end in the first split, or None. Splits are ordered by the length of the first
    piece, then of the second, and so on, shorter before longer."""
    if not tokens:
        return [] if start == len(text) else None
    for end in ends(tokens[0], text, letters)[start]:
        rest = shortest(tokens[1:], text, letters, end)
        if rest is not None:
            return [end, *rest]
    return None


def reached(tokens, text, letters):
    """The last place up to which some tokens from the start match the text, and the indices of the tokens that wait
    there. A token waits if those before it match the text up to there; one that matches any number of characters also
    waits if it matches all characters from where those end up to there."""
    found = fronts(tokens, text, letters)
    place = max(itertools.chain(*found))
    waiting = []
    for number, token in enumerate(tokens):
        far = taken(token, text, letters)
        grows = token.kind in ("*", "**")
        if any(start == place or (grows and start < place <= far[start]) for start in found[number]):
            waiting.append(number)
    return [place, *waiting]


# Walks


@dataclass(frozen=True)
class Rules:
    """How the walks of some releases of the crate differ."""

    drops_dotted: bool = False  # under the dot rule no wildcard finds a dotted name, not even `.*`
    enters_dotted: bool = False  # under the dot rule `**` finds and enters dotted directories
    follows_literals: bool = False  # no component without wildcards finds a link to what is missing


OURS, RELEASE_0_3_0, CRATE = Rules(), Rules(enters_dotted=True, follows_literals=True), Rules(drops_dotted=True)


def join(path, name):
    return path + ("" if not path or path.endswith("/") else "/") + name


def child(path, name):
    return name if re.fullmatch(r"\.(/\.?)*", path) else join(path, name)


class Walk:
    """A walk by the components of a pattern, from a folder. It yields marks: items, and units of work, each before its
    work is done."""

    def __init__(self, pattern, letters, folder, rules=OURS):
        self.folder, self.letters, self.rules = folder, letters, rules
        self.start = "/" if pattern.startswith("/") else "."
        parts = components_of(pattern)
        self.parts = [part for at, part in enumerate(parts) if parts[at : at + 2] != ["**", "**"]]
        self.wants_directories = pattern.endswith("/")

    def marks(self):
        yield WORK + self.start
        yield from self.enter(0, self.start)

    def is_dir(self, path):
        return path != "" and os.path.isdir(os.path.join(self.folder, path))

    def exists(self, path):
        is_there = os.path.exists if self.rules.follows_literals else os.path.lexists
        return path != "" and is_there(os.path.join(self.folder, path))

    def hides(self, name):
        return "d" in self.letters and name.startswith(".")

    def enter(self, part, path):
        text = self.parts[part]
        if not set(text) & set("?*["):
            found = child(path, text)
            yield WORK + found
            if self.is_dir(path) if text in (".", "..") else self.exists(found):
                yield from self.reach(part, found)
        elif self.is_dir(path):
            yield from self.search(part, path, text)

    def search(self, part, path, text):
        yield WORK + path
        try:
            names = sorted(os.listdir(os.path.join(self.folder, path)), key=str.encode)
        except OSError:
            yield UNREAD + path
            return
        yield from [WORK + path] * len(names)
        for name in ("..", ".") if text.startswith(".") else ():
            if matches(text, name, self.letters):
                yield WORK + join(path, name)
                yield from self.reach(part, join(path, name))
        for name in names:
            if not (self.rules.drops_dotted and self.hides(name)):
                yield from self.meet(part, child(path, name), name)

    def meet(self, part, path, name):
        is_recursive = self.parts[part] == "**"
        number = part + 1 if is_recursive else part
        if number < len(self.parts) and matches(self.parts[number], name, self.letters):
            yield from self.reach(number, path)
        if is_recursive and self.is_dir(path) and (self.rules.enters_dotted or not self.hides(name)):
            if number == len(self.parts):
                yield FOUND + path
            yield from self.enter(part, path)

    def reach(self, part, path):
        if part + 1 < len(self.parts):
            yield from self.enter(part + 1, path)
        elif not self.wants_directories or self.is_dir(path):
            yield FOUND + path


def within(marks, limit):
    """The items of a walk within a limit, and the units of work charged. The limit is reported at the path of the first
    unit beyond it."""
    items, spent = [], 0
    for mark in marks:
        if mark[0] != WORK:
            items.append(mark)
        elif spent == limit:
            return [*items, REFUSED + mark[1:]], spent
        else:
            spent += 1
    return items, spent
