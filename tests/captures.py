#!/usr/bin/env python3
"""Checks the tokens of patterns, the pieces of texts and how far a match gets. `glob_vectors answer` gives the answers.
They are compared with rows written by hand, and with a search through all splits by tests/lib/reference.py: for all
small patterns and texts, and for longer ones from a seed, under each option. The last line counts cases: 'N passed, M
failed'."""

import itertools
import random

from lib import reference
from lib.count import ROOT, Count, built
from lib.make import SETTINGS, some
from lib.sides import ask

# The kinds of tokens as the program names them, and in the reference.
KINDS = {"Literal": "literal", "AnyChar": "?", "AnySequence": "*", "Recursive": "**", "OneOf": "[]", "NoneOf": "[!]"}
SMALL, SMALL_TEXT = ["a", "/", ".", "?", "*", "**/", "**", "[!a]", "[A.]"], "a/."
# Characters of one to four bytes.
MIXED = ["é", "€", "/", "B", "?", "*", "*", "*", "**/", "**", "[!é]", "[\U0010fffeb]"]
MIXED_TEXT = "b/.é€\U0010fffe"
# The longest text that four tokens are matched with, of 16,777,216 bytes.
LONGEST = "\U0010fffe" * 4_194_304
FIELDS = ["written", "pieces", "reached"]


def small_cases():
    """Each pattern of up to three tokens with each text of up to three characters. Patterns of up to two tokens also
    get longer texts."""
    for many in range(4):
        for pattern in map("".join, itertools.product(SMALL, repeat=many)):
            for length in range(4 if many == 3 else 5):
                yield from ((pattern, "".join(text)) for text in itertools.product(SMALL_TEXT, repeat=length))


def random_cases(source):
    """Patterns of up to six tokens with texts of up to eight characters."""
    for _ in range(8000):
        yield some(source, 0, 6, MIXED), some(source, 0, 8, MIXED_TEXT)


def expected(pattern, text, letters):
    """The fields of an answer: the kind of each token and where it ends in the pattern; where each piece ends, or `no`;
    and the place reached, with the tokens that wait there."""
    tokens = reference.tokens_of(pattern)
    in_bytes = list(itertools.accumulate((len(c.encode()) for c in text), initial=0))
    written = itertools.accumulate(len(token.written.encode()) for token in tokens)
    pieces = reference.shortest(tokens, text, letters)
    place, *waiting = reference.reached(tokens, text, letters)
    return [
        " ".join(f"{token.kind} {end}" for token, end in zip(tokens, written)),
        "no" if pieces is None else " ".join(str(in_bytes[end]) for end in pieces),
        " ".join(map(str, [in_bytes[place], *waiting])),
    ]


def read(line):
    """The fields of an answer as the program writes it."""
    tokens, pieces, reached = (field.strip() for field in line.split("|"))
    return [" ".join(KINDS.get(word, word) for word in tokens.split()), pieces, reached]


def answers(cases):
    return map(read, ask([built("glob_vectors"), "answer"], ["\t".join(["captures", *case]) for case in cases]))


def compare(count, found):
    """Compares answers with the search."""
    cases = [(letters, *case) for case in found if reference.fault_of(case[0]) is None for letters in SETTINGS]
    for (letters, pattern, text), answer in zip(cases, answers(cases)):
        count.same(f"{pattern!r} {text!r} {letters}", answer, expected(pattern, text, letters))


def compare_rows(count):
    """Compares one field of an answer with each row by hand."""
    lines = (ROOT / "tests/rows/captures.txt").read_text(encoding="utf-8").splitlines()
    rows = [line.split("|") for line in lines if not line.startswith("#")]
    cases = [(letters, pattern, text.replace("LONGEST", LONGEST)) for _, letters, pattern, text, _ in rows]
    for (field, _, *case, wanted), answer in zip(rows, answers(cases)):
        count.same(f"{field} of {case}", answer[FIELDS.index(field)], wanted)


def main():
    count = Count()
    compare_rows(count)
    compare(count, small_cases())
    compare(count, random_cases(random.Random(1)))
    count.end()


main()
