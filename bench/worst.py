"""The reports on what may be slow: hand-picked shapes, random shapes, and sets."""

import statistics
import subprocess
import sys

import cases
import shapes
from lib.count import left_out
from measure import CRATE, Table, digits, heads_of, run

SPREAD = ["how many", "together", "median", "nine of ten", "99 of 100", "worst", "slower"]
SIDES, SET_SIDES = ["ours", CRATE], ["ours", "globset"]
MOST_SHOWN, MOST_SHOWN_OF_DIFFERENCES = 100, 2_000
# The groups of random cases whose worst ones are printed.
SETS, BEYOND = "all sets", "beyond ASCII"
WITH_WORST = [SETS, shapes.ASCII, BEYOND]


def spread(pairs):
    """The number of pairs of times, the ratio of their sums, quantiles of their ratios, the worst one, and the share
    above 1."""
    ratios = [ours / theirs for ours, theirs in pairs]
    quantiles = statistics.quantiles(ratios, n=100, method="inclusive")
    together = sum(ours for ours, _ in pairs) / sum(theirs for _, theirs in pairs)
    found = [together, quantiles[49], quantiles[89], quantiles[98], max(ratios)]
    return [f"{len(pairs):,}", *map(digits, found), f"{sum(it > 1 for it in ratios) / len(ratios):.0%}"]


def shortened(text):
    """A text as code, with its middle left out if it is too long."""
    half = MOST_SHOWN // 2
    short = f"{text[:half]}…{text[-half:]}" if len(text) > MOST_SHOWN else text
    return f"`{short}`" + (f" ({len(text):,} characters)" if short != text else "")


def measured(bench, program, round_time, asked):
    """Each case, with the numbers that a program prints for its line. The program stops after some minutes. If answers
    differ, this prints the cases, and ends."""
    text = "".join("\t".join(line) + "\n" for _, line in asked).encode()
    output, _ = run([*program, bench.rounds, round_time, cases.SECONDS], input=text, stdout=subprocess.PIPE)
    found = [(case, line) for (case, _), line in zip(asked, output.decode().splitlines())]
    differing = [case for case, line in found if line == "differ"]
    for case in differing[: cases.WORST]:
        print(f"bench: the answers differ: {str(case)[:MOST_SHOWN_OF_DIFFERENCES]}")
    if differing:
        sys.exit(f"bench: {len(differing)} answers of {len(found)} differ")
    if len(found) < len(asked):
        left_out(f"{len(asked) - len(found):,} of {len(asked):,}, since {cases.SECONDS} seconds are over")
    return [(case, [float(word) for word in line.split()]) for case, line in found]


def tables_of(title, other, first, groups, found, words):
    """The quantiles of the ratios of a pair of numbers in each group, and the worst of some groups, with a description
    of each."""
    pair = slice(first, first + 2)
    table = Table(title, ["which", *SPREAD])
    for name, is_in in groups.items():
        table.add(name, *spread([numbers[pair] for case, numbers in found if is_in(case)]))
    yield table
    by_ratio = sorted(found, key=lambda it: -it[1][first] / it[1][first + 1])
    for name in (it for it in groups if it in WITH_WORST):
        table = Table(f"{title}: the worst, {name}", ["ratio", "ours", other, *words])
        for case, numbers in [it for it in by_ratio if groups[name](it[0])][: cases.WORST]:
            ours, theirs = numbers[pair]
            table.add(digits(ours / theirs), digits(ours), digits(theirs), *(word(case) for word in words.values()))
        yield table


# The crate


def attack(bench):
    """Hand-picked shapes, the memory of their patterns, and some patterns compared with other crates."""
    asked = [(case, [letters, pattern, text]) for case in cases.ATTACKS for _, pattern, text, letters in [case]]
    found = measured(bench, [bench.of_rust("shapes")], cases.ROUND, asked)
    for title, pair in (("Matching", slice(2)), ("Parsing and matching once", slice(2, 4))):
        table = Table(f"{title} from Rust, nanoseconds", ["case", *heads_of(SIDES)])
        for (name, *_, letters), numbers in found:
            table.add(name + cases.said(letters), *bench.cells(dict(zip(SIDES, numbers[pair])), 1))
        yield table
    yield bench.rows("Escaping from Rust, nanoseconds", cases.ESCAPES, bench.of_crates, 1)
    yield weights(bench)
    yield beside_peers(bench)
    if bench.has_rattle("shapes"):
        yield bench.rows("Matching from Rattle, nanoseconds", map(row_of, found), bench.of_programs, 1)


def row_of(found):
    """A shape as a row of the library, repeated as often as in a round from Rust."""
    (name, pattern, text, letters), numbers = found
    words = ("match", letters or "-", pattern, cases.Text(f"{text}\n", ""))
    return cases.Row(name + cases.said(letters), words, *(max(1, int(1000 * cases.ROUND / it)) for it in numbers[:2]))


def weights(bench):
    """The memory of patterns after a match."""
    table = Table("A pattern after a match from Rust, bytes", ["pattern", *heads_of(SIDES)])
    output, _ = run([bench.of_rust("bytes"), cases.WEIGHED_AFTER, *cases.WEIGHED], stdout=subprocess.PIPE)
    for pattern, line in zip(cases.WEIGHED, output.splitlines()):
        table.add(f"`{pattern}`", *bench.cells(dict(zip(SIDES, map(int, line.split()))), 1))
    return table


def beside_peers(bench):
    """Patterns compared with globset and, if it supports them, wildmatch."""
    # globset's `?` is a byte.
    paths = bench.text("ascii", lambda: filter(str.isascii, bench.lines_of_paths()))
    table = Table("From Rust beside other crates, nanoseconds a path",
        ["case", "ours", "globset", "to globset", "wildmatch", "to wildmatch"])
    for row in cases.of_patterns((*it, 1) for it in cases.BESIDE_PEERS):
        _, letters, pattern, _ = row.words
        words = ["match", letters, pattern, paths, bench.rounds, cases.ROUND]
        output, _ = run([bench.globset(), *words], stdout=subprocess.PIPE)
        pairs = [[float(it) for it in line.split()] for line in output.splitlines()]
        cells = [digits(it) for ours, theirs in pairs for it in (theirs, ours / theirs)]
        table.add(row.name, digits(pairs[0][0]), *cells, *["-"] * (4 - len(cells)))
    return table


def random_shapes(bench):
    """Random shapes: matches, and parsing and matching once."""
    asked = shapes.shapes(bench.seed, cases.RANDOM_SHAPES // bench.share)
    found = measured(bench, [bench.of_rust("shapes")], cases.RANDOM_ROUND, [(it, it[1:]) for it in asked])
    groups = {"all": lambda it: True, BEYOND: lambda it: it.script != shapes.ASCII}
    groups |= {name: lambda it, name=name: it.script == name for name in shapes.SCRIPTS}
    words = {"options": lambda it: it.letters or "-", "pattern": lambda it: shortened(it.pattern),
        "text": lambda it: shortened(it.text)}
    for title, first in (("Matching", 0), ("Parsing and matching once", 2)):
        yield from tables_of(f"{title} from Rust, nanoseconds", CRATE, first, groups, found, words)


# Sets


def table_of_kinds(title, times_of, bench):
    """A row for each set of one kind, with times from `times_of`."""
    table = Table(title, ["kind", "patterns", "paths of that kind", *heads_of(SET_SIDES)])
    for number, (case, share) in enumerate(shapes.sets_of_kinds(bench.seed)):
        cells = bench.cells(dict(zip(SET_SIDES, times_of(number, case))), 1)
        table.add(f"`{case.kinds[0]}`", f"{len(case.patterns):,}", f"{share:.0%}", *cells)
    return table


def sets_from_rust(bench):
    """Sets of one kind of patterns, and random ones, compared with globset in one process."""
    alone = [case for case, _ in shapes.sets_of_kinds(bench.seed)]
    drawn = list(shapes.sets(bench.seed, cases.RANDOM_SETS // bench.share))
    asked = [(it, [it.letters, str(len(it.patterns)), *it.patterns, *it.paths]) for it in (*alone, *drawn)]
    found = measured(bench, [bench.globset(), "turns"], cases.SET_ROUND, asked)
    yield table_of_kinds("Kinds of sets from Rust, nanoseconds a path", lambda number, _: found[number][1][:2], bench)
    words = {"options": lambda it: it.letters or "-", "patterns": lambda it: f"{len(it.patterns):,}",
        "kinds": lambda it: ", ".join(f"`{kind}`" for kind in it.kinds)}
    for title, first in (("Random sets from Rust, nanoseconds a path", 0), ("Making random sets from Rust, nanoseconds", 2)):
        yield from tables_of(title, "globset", first, {SETS: lambda it: True}, found[len(alone) :], words)


def sets_from_rattle(bench):
    """The same sets of one kind, in programs."""

    def asked(number, case):
        patterns, paths = (bench.text(f"kind-{name}-{number}", lambda: of) for name, of in zip(case._fields[2:], case[2:]))
        return bench.asked(["set", case.letters, patterns, "all", paths], len(case.paths)).values()

    return table_of_kinds("Kinds of sets from Rattle, nanoseconds a path", asked, bench)
