#!/usr/bin/env python3
"""Compares the answers on random input of `glob_vectors answer`, the Rust crate, the original crate, if its Debian
package librust-glob-dev is installed, and tests/lib/reference.py: matches under all options, sets of patterns, and
walks over trees with links and directories that cannot be listed, with their units of work and within limits.

    tests/random_input.py [--rounds N] [--seed N]

A round has 1,000 patterns with four texts each, 20 sets, and 30 trees. Prints each difference, then how many cases of
each kind there were, and last 'N passed, M failed'. A kind that is rare is a failure."""

import argparse
import collections
import os
import random
import shutil
import tempfile
import time
from pathlib import Path

from lib import make, reference
from lib.count import ROOT, Count, built, has, left_out
from lib.reference import FOUND, REFUSED, UNREAD
from lib.sides import MAY_SHUT, as_user, ask, built_over, original

PATTERNS, TEXTS, SETS, TREES = 1000, 4, 20, 30
# One in this many patterns is also compared with the reference, which is slower.
RULES_IN = 4
# Of a set at most, of a set that looks patterns up, how many sets do, texts for a set, and how many of them make one.
SET_PATTERNS, KEYED_PATTERNS, SHARE_WITH_KEYS, SET_TEXTS, DEEP = 70, (64, 400), 0.2, 100, 40
SHARE_WITH_LIMIT, HIGHEST_LIMIT, NO_LIMIT = 0.3, 30, 2**64 - 1
# One walk in this many is repeated within each limit, if it charges at most this many units.
EACH_LIMIT_IN, MOST_UNITS = 16, 120
# The least number of cases of each kind in 20 rounds.
LEAST = {"matches": 150_000, "no matches": 200_000, "refused patterns": 2000, "sets": 200, "sets with keys": 40}
LEAST |= {"refused walks": 100}
LEAST |= {"empty": 400, "limited": 400, "unread": 100, "found": 1500, "each limit": 150}
# Deep enough in a folder of our own that no pattern leaves it by `..`.
BELOW = "1/2/3/4/5/6"


def matches_by_rules(pattern, texts):
    """The answer of the reference."""
    escaped = reference.escaped(pattern)
    if fault := reference.fault_of(pattern):
        return "\t".join([escaped, "fault", *map(str, fault)])
    found = (reference.matches(pattern, text, letters) for text in texts for letters in make.SETTINGS)
    return "\t".join([escaped, "ok", "".join("ny"[it] for it in found)])


def set_field(numbers):
    """What a set must answer for a text that the patterns with these indices match."""
    ends = f"true Some({numbers[0]}) Some({numbers[-1]})" if numbers else "false None None"
    return f"\t{ends} {numbers}"


def items_of(answer):
    """The units and items of a walk, or no units and the fault. A directory that cannot be listed is always shut, so
    that kind is left out."""
    word, *rest = answer.split("\t")
    return (int(rest[0]), [it.removesuffix(":PermissionDenied") for it in rest[1:]]) if word == "ok" else (None, rest)


class Comparer:
    """Asks all sides, and counts. Trees are made one at a time."""

    def __init__(self, base, sides):
        self.above, self.sides = base / BELOW, sides
        self.count, self.kinds = Count(), collections.Counter()

    # Matches and sets

    def matches(self, source):
        cases = [make.match_case(source, TEXTS) for _ in range(PATTERNS)]
        lines = ["\t".join(["match", pattern, *texts]) for pattern, texts in cases]
        answers = {name: ask(words, lines) for name, (words, _) in self.sides.items()}
        for number, case in enumerate(cases):
            given = {name: of[number] for name, of in answers.items()}
            if number % RULES_IN == 0:
                given["the rules"] = matches_by_rules(*case)
            self.count.check(len(set(given.values())) == 1, f"{case}: {given}")
            letters = given["ours"].rpartition("\t")[2] if "\tok\t" in given["ours"] else ""
            self.kinds["refused patterns"] += not letters
            self.kinds["matches"] += letters.count("y")
            self.kinds["no matches"] += letters.count("n")

    def sets(self, source):
        """Checks that sets match what their patterns match."""
        ours, _ = self.sides["ours"]
        for _ in range(SETS):
            keyed = source.random() < SHARE_WITH_KEYS
            size = source.randint(*KEYED_PATTERNS) if keyed else source.randint(1, SET_PATTERNS)
            case = make.keyed_case if keyed else make.match_case
            cases = [case(source, SET_TEXTS // size + 1) for _ in range(size)]
            texts = [text for _, some in cases for text in some][:SET_TEXTS]
            # as deep as to have keys of many patterns
            texts.append("/".join(texts[:DEEP]))
            answers = ask(ours, ["\t".join(["match", pattern, *texts]) for pattern, _ in cases])
            rows = [answer.split("\t") for answer in answers]
            kept = [(pattern, row[2]) for (pattern, _), row in zip(cases, rows) if row[1] == "ok"]
            if not kept or not texts:
                continue
            self.kinds["sets"] += 1
            self.kinds["sets with keys"] += keyed
            patterns = [pattern for pattern, _ in kept]
            asked = [["set", letters, str(len(kept)), *patterns, *texts] for letters in make.SETTINGS]
            for at, answer in enumerate(ask(ours, ["\t".join(it) for it in asked])):
                places = [len(make.SETTINGS) * text + at for text in range(len(texts))]
                numbers = [[n for n, (_, row) in enumerate(kept) if row[place] == "y"] for place in places]
                self.count.same(asked[at], answer, "".join(map(set_field, numbers)))

    # Walks

    def walks(self, source):
        """Compares some walks of a random tree by all programs, from its top or a directory in it. Only ours counts
        units and has limits."""
        tree = make.tree(source, MAY_SHUT, source.choice([make.few_name, make.few_name, make.name]))
        top = self.above / "tree"
        tree.build(top)
        start = source.choice(tree.starts()) if source.random() < 0.3 else ""
        patterns = [make.few_components(source, some) for _ in range(3) for some in (make.FEW_COMPONENTS, make.PLAIN_COMPONENTS)]
        patterns += [make.walk_pattern(source, list(tree.ends)) for _ in range(3)]
        cases = [(pattern.replace(make.ABOVE, str(self.above)), source.choice(make.SETTINGS)) for pattern in patterns]
        for name, (words, rules) in self.sides.items():
            with as_user():
                marks = {case: self.marks(*case, top / start, rules) for case in cases}
            asked = [(case, limit) for case in cases for limit in self.limits(source, name, marks[case])]
            lines = [f"walk\t{letters}\t{limit}\t{pattern}" for (pattern, letters), limit in asked]
            for (case, limit), answer in zip(asked, map(items_of, ask(words, lines, top / start))):
                what = f"{case} from {start or '.'} over {tree}"
                self.check_walk(name, what, case, limit, answer, marks[case])
        tree.remove(top)

    def marks(self, pattern, letters, folder, rules):
        """The marks of a walk by the rules, or None if its pattern is refused."""
        return None if reference.walk_fault(pattern) else list(reference.Walk(pattern, letters, folder, rules).marks())

    def limits(self, source, name, marks):
        """The limits within which a walk is asked: none, now and then a low one, or each."""
        if name != "ours":
            return [NO_LIMIT]
        units = reference.within(marks or [], NO_LIMIT)[1]
        if marks and units <= MOST_UNITS and source.randrange(EACH_LIMIT_IN) == 0:
            self.kinds["each limit"] += 1
            return [NO_LIMIT, *range(units + 2)]
        return [NO_LIMIT, source.randint(0, HIGHEST_LIMIT)] if source.random() < SHARE_WITH_LIMIT else [NO_LIMIT]

    def check_walk(self, name, what, case, limit, answer, marks):
        """Compares a walk with the reference."""
        if marks is None:
            wanted = None, [*map(str, reference.walk_fault(case[0]))]
        else:
            items, units = reference.within(marks, limit)
            wanted = (units if name == "ours" else 0), items
        self.count.same(f"{name}: {what} within {limit}", answer, wanted)
        if name == "ours":
            signs = {it[0] for it in wanted[1]}
            self.kinds["refused walks"] += marks is None
            self.kinds["empty"] += not wanted[1]
            for kind, sign in (("limited", REFUSED), ("unread", UNREAD), ("found", FOUND)):
                self.kinds[kind] += sign in signs


def sides_in(folder):
    """The programs to compare, each with the rules by which it walks."""
    sides = {"ours": ([shutil.copy(built("glob_vectors"), folder), "answer"], reference.OURS)}
    if not has("cargo", "random input to the Rust crate"):
        return sides
    crates = [("rust/", ROOT / "rust", reference.OURS)]
    if crate := original():
        rules = reference.RELEASE_0_3_0 if crate.name == "glob-0.3.0" else reference.CRATE
        crates.append(("the crate", crate, rules))
    else:
        left_out("random input beside the original crate, since librust-glob-dev is not installed")
    for number, (name, crate, rules) in enumerate(crates):
        programs = built_over(crate, ROOT / "tests/rust/programs", folder / str(number))
        sides[name] = [programs / "answer"], rules
    return sides


def main():
    options = argparse.ArgumentParser()
    options.add_argument("--rounds", type=int, default=40)
    options.add_argument("--seed", type=int, default=int(time.time()))
    options = options.parse_args()
    os.umask(0o022)
    print(f"--seed {options.seed}", flush=True)
    with tempfile.TemporaryDirectory() as work, tempfile.TemporaryDirectory(dir="/dev/shm") as base:
        # The user who runs the programs may have no access to the repository.
        os.chmod(work, 0o755), os.chmod(base, 0o755)
        comparer = Comparer(Path(base), sides_in(Path(work)))
        for seed in range(options.seed, options.seed + options.rounds):
            source = random.Random(seed)
            comparer.matches(source)
            comparer.sets(source)
            for _ in range(TREES):
                comparer.walks(source)
    for kind, least in LEAST.items():
        found = comparer.kinds[kind]
        is_rare = found < least * options.rounds / 20 and ("unread" not in kind or MAY_SHUT)
        print(f"{found:9,} {kind}")
        comparer.count.check(not is_rare, f"{kind}: {found} is rare")
    comparer.count.end()


main()
