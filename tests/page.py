#!/usr/bin/env python3
"""Checks the page in docs/page. It must be made from the current sources. If Chromium is installed, the page is also
driven by its own fields in a headless browser, without a network: for 200 patterns and lines from a seeded generator it
must show what `globs explain` does, piece by piece; and it must walk a tree with the questions, answers and units of
work of tests/lib/reference.py, also within limits. The last line is 'N passed, M failed'."""

import itertools
import json
import os
import random
import re
import tempfile
from pathlib import Path
from urllib.parse import unquote

from lib.count import ROOT, Count, built, has, run
from lib.make import SETTINGS, place, some
from lib.reference import FOUND, REFUSED, WORK, Walk, walk_fault

PAGE = ROOT / "docs/page/index.html"
CASES = 200
TREE = ["src/main.rs", "src/walk/lines.rs", "src/walk/_x.rs", "src/walk/.hidden.rs", "src/empty/", "docs/A.md", "README.md"]
WALKS = ["*", "**", "src/**/[!_]*.rs", "**/*.rs", "*/", "src/*/*", "docs/A*.md", "missing/*", "**/empty", "[R-S]*"]
# Limits in units. No walk needs as many as the first; the others cut walks off at questions and in listings.
NO_LIMIT, *LIMITS = 1000, 0, 1, 2, 4, 7, 12
DONE = "done"
# A walk that is refused because a component has a fault, though the whole pattern has none; and a tree with an invalid
# path.
REFUSED_WALK, NO_TREE, NO_PATH = "a[/]b", ["a/b", "../c"], "/../"

# A driver, added to a copy of the page: it fills the fields, and records what the page then shows.
DRIVER = """<script>
async function drive(cases, walks, tree, refusedWalk, noTree) {
  await ready;
  const said = [], walked = [], refused = [];
  const fill = (id, value) => { $(id).value = value; };
  const choose = (flags) => ["ignore", "separator", "dot"].forEach((id, i) => ($(id).checked = Boolean(flags & (1 << i))));
  const changed = (id) => $(id).dispatchEvent(new Event("input"));
  for (const [pattern, flags, line] of cases) {
    fill("pattern", pattern); fill("lines", line); choose(flags); changed("pattern");
    const item = $("answers").firstChild, wrong = $("reading").querySelector(".wrong");
    const chips = item ? [...item.querySelectorAll(":scope > .chips .run")] : [];
    const runs = chips.map((it) => it.textContent.replace("∅", ""));
    const stop = item && item.querySelector(".caret .stop");
    const before = stop ? [...(stop.previousSibling ? stop.previousSibling.textContent : "")].length : null;
    said.push([wrong ? wrong.textContent : null, item ? item.className : "", runs, before]);
  }
  fill("tree", tree.join("\\n"));
  for (const [pattern, flags, limit] of walks) {
    fill("pattern", pattern); choose(flags); fill("limit", limit); changed("pattern");
    fill("step", $("step").max); changed("step");
    walked.push([...$("steps").children].map((it) => [it.className, ...[...it.children].map((child) => child.textContent)]));
  }
  fill("pattern", refusedWalk); changed("pattern");
  refused.push($("walk-wrong").textContent);
  fill("pattern", "*"); fill("tree", noTree.join("\\n")); changed("tree");
  refused.push($("walk-wrong").textContent);
  document.body.replaceChildren(make("pre", { id: "said" }, encodeURIComponent(JSON.stringify([said, walked, refused]))));
}
drive(@ASKED@);
</script>"""


def cases():
    """Patterns, options and lines: lines are made from the pattern, so that about half of them match."""
    chance = random.Random(8)
    lexemes = ["a", "b", ".", "/", "?", "*", "*", "[ab]", "[!a]", "[a-c]", "**/", "ä", "A", "_", "[", "**"]
    made = []
    while len(made) < CASES:
        pattern = some(chance, 1, 6, lexemes)
        pieces = ["", "a", "b", "c", "a/", "ab", ".", "ä"]
        line = re.sub(r"\*\*/|\*|\?|\[[^]]*\]", lambda _: chance.choice(pieces), pattern)
        line += chance.choice("ab/._") if chance.random() < 0.2 else ""
        if line.strip():
            made.append((pattern, chance.randrange(8), line))
    return made


def expected(pattern, flags, line):
    """What the page must show: a fault; or that the line matches, with the pieces, those of adjacent characters joined;
    or that it does not, and after how many characters it stops. The first line, about the programs, is not on it."""
    options = [word for i, word in enumerate(("-i", "-s", "-d")) if flags & (1 << i)]
    status, out, error = run([built("globs"), "explain", *options, "--", pattern, line])
    if status == 2:
        message, _, caret = error.removeprefix("globs: ").split("\n")[:3]
        message = message.replace("unclosed [", "invalid range pattern")
        return [f"Refused at character {caret.index('^')}: {message}", "", [], None]
    lines = out.splitlines()[1:]
    if status == 1:
        return [None, "no", [], lines[1].index("^")]
    runs, rows = [], [row.split("\t") for row in lines if not row.startswith("for find write: ")]
    for is_character, some_rows in itertools.groupby(rows, lambda row: len(row[0]) == 1 and row[0] not in "?*"):
        pieces = [piece for _, piece in some_rows]
        runs += ["".join(pieces)] if is_character else pieces
    return [None, "yes", runs, None]


def charged(marks, limit):
    """The events of a walk within a limit, each with the units charged by then: units of work, items, a refused unit,
    and the end."""
    spent = 0
    for mark in marks:
        if mark[0] == WORK and spent == limit:
            yield REFUSED + mark[1:], spent
            break
        spent += mark[0] == WORK
        yield mark, spent
    yield DONE, spent


def question_of(said):
    """What a step asks for, and its path."""
    return re.fullmatch(r"(What is at|What is in|Which names are in) “(.*)”\?", said).groups()


def entries_of(asked, reply):
    """The entries in the answer for a directory, in order: names, with a / after those of directories if they are asked
    for."""
    if asked == "What is at" or reply == "no entries":
        return []
    return sorted(it.removesuffix("/") if asked == "Which names are in" else it for it in reply.split("  "))


def charged_by(steps, limit):
    """The events of `charged`, from the steps that the page shows. A question is charged before its answer, and each
    entry of the answer after it, up to the limit."""
    for sort, said, units, *reply in steps:
        spent = int(units.split()[0])
        if sort == "question":
            asked, path = question_of(said)
            last = min(limit, spent + len(entries_of(asked, *reply)))
            yield from ((WORK + path, number) for number in range(spent, last + 1))
        elif sort == "item":
            yield FOUND + said.removeprefix("Found: "), spent
        elif sort == "wrong":
            yield REFUSED + re.fullmatch("Stopped at (.*): the limit is used up", said)[1], spent
        else:
            yield DONE, spent


def reply_of(folder, asked, path):
    """What the page must answer to a question, according to the disk."""
    at = Path(folder, path)
    if asked == "What is at":
        return "a directory" if at.is_dir() else "no directory" if at.exists() else "nothing"
    is_marked = asked == "What is in"
    return sorted(name + "/" * (is_marked and Path(at, name).is_dir()) for name in os.listdir(at))


def check_walk(count, folder, walk, steps):
    """Compares the steps of a walk with the reference, and its answers with the disk."""
    pattern, letters, limit = walk
    wanted = list(charged(Walk(pattern, letters, folder).marks(), limit))
    count.same(f"the page's walk {walk}", list(charged_by(steps, limit)), wanted)
    for sort, said, _, *reply in steps:
        if sort == "question":
            asked, path = question_of(said)
            found = reply[0] if asked == "What is at" else entries_of(asked, *reply)
            count.same(f"the page's answer to {said}", found, reply_of(folder, asked, path))
    if limit == NO_LIMIT:
        options = [f"-{letter}" for letter in letters]
        _, wanted, _ = run([built("glob_run"), "find", *options, "--", pattern], cwd=folder)
        items = [said.removeprefix("Found: ") for sort, said, *_ in steps if sort == "item"]
        count.same(f"what the page's walk {walk} finds", items, wanted.splitlines())


def shown(browser, made, walks):
    """What a copy of the page with the driver shows for cases, walks and refused walks."""
    flagged = [(pattern, sum(1 << "isd".index(letter) for letter in letters), limit) for pattern, letters, limit in walks]
    asked = json.dumps([made, flagged, TREE, REFUSED_WALK, NO_TREE])[1:-1].replace("<", "\\u003c")
    with tempfile.TemporaryDirectory() as folder:
        copy = Path(folder) / "page.html"
        page = PAGE.read_text(encoding="utf-8").replace("</body>", DRIVER.replace("@ASKED@", asked) + "</body>")
        copy.write_text(page, encoding="utf-8")
        words = [browser, "--headless", "--no-sandbox", "--disable-gpu", f"--user-data-dir={folder}/user"]
        words += ["--virtual-time-budget=60000", "--dump-dom", copy.as_uri()]
        _, dumped, _ = run(words, timeout=300)
    found = re.search(r'<pre id="said">([^<]*)</pre>', dumped)
    return json.loads(unquote(found[1])) if found else [[], [], []]


def main():
    count = Count()
    _, sources, _ = run([ROOT / "bin/page", "--sources"])
    text = PAGE.read_text(encoding="utf-8")
    count.check(f'content="{sources.strip()}"' in text, "docs/page/index.html is not of these sources: call bin/page")
    count.check(not re.search(r'(src|href)="(https?:)?//', text), "the page has an address of another host")
    if not (browser := has("chromium", "the page's answers")):
        count.end()
    made = cases()
    walks = list(itertools.product(WALKS, SETTINGS, (NO_LIMIT, *LIMITS)))
    said, walked, refused = shown(browser, made, walks)
    count.same("answers to cases and to walks", (len(said), len(walked)), (CASES, len(walks)))
    place_of_fault, message = walk_fault(REFUSED_WALK)
    wanted = [f"At character {place_of_fault}: {message}", f"This is not a path of a tree: {NO_PATH}"]
    count.same("why the page does not walk", refused, wanted)
    for case, found in zip(made, said):
        count.same(f"the page on {case}", found, expected(*case))
    with tempfile.TemporaryDirectory() as folder:
        place(folder, TREE)
        for walk, steps in zip(walks, walked):
            check_walk(count, folder, walk, steps)
    count.end()


main()
