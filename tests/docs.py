#!/usr/bin/env python3
"""Checks what the pages say about the sources: links, names of files, definitions, clauses, tests and other names, and
quoted code. Prints what is wrong, and last how many checks passed and failed."""

import functools
import re
import tempfile
from pathlib import Path

from lib.count import ROOT, Count, run

PATHS = (path.relative_to(ROOT) for path in ROOT.rglob("*.*") if path.is_file())
FILES = [str(path) for path in PATHS if not {"out", ".git"} & set(path.parts)]
PAGES = [name for name in FILES if name.endswith(".md")]

# Names on the pages that are in no source: names of the original crate, of std and of the toolchain.
OUTSIDE = {"PathWrapper", "once_cell", "read_to_end"}

# What the contracts of std's traits say about their results.
ANSWERS_OF_STD = ["eq", "cmp", "hash_input", "output", "is_default"]

# The pages whose blocks of Rust and of proofs must be in some source, line by line.
EXAMPLES = ["README.md", "crates/glob/CALLING.md"]


@functools.cache
def read(name):
    """A file of the repository."""
    return (ROOT / name).read_text(encoding="utf-8")


def lines_of(text):
    """The stripped lines, without empty lines, documentation and comments of proofs."""
    lines = (line.strip() for line in text.split("\n"))
    return "".join(f"{line}\n" for line in lines if line and not line.startswith(("//!", "///", "--")))


@functools.cache
def code():
    """The lines of all sources."""
    return "".join(f"\n{lines_of(read(name))}" for name in FILES if name.endswith((".rt", ".rs", ".antt")))


def wrong_examples(page):
    """The blocks of a page that are in no source, or that nothing checks. tests/manual.py runs shell blocks and the
    calls in the README's text block; nothing checks other text blocks. tests/rust.sh checks the line for Cargo.toml."""
    blocks = re.findall(r"^```(\w*)\n(.*?)^```$", read(page), re.S | re.M)
    known = ("rust", "antt", "sh", "text", "toml")
    found = [f"nothing checks a block of {kind}" for kind, _ in blocks if kind not in known]
    quoted = [block for kind, block in blocks if kind in ("rust", "antt")]
    found += [f"tests/rust.sh has no {block!r}" for kind, block in blocks
        if kind == "toml" and block.strip().replace("PATH/", "../") not in read("tests/rust.sh")]
    return found + [f"no source has {block[:60]!r}" for block in quoted if f"\n{lines_of(block)}" not in code()]


def broken_links(page):
    """The links of a page to files or headings that do not exist."""
    found = []
    for link, file, heading in re.findall(r"\]\((([^):#]*)(?:#([^)]*))?)\)", read(page)):
        path = (ROOT / page).parent / file if file else ROOT / page
        if not path.exists() or (heading and heading not in headings(path)):
            found.append(link)
    return found


def headings(path):
    """The headings of a page, as anchors of links."""
    lines = re.findall(r"^#+ (.*)$", path.read_text(encoding="utf-8"), re.M)
    return {re.sub(r"[^\w -]", "", line.lower()).replace(" ", "-") for line in lines}


def unknown_files(page):
    """The file names on a page with which no path of the repository ends. Names that contain NAME are skipped."""
    text = re.sub(r"```.*?```", "", read(page), flags=re.S)
    names = re.findall(r"`([\w/.]+\.(?:rt|antt|md|py|sh|tsv|txt))`", text)
    return [name for name in names if "NAME" not in name and not any(f"/{file}".endswith(f"/{name}") for file in FILES)]


def unknown_definitions(page):
    """The definitions that a page says are in a file, as `File.antt`: `Name`, but are not."""
    found = []
    for file, names in re.findall(r"`([\w/]+\.antt)`: ((?:`\w+`(?:, )?)+)", read(page)):
        texts = [read(name) for name in FILES if f"/{name}".endswith(f"/{file}")]
        for name in re.findall(r"\w+", names):
            if not any(re.search(rf"\bpub (record |data )?{name}\b", text) for text in texts):
                found.append(f"{file}: {name}")
    return found


def clauses_of_calls():
    """Each function of the sources, with the names of its clauses, and each ghost member of a trait, without names."""
    found = {name: set() for name in ANSWERS_OF_STD}
    for name in FILES:
        if name.endswith(".rt"):
            call = None
            for line in read(name).split("\n"):
                if named := re.search(r"\bfn (\w+)|^ *ghost (\w+) =", line):
                    call = found.setdefault(named[1] or named[2], set())
                elif clause := re.match(r" *ensures (\w+) ", line):
                    call.add(clause[1])
    return found


def unknown_clauses():
    """The clauses in the tables of docs/DEFINITIONS.md, as `Type::call`, `call`: `clause`, `clause`, that are in no
    source. Before the colon there may also be words, and a module with its functions after the colon."""
    known = clauses_of_calls()
    text = read("docs/DEFINITIONS.md").split("\n## What each premise")[0]
    found = []
    for part in ";".join(re.findall(r"^\|[^|]*\|[^|]*\|([^|]*)\|$", text, re.M)).split(";"):
        before, colon, after = re.sub(r"(\w)::(\w)", r"\1.\2", part).partition(":")
        calls = [name.split(".")[-1] for name in re.findall(r"`([\w.]+)`", before)]
        clauses = set().union(*(known[call] for call in calls if call in known), *([] if calls else known.values()))
        if calls in (["laws"], ["glob_examples"]):
            calls, clauses = [], set(known)
        found += [name for name in calls if name not in known and not re.match(r"[A-Z]", name)]
        found += [f"{'/'.join(calls)}: {name}" for name in re.findall(r"`(\w+)`", after) if name not in clauses]
    return found


@functools.cache
def reference():
    """The contracts that bin/reference prints, each with the file of its call."""
    with tempfile.TemporaryDirectory() as folder:
        run([ROOT / "bin/reference", folder])
        parts = re.split(r"^## `(.*)`$", Path(folder, "contracts.md").read_text(encoding="utf-8"), flags=re.M)
    return [(f"crates/{file}", call.strip()) for file, calls in zip(parts[1::2], parts[2::2])
        for call in re.split(r"\n\n|```\w*", calls) if call.strip()]


def cut_off_contracts():
    """The contracts of bin/reference that are not all that the source has between the call's name and its body."""
    found = []
    for file, call in reference():
        text = " ".join(re.sub(r"^.*?(?:fn (?:\w+::)?|ghost )", "", call, flags=re.S).split())
        source = " ".join(re.sub(r"^ *//.*$", "", read(file), flags=re.M).split())
        ends = [""] if text.endswith("};") else [" {", ";"]
        is_whole = text.count("{") == text.count("}") and any(f"{text}{end}" in source for end in ends)
        found += [] if is_whole else [f"{file}: {text[:40]}"]
    return found


def unnamed_premises():
    """The public calls with a `requires` that the beginning of docs/DEFINITIONS.md does not name."""
    calls = [call for _, call in reference()]
    names = [re.search(r"fn (?:\w+::)?(\w+)", call)[1] for call in calls if re.search(r"^ *requires", call, re.M)]
    return [name for name in names if not re.search(rf"[`:]{name}`", read("docs/DEFINITIONS.md").split("\n## ")[0])]


def other_messages():
    """The messages of faults that are missing in the header or the page."""
    messages = re.findall(r'^const \w+: &.* = (".*");$', read("crates/glob_pattern/src/grammar.rt"), re.M)
    return [f"{name}: {it}" for name in ("include/cadmiumdove.h", "page/page.js") for it in messages if it not in read(name)]


def unknown_names(page):
    """The names in the text of a page, such as `some_name` or `SomeName`, that are in no source."""
    text = re.sub(r"```.*?```", "", read(page), flags=re.S)
    named = {it for it in re.findall(r"`([A-Za-z_][\w-]*)`", text) if re.search(r"[a-z][_A-Z]|_", it)}
    return sorted(named - source_names())


@functools.cache
def source_names():
    """All names in the sources, and the names of the files."""
    found = set(OUTSIDE)
    for name in FILES:
        if not name.endswith((".md", ".json", ".tsv")):
            text = (ROOT / name).read_bytes().decode("utf-8", "replace")
            found |= set(re.findall(r"\w+(?:-\w+)*", text)) | set(re.findall(r"\w+", text)) | {Path(name).stem}
    return found


def unknown_tests():
    """The tests in the tables of docs/FAULTS.md that do not exist or are not unique, and the rows of programs that do
    not exist."""
    sources = {f"/{name}": read(name) for name in FILES if name.endswith(".rt")}
    tests = [(file, name) for file in sources for name in re.findall(r"#\[test\]\n\s*fn (\w+)\(", sources[file])]
    rows = re.findall(r"^# (.*?)(?: \(\w+\))?$", read("tests/rows/system.txt"), re.M)
    rows += re.findall(r'f"([^:{}]*): ', read("tests/programs.py"))
    cells = re.findall(r"\|([^|]*)\|$", read("docs/FAULTS.md"), re.M)
    found = []
    for file, name in re.findall(r"`(?:([\w/]+\.rt): )?(\w+)`", "|".join(cells)):
        if sum(test == name and path.endswith(f"/{file}" if file else "") for path, test in tests) != 1:
            found.append(f"{file}: {name}" if file else name)
    return found + [row for cell in cells for row in re.findall(r'"([^"]*)"', cell) if row not in rows]


def stale():
    """The pages that differ from the reports of the benchmark, and a README or an `rt` with another toolchain."""
    status, _, errors = run([ROOT / "bench/report.py", "--check"])
    version, toolchain = run(["rt", "version"])[1].strip(), read("TOOLCHAIN").strip()
    found = [errors.strip()] if status else []
    found += [] if f"`{toolchain}`" in read("README.md") else [f"README.md: not {toolchain}"]
    return found + ([] if version.endswith(toolchain) else [f"TOOLCHAIN: rt version is {version}"])


def other_versions():
    """The files whose version is not the changelog's."""
    version = re.search(r"^## (.*)$", read("CHANGELOG.md"), re.M)[1]
    numbers = zip(["_MAJOR", "_MINOR", "_PATCH", ""], [*version.split("."), f'"{version}"'])
    said = {f"man/{name}.1": f' "{name} {version}" ' for name in ("glob_run", "globs")}
    said["rust/Cargo.toml"] = f'\nversion = "{version}"\n'
    said["include/cadmiumdove.h"] = "".join(f"#define CADMIUMDOVE_VERSION{name} {it}\n" for name, it in numbers)
    return [name for name, text in said.items() if text not in read(name)]


def marks_of_merges():
    """The files with conflict markers of a merge."""
    return [name for name in FILES if re.search(r"^(<{7}|>{7}) ", (ROOT / name).read_text("utf-8", "ignore"), re.M)]


def main():
    count = Count()

    def check(what, faults):
        count.check(not faults, f"{what} {', '.join(faults)}")

    for page in EXAMPLES:
        check(f"{page}:", wrong_examples(page))
    for page in PAGES:
        check(f"{page}: no file", broken_links(page))
        check(f"{page}: no source", unknown_files(page))
        check(f"{page}: no definition", unknown_definitions(page))
        # A changelog is about the past.
        if page != "CHANGELOG.md":
            check(f"{page}: no source has", unknown_names(page))
    check("docs/DEFINITIONS.md: no clause", unknown_clauses())
    check("docs/DEFINITIONS.md: no call with a requires", unnamed_premises())
    check("bin/reference: cut off", cut_off_contracts())
    check("other messages:", other_messages())
    check("docs/FAULTS.md: no test", unknown_tests())
    check("out of date:", stale())
    check("not of the changelog's version:", other_versions())
    check("marks of a merge:", marks_of_merges())
    count.end()


main()
