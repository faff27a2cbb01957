#!/usr/bin/env python3
"""Compares each function, type and constant of rust/src/proved with its source, token by token, and knows nothing of
how bin/erase works: what the generated one has beyond its source has to be of the few forms below, and of the words that
decide what a program does, none may be missing without a reason. The last line is 'N passed, M failed'."""

import difflib
import re
import sys
from collections import defaultdict
from pathlib import Path

sys.dont_write_bytecode = True
from lib.count import Count

TOP = Path(__file__).resolve().parent.parent
TOKEN = re.compile(r'"(?:\\[\s\S]|[^"\\])*"|b?\'(?:\\u\{\w+\}|\\x..|\\.|[^\'\\])\'|//[^\n]*|\w+|\S')
# What may be there beyond the source: types and errors that replace others, punctuation, a name for the error that was
# matched, memory that is filled after its allocation, `_` for what is not read, and a renamed function.
ADDED = re.compile("|".join([r"[;,)}{]|{ }|} }", r"' _", "&", "_|: _", "(> , )?(io : : )?Error|> , io", r"let \w+ =",
    "from|reason|false", "(, )?(PatternError|BraceError|SetRefusal|BraceSetRefusal)",
    r"Vec : : with_capacity \(( \w+ \))?", r"(\) ; )?\w+ \. resize.*", r"words \. len \( \) , 0 \) ;"]))
# Words that decide what a program does, and the reason if one of them is missing.
DECIDES = {"if", "else", "=>", "while", "for", "loop", "return", "break", "continue", "!", "&&", "||", "+", "-", "/", "%"}
REASON = re.compile(r"Memory|memory|AllocError|Allocator|in alloc|allocator \(|Err \(|is_full")
# The reason if only an arm is missing, and its value stays: it is the only arm, or its error replaces another.
OF_ARM = re.compile(r"Ok \(|Syntax \(")


def items(text):
    """The tokens of each function, type and constant, contracts left out, by its kind and name."""
    found, tokens, at = defaultdict(list), without_contracts([one for one in TOKEN.findall(text) if one[:2] != "//"]), 0
    while at < len(tokens):
        if tokens[at] in ("fn", "struct", "enum", "trait", "const", "type") and tokens[at + 1] != "fn" \
                and re.match(r"[A-Za-z_]\w*$", tokens[at + 1]):
            found[tokens[at], tokens[at + 1]].append(tokens[at:end_of(tokens, at)])
        at += 1
    return found


def without_contracts(tokens):
    """The tokens without contracts and ghost lines."""
    out, at = [], 0
    while at < len(tokens):
        if tokens[at] in ("requires", "ensures"):
            at = closed(tokens, tokens.index("{", at))
        elif tokens[at] == "ghost":
            while tokens[at] not in ";,":
                at = closed(tokens, at) if tokens[at] == "{" else at + 1
            at += 1
        else:
            out.append(tokens[at])
            at += 1
    return out


def closed(tokens, at):
    """The place after the brace that closes the one here."""
    level = 0
    for place in range(at, len(tokens)):
        level += (tokens[place] == "{") - (tokens[place] == "}")
        if level == 0:
            return place + 1
    raise SystemExit("a brace is not closed")


def end_of(tokens, at):
    """The place after an item, which has a body or a semicolon."""
    level = 0
    for place in range(at, len(tokens)):
        level += (tokens[place] in "([") - (tokens[place] in ")]")
        if level == 0 and tokens[place] == ";":
            return place + 1
        if level == 0 and tokens[place] == "{":
            return closed(tokens, place)
    raise SystemExit("an item does not end")


def source_of(path):
    crate, *rest = path.relative_to(TOP / "rust/src/proved").parts
    file = TOP / "crates" / crate / "src" / Path(*rest)
    return file.with_name("lib.rt") if path.name == "mod.rs" else file.with_suffix(".rt")


def differences(source, made):
    """What the generated function has beyond its source, and what it lacks."""
    changes = difflib.SequenceMatcher(None, source, made, False).get_opcodes()
    added = [" ".join(made[j1:j2]) for kind, _, _, j1, j2 in changes if j2 > j1 and kind != "equal"]
    lacks = [" ".join(source[i1:i2]) for kind, i1, i2, _, _ in changes if i2 > i1 and kind != "equal"]
    return added, lacks


def faults(source, made):
    added, lacks = differences(source, made)
    return [f"has: {one}" for one in added if not ADDED.fullmatch(one)] \
        + [f"lacks: {one}" for one in lacks if not may_go(one)]


def may_go(piece):
    deciding = DECIDES & set(piece.replace("- >", "").replace("= >", "=>").split(" "))
    if set(re.findall(r"(\w+) \(", piece)) - {"Ok", "Syntax", "Read"} and not piece.startswith("let "):
        deciding.add("a call")
    return not deciding or REASON.search(piece) or deciding == {"=>"} and OF_ARM.search(piece)


def renamed():
    """The names of functions that have another one in their source, as bin/rust_crate lists them."""
    rows = re.findall(r'\("\w+", "(\w+)", "pub\(crate\) fn (\w+)"', (TOP / "bin/rust_crate").read_text())
    return {new: old for old, new in rows}


def main():
    count, names, seen = Count(), renamed(), 0
    for path in sorted((TOP / "rust/src/proved").rglob("*.rs")):
        if path == TOP / "rust/src/proved/mod.rs":
            continue
        sources = items(source_of(path).read_text())
        for (kind, name), bodies in items(path.read_text()).items():
            old = names.get(name, name) if (kind, name) not in sources else name
            for body in bodies if name != "Err" else []:  # of `FromStr`, the error of the function
                body = [old if one == name and name != old else one for one in body]
                found = min((faults(source, body) for source in sources[kind, old]), key=len, default=["has no source"])
                count.same(f"{path.name}: {name}", found, [])
                seen += 1
    count.same("items enough", seen > 500, True)
    count.end()


if __name__ == "__main__":
    main()
