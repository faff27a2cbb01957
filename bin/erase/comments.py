"""Rewrites comments: removes what they say about memory, and translates their examples to Rust."""
import re
from itertools import groupby
from textwrap import wrap

from .edits import Edits
from .erasing import Eraser
from .facts import last
from .syntax import Parser

# Phrases about memory, about asks that contracts count, and about what Rust's users do not have.
SAID = re.compile(r"\b(alloc|[Aa]llocat\w*|AllocError|Memory|OutOfMemory|[Ff]ails only|succeeds)\b"
    r"|\b(out of|no|their|takes) memory|the crate `glob|its `asks`|\[`MemTree`\]|a tree in memory|A call that fails\b"
    r"|\bhas no room\b")
# How sentences begin that say what the error of a function is.
OF_ERRORS = ("The error", "A pattern with a fault is refused", "[`io::Error`] is ", "What [`WalkMachine::new`]")
# What begins the contract of a function that users reach.
CONTRACT = "<details><summary>Contract</summary>"
# Phrases about the error of a function.
ERROR = re.compile(r"(The|Its) error (is|comes)\b|, (with|and) its errors?\b")


def without_memory(sentence, fails):
    """A sentence without what it says about memory and, for a function that cannot fail, about its error."""
    sentence = re.sub(r"(`[^`]*\()alloc, ", r"\1", sentence)
    sentence = re.sub(r"(`\w+`) (?:or|and) `Memory`", r"\1", sentence)
    if not fails:
        sentence = "" if ERROR.match(sentence) else ERROR.sub("", sentence)
    if not SAID.search(sentence):
        return sentence
    clauses = re.split(r"(?<=;) ", sentence)
    kept = [clause for clause in clauses if not SAID.search(clause)]
    if not kept:  # what comes before the first that speaks of it
        clauses = re.split(r"(?<=[,:]) (?=(?:or|and|but|where|that)\b)", clauses[0])
        kept = clauses[:next(n for n, clause in enumerate(clauses) if SAID.search(clause))]
    return " ".join(kept).rstrip(",;:.") + "." if kept else ""


def prose(lines, fails, facts, width, paths):
    """The lines of one paragraph without what they say about memory."""
    text = with_errors(" ".join(line.strip() for line in lines), facts)
    if text.startswith(("- `tells` ", "- `asks` ")):
        return []
    sentences = [one for one in split(text) if not one.startswith("Contracts see ")]
    left = paths(" ".join(filter(None, (without_memory(sentence, fails) for sentence in sentences))))
    return lines if left == " ".join(line.strip() for line in lines) else wrap(left, width, subsequent_indent="  " * text.startswith("- "),
        break_long_words=False, break_on_hyphens=False)


def with_errors(text, facts):
    """The text with the names of the errors that replace others."""
    for name, (variant, kind) in facts.wrappers.items():
        other = "::".join(part.name for part in kind.segments)
        text = re.sub(rf"\[`\w+`\]\({name}::{variant}\)|\[`{name}(::\w+)?`\]", f"[`{other}`]", text)
        text = re.sub(rf"\b{name}::{variant}\((\w+)\)", r"\1", text)
    for name in facts.hearers:
        text = re.sub(rf"\b{name}\(Ok\(([\w:]+)\)\)", rf"{name}(\1)", text)
    return text.replace("is refused with `Syntax`: ", "is refused: ")


def without_asides(lines, fails, facts, width, paths):
    """The lines of a comment, each without its mark."""
    out = []
    for kind, part in groupby(numbered(lines), key=lambda line: line[0]):
        part = [line for _, line in part]
        if kind[0] == "code" and part[0] == "```text":
            out += fenced(example(part[1:-1], facts), facts.public)
        elif kind[0] == "prose":
            out += prose(part, fails, facts, width, paths)
        else:
            out += part
    return tidy(out)


def with_section(lines, name, width):
    """The documentation of a function that returns a `Result` and that users reach, with what it says of its errors as
    the section that Rust users look for. If it says nothing, this stops with an error."""
    end = lines.index(CONTRACT)
    kept, errors, is_listed = [], [], False
    for kind, part in groupby(numbered(lines[:end]), key=lambda line: line[0]):
        part = [line for _, line in part]
        text = " ".join(line.strip() for line in part)
        sentences = split(text) if kind[0] == "prose" else []
        first = next((at for at, one in enumerate(sentences) if one.startswith(OF_ERRORS)), None)
        if first is not None:
            said, is_listed = " ".join(sentences[first:]), sentences[-1].endswith(":")
            kept += wrapped(" ".join(sentences[:first]), width)
            errors += wrapped(said, width) if len(sentences) - first > 1 or not is_listed else []
        elif is_listed and (text.startswith("- ") or not text):
            errors += part
            kept += [] if text else part
        else:
            kept, is_listed = kept + part, False
    if not errors:
        raise SystemExit(f"{name}: its documentation does not say what its errors are")
    return tidy([*kept, "", "# Errors", "", *errors, "", *lines[end:]])


def split(text):
    """The sentences of a text."""
    return re.split(r"(?<=[.:]) (?=[A-Z`\[])(?!Then )", text)


def wrapped(text, width):
    return wrap(text, width, break_long_words=False, break_on_hyphens=False)


def tidy(lines):
    """The lines without a blank one at an end, and without two in a row."""
    out = [line for at, line in enumerate(lines) if line or at and lines[at - 1]]
    return out[:-1] if out and not out[-1] else out


def numbered(lines):
    """Each line with the kind and number of the paragraph that it is in."""
    number, kind, code, found = 0, None, False, []
    for line in lines:
        fence = line.startswith("```")
        now = "code" if code or fence else "prose" if line and not re.match(r"[|#]|\w+:$", line) else "line"
        if now != kind or now == "line" or line.startswith("- ") or fence and not code:
            number += 1
        kind, code = now, code ^ fence
        found.append(((kind, number), line))
    return found


def fenced(code, public):
    """An example in its fence. If it asserts something, it is a test, with imports of what it names."""
    if "assert" not in code:
        return ["```text", *code.split("\n"), "```"]
    paths = sorted({public[token.text] for token in Parser(code).tokens if token.text in public})
    ends = ["# Ok::<(), Box<dyn std::error::Error>>(())"] if "?" in code else []
    return ["```", *(f"# use {path};" for path in paths), *code.split("\n"), *ends, "```"]


def example(lines, facts):
    """The lines of an example, erased as a block. A drawing stays."""
    code = "\n".join(lines)
    try:
        parser = Parser(code)
        made = erased(parser, parser.statements(), facts)
    except SyntaxError:
        return code
    return re.sub(r"\n{2,}(?=\s*(fn|\}))", "\n", made).strip("\n")


def erased(parser, tree, facts):
    eraser = Eraser(parser, facts)
    eraser.memory_names = [{"alloc"}]
    eraser.visit(tree)
    return eraser.edits.result()


def examples(text):
    """The examples of a page by the items that its headings name, each the lines of a code block."""
    parts = re.split(r"^## (.*)\n", text, flags=re.M)[1:]
    return {name: code.strip().split("\n") for name, code in zip(parts[::2], parts[1::2])}


def with_example(lines, code):
    """The documentation with an example before its contract and what it says of errors."""
    end = next((at for at, line in enumerate(lines) if line in ("# Errors", CONTRACT)), len(lines))
    return tidy([*lines[:end], "", *code, "", *lines[end:]])


def items(node, owner=""):
    """The items of a file and of its `impl`s and traits by their offsets, each with its name after its type's."""
    for item in node.items:
        name = getattr(item, "name", None)
        if name and (not owner or item.kind == "fn"):
            yield item.start, f"{owner}{name}"
        if item.kind in ("trait", "impl") and not getattr(item, "of", None):
            yield from items(item, f"{name or last(item.type)}::")


def rewritten(parser, facts, paths, exported=(), left_over=()):
    """The text of a file, with comments that say nothing about memory and name items by their paths in the one
    crate. Examples of items that users reach are taken from those left over."""
    edits = Edits(parser.source)
    names = {start: name for start, name in items(parser.tree) if name.split("::")[0] in exported}
    functions = {node.start: node for node in parser.tree.walk() if node.kind == "fn"}
    fallible = {start: last(node.answer) == "Result" for start, node in functions.items()}
    for run in runs(parser):
        mark = re.match(r"//[/!]?", run[0].text)[0]
        after = next((token.start for token in parser.all if token.start >= run[-1].end and token.kind != "comment"), -1)
        lines = [token.text[len(mark):].removeprefix(" ") for token in run]
        indent = parser.source[parser.source.rfind("\n", 0, run[0].start) + 1:run[0].start]
        if indent.strip():  # after code on its line
            continue
        width = 120 - len(f"{indent}{mark} ")
        left = without_asides(lines, fallible.get(after, True), facts, width, paths)
        if fallible.get(after) and CONTRACT in left:
            left = with_section(left, functions[after].name, width)
        if mark == "///" and names.get(after) in left_over:
            left = with_example(left, left_over.pop(names[after]))
        made = f"\n{indent}".join(f"{mark} {line}".rstrip() for line in left)
        edits.put(run[0].start, run[-1].end, made)
    return edits.result()


def unproved(parser, stated, tests):
    """The handwritten calls that users reach and whose documentation has no contract of the sources, and names no
    test."""
    documents = {next((token.start for token in parser.all if token.start >= run[-1].end and token.kind != "comment"), -1):
        "\n".join(token.text[3:].removeprefix(" ") for token in run) for run in runs(parser)}
    calls = [node for item in parser.tree.items for node in (item.items if item.kind == "impl" and not item.of else [item])
        if node.kind == "fn" and node.visible and parser.source[node.visible.start:node.visible.end] == "pub"]
    for node in calls:
        said = documents.get(node.start, "")
        contract = re.search(r"Contract</summary>\n\n(?:.*\n\n)?```text\n([\s\S]*?)\n```", said)
        tested = re.search(r"Tested</summary>\n\n([\s\S]*)\n\n</details>", said)
        names = re.findall(r"`(\w+)`|`(tests/\w+\.rs)`", tested[1]) if tested else []
        files = [file for _, file in names if file in tests]
        is_tested = bool(files) and all(any(f"fn {name}(" in tests[file] for file in files) for name, file in names
            if name and name != "glob") and len(files) == sum(bool(file) for _, file in names)
        if not is_tested and not (contract and contract[1] in stated):
            yield node.name


def runs(parser):
    """The comments on lines one below another, with the same mark."""
    run = []
    for token in parser.all:
        mark = token.text[:3] if token.text[:3] in ("///", "//!") else "//"
        if run and (token.kind != "comment" or mark != kind or parser.source[run[-1].end:token.start].count("\n") != 1):
            yield run
            run = []
        if token.kind == "comment":
            run, kind = run + [token], mark
    if run:
        yield run
