"""Makes the erased sources modules of one crate: with impls of Rust's traits, paths and imports, and without dead
code."""
import re
from collections import Counter
from functools import cache

from .edits import Edits
from .facts import last
from .syntax import Parser

# Functions that are of a trait in Rust, by their names and how many parameters they have.
TRAITS = {("clone", 1): "Clone", ("default", 0): "Default", ("from_str", 1): "std::str::FromStr"}


@cache
def parsed(text):
    parser = Parser(text)
    parser.tree = parser.file()
    return parser


def owned(tree, owner=None, in_trait=False):
    """The items of a file and of its impls and traits, each with the type that it belongs to."""
    for item in tree.items:
        item.in_trait = in_trait
        yield item, owner
        if item.kind in ("impl", "trait"):
            name = item.name if item.kind == "trait" else last(item.type)
            yield from owned(item, name, item.kind == "trait" or item.of is not None)


def names_in(parser, node):
    """How often each name is in the code of a node, including format strings, and not counting names of fields."""
    found, before = Counter(), ""
    for token in parser.tokens:
        if node.start <= token.start < node.end:
            if token.kind == "name" and before != ".":
                found[token.text] += 1
            elif token.kind == "text":
                found.update(part.split("}")[0].split(":")[0] for part in token.text.split("{")[1:])
        before = token.text
    return found


def names_of(parser):
    """How often each name is in the code of a file, imports left out."""
    found = names_in(parser, parser.tree)
    for item in parser.tree.walk():
        if item.kind == "use":
            found -= names_in(parser, item)
    return found


def heads_of(parser):
    """The names with which paths in the code of a file begin, and those that its comments link."""
    imports = [item for item in parser.tree.walk() if item.kind == "use"]
    before = [None] + parser.tokens
    found = {token.text for last, token in zip(before, parser.tokens) if token.kind == "name"
        and (last is None or last.text not in ("::", "."))
        and not any(item.start <= token.start < item.end for item in imports)}
    for token in parser.all:
        if token.kind == "comment":
            found.update(re.findall(r"\[`(\w+)(?:::\w+)*`\](?!\()", token.text))
    return found


# In one file

def with_traits(text):
    """The text with functions that belong to a trait in Rust moved into an `impl` of it, at the end, and with adjacent
    `impl`s joined."""
    parser = parsed(text)
    edits, traits = Edits(text), []
    last_block = None
    for block in parser.tree.items:
        if block.kind != "impl" or block.of:
            last_block = None
            continue
        moved = [item for item in block.items if item.kind == "fn" and (item.name, len(item.params)) in TRAITS]
        for item in moved:
            start, end = parser.with_comments(item)
            edits.drop(start, end)
            said = text[start:item.plain_start] + text[item.visible.end if item.visible else item.plain_start:end]
            error = ""
            if item.name == "from_str":
                error = f"type Err = {text[item.answer.segments[-1].arguments.types[1].start:item.answer.end - 1]};\n\n"
            kind = text[block.type.start:block.type.end]
            traits.append(f"\nimpl {TRAITS[item.name, len(item.params)]} for {kind} {{\n{error}{said}\n}}\n")
        head = text[block.start:block.open]
        if len(moved) == len(block.items):
            edits.drop(block.start, block.end)
        elif last_block and text[last_block.start:last_block.open] == head and not text[last_block.end:block.start].strip():
            edits.put(last_block.end - 1, block.open, "\n")
            last_block = block
        else:
            last_block = block
    return edits.result() + "".join(traits)


class Crate:
    """The files by crate and name. `hand` are the handwritten files."""

    def __init__(self, texts, crates, hand, facts):
        self.texts, self.crates, self.facts = texts, crates, facts
        self.by_hand = {token.text for parser in hand for token in parser.tokens if token.kind == "name"}
        # the paths in this crate that they import
        self.from_hand = {tuple(path[path.index("proved") + 1:]) for parser in hand for item in parser.tree.walk()
            for path in ([path for path, _ in flat(item.tree, [])] if item.kind == "use" else
                [[part.name for part in item.segments]] if item.kind == "path" else []) if "proved" in path}
        # errors that are gone, and the names of those in their places
        self.wrappers = {name: [part.name for part in kind.segments] for name, (_, kind) in facts.wrappers.items()}

    def without_dead(self):
        """Removes parameters, fields and items that nothing reads, until none are left."""
        while True:
            files = {key: parsed(text) for key, text in self.texts.items()}
            edits = {key: Edits(text) for key, text in self.texts.items()}
            self.parameters(files, edits)
            self.flags(files, edits)
            self.fields(files, edits)
            self.items(files, edits)
            made = {key: one.result() for key, one in edits.items()}
            if made == self.texts:
                self.files = files
                return
            self.texts = made

    def parameters(self, files, edits):
        """Removes parameters that only contracts read, and the variables and generic parameters that go with them."""
        gone, heads = {}, Counter()
        for parser in files.values():
            for node, owner in owned(parser.tree):
                if node.kind == "fn":
                    heads.update([(owner, node.name), node.name] if takes_self(node) else [(owner, node.name)])
                    if not node.in_trait and node.body and unread_places(parser, node) \
                            and not self.is_exported(parser, node, owner):
                        gone[owner, node.name] = unread_places(parser, node), takes_self(node)
        gone = {(owner, name): places for (owner, name), (places, is_method) in gone.items()
            if heads[owner, name] == 1 and (not is_method or heads[name] == 1)}
        by_self = {(owner, name) for (owner, name) in gone if owner and heads[name] == 1}
        methods = {name: places for (owner, name), places in gone.items() if owner and heads[name] == 1}
        for key, parser in files.items():
            for node, owner in owned(parser.tree):
                if node.kind != "fn":
                    continue
                self.head(parser, node, edits[key], gone.get((owner, node.name), []))
                for part in node.walk():
                    if part.kind in ("method", "call"):
                        places = methods.get(part.name, []) if part.kind == "method" else gone.get(called(part, owner), [])
                        if part.kind == "call" and called(part, owner) in by_self:
                            places = [place + 1 for place in places]
                        self.without_pure(edits[key], part.arguments, lambda argument: part.arguments.index(argument) in places)
                    elif part.kind == "closure":
                        named = names_in(parser, part.body)
                        for param in part.params:
                            if param.name and not named[param.name]:
                                edits[key].put(param.pattern.start, param.pattern.end, "_")
                    elif part.kind == "block":
                        self.variables(parser, part, edits[key])

    def without_pure(self, edits, nodes, gone):
        """Removes some expressions, which must have no side effects."""
        for node in nodes:
            value = getattr(node, "value", None) if node.kind == "field_value" else node
            if gone(node) and value and not self.facts.is_pure(value):
                raise SystemExit(f"what is not needed may change something: {edits.text[node.start:node.end]}")
        edits.without(nodes, gone)

    def head(self, parser, node, edits, gone):
        params = [param for param in node.params if not param.is_self]
        edits.without(params, lambda param: params.index(param) in gone)
        if node.generics:
            rest = names_in(parser, node) - names_in(parser, node.generics)
            edits.without(node.generics.params, lambda param: param.name.isidentifier() and not rest[param.name],
                (node.generics.start, node.generics.end))

    def variables(self, parser, block, edits):
        """Removes variables that nothing reads and whose value comes from no call, except one that borrows."""
        named = names_in(parser, block)
        for statement in block.statements:
            if statement.kind == "let" and statement.pattern.kind == "bind" and named[statement.pattern.name] == 1 \
                    and statement.value and self.facts.is_pure(statement.value):
                edits.drop(statement.start, statement.end)
            elif statement.kind == "let" and statement.pattern.kind == "tuple_pattern":
                for part in statement.pattern.patterns:
                    if part.kind == "bind" and named[part.name] == 1:
                        edits.put(part.start, part.end, "_")

    def fields(self, files, edits):
        """Removes fields that nothing reads, and variants that nothing constructs."""
        gone = set()
        made = {tuple(step.name for step in part.segments[-2:]) for parser in files.values()
            for part in parser.tree.walk() if part.kind in ("path", "struct_value")}
        for key, parser in files.items():
            for node in parser.tree.walk():
                if node.kind == "struct":
                    gone |= {(node.name, field.name) for field in node.fields if field.kind == "field"
                        and not (field.visible and node.name in self.by_hand)
                        and not any({"PartialEq", "Hash", "PartialOrd"} & set(one.names) for one in node.attributes)
                        and not any(reads(other.tree, node.name, field.name) for other in self.seeing(key, field, files))}
                elif node.kind == "enum" and node.name not in self.by_hand:
                    gone |= {(node.name, variant.name) for variant in node.variants
                        if not made & {(node.name, variant.name), ("Self", variant.name)}}
        for key, parser in files.items():
            for node, owner in owned(parser.tree):
                for part in node.walk() if node.kind == "fn" else ():
                    if part.kind == "struct_value":
                        kind = owner if last(part) == "Self" else last(part)
                        self.without_pure(edits[key], part.fields, lambda field: (kind, field.name) in gone)
                    elif part.kind == "arm":
                        self.arm(parser, part, edits[key], gone)
                for part in getattr(node, "fields", []) + getattr(node, "variants", []):
                    if part.kind in ("field", "variant") and (node.name, part.name) in gone:
                        start, end = parser.with_comments(part)
                        edits[key].drop(start, end + (parser.source[end:end + 1] == ","))

    def flags(self, files, edits):
        """Removes flags that only a failed allocation sets: private fields that are made `false` and never assigned,
        with the function that returns one and each `if` that only asks that."""
        for key, parser in files.items():
            for node in parser.tree.items:
                for field in node.fields if node.kind == "struct" else []:
                    if field.kind == "field" and not field.visible and last(field.type) == "bool":
                        self.flag(node.name, field, self.seen(key, field, files), files, edits)

    def flag(self, kind, field, seen, files, edits):
        """Removes one flag, if nothing else is done with it than `flags` says."""
        made, getters, others = [], [], 0
        for key in seen:
            for node, owner in owned(files[key].tree):
                parts = list(node.walk()) if node.kind == "fn" else []
                made += [(key, part, field_value) for part in parts if part.kind == "struct_value"
                    and (owner if last(part) == "Self" else last(part)) == kind
                    for field_value in part.fields if field_value.name == field.name]
                got = sum(part.kind in ("get", "field_pattern") and part.name == field.name for part in parts)
                if got and owner == kind and is_getter(node, field.name):
                    getters.append((key, node))
                else:
                    others += got
        is_false = all(last(value.value) == "false" for _, _, value in made if value.value) \
            and all(value.value for _, _, value in made)
        if not made or not is_false or others or len(getters) != 1:
            return
        (key, getter), = getters
        calls = [part for parser in files.values() for part in parser.tree.walk()
            if part.kind == "method" and part.name == getter.name]
        tests = [(at, part) for at, parser in files.items() for part in parser.tree.walk() if part.kind == "if"
            and not part.other and any(part.test is call and self.facts.is_pure(call.value) for call in calls)]
        if len(tests) != len(calls) or sum(node.kind == "fn" and node.name == getter.name
                for parser in files.values() for node, _ in owned(parser.tree)) != 1:
            return
        for at, test in tests:
            edits[at].drop(test.start, test.end)
        for at, value, part in made:
            edits[at].without(value.fields, lambda one: one is part)
        edits[key].drop(*files[key].with_comments(getter))
        start, end = files[seen[0]].with_comments(field)
        edits[seen[0]].drop(start, end + (files[seen[0]].source[end:end + 1] == ","))

    def seeing(self, key, field, files):
        """The files that may read a field."""
        return [files[other] for other in self.seen(key, field, files)]

    def seen(self, key, field, files):
        """The keys of these files, that of the field's own first."""
        folder = key[1][:-3] + "/"
        return [key] + [other for other in files if other != key
            and (field.visible or other[0] == key[0] and other[1].startswith(folder))]

    def arm(self, parser, arm, edits, gone):
        """Removes an arm for what is gone, or the names in its pattern that it does not read."""
        pattern = arm.pattern
        if pattern.kind in ("path_pattern", "call_pattern") and len(pattern.segments) > 1 \
                and tuple(segment.name for segment in pattern.segments[-2:]) in gone:
            edits.drop(arm.start, arm.end)
            return
        named = names_in(parser, arm.body) + (names_in(parser, arm.guard) if arm.guard else Counter())
        for part in pattern.walk():
            if part.kind == "field_pattern" and part.name and not part.pattern and not named[part.name]:
                edits.put(part.start, part.end, f"{part.name}: _")

    def items(self, files, edits):
        """Removes functions that no remaining function names, and types and constants that nothing names."""
        live, found, bodies = set(), {(None, name) for name in self.exports(files)}, {}
        count = sum((names_of(parser) for parser in files.values()), Counter())
        for parser in files.values():
            for node, owner in owned(parser.tree):
                if node.kind == "fn":
                    bodies.setdefault(key_of(node, owner), []).append((node, owner))
                    if node.in_trait or self.is_exported(parser, node, owner):
                        found.add(key_of(node, owner))
                elif node.kind in ("const", "struct", "enum"):
                    found |= named_functions(node, owner)
        while found:
            live |= found
            found = {name for one in found for body in bodies.get(one, []) for name in named_functions(*body)} - live
        for key, parser in files.items():
            for node, owner in owned(parser.tree):
                if node.kind == "impl" and not node.items and not node.of \
                        or node.kind == "fn" and not node.in_trait and key_of(node, owner) not in live \
                        or node.kind in ("enum", "struct", "const", "type") and not owner and node.name not in self.by_hand \
                        and count[node.name] <= self.own(node, files):
                    edits[key].drop(*parser.with_comments(node))

    def exports(self, files):
        """The names exported by modules that handwritten files export as a whole."""
        return {path[-1] for key, parser in files.items() if self.is_inside(key) for item in parser.tree.walk()
            if item.kind == "use" and item.visible for path, _ in flat(item.tree, [])}

    def is_inside(self, key):
        """Whether a file is in a module that handwritten files import."""
        inside = self.module(key)
        return any(inside[:end] in self.from_hand for end in range(2, len(inside) + 1))

    def is_exported(self, parser, node, owner):
        is_public = node.visible and parser.source[node.visible.start:node.visible.end] == "pub"
        if not owner:
            return any(path[-1] == node.name for path in self.from_hand)
        return owner in self.by_hand and (is_public or node.name in self.by_hand)

    def own(self, node, files):
        """How often a type is named by itself and its `impl`s."""
        return sum(names_in(parser, item)[node.name] for parser in files.values() for item in parser.tree.items
            if item is node or item.kind == "impl" and last(item.type) == node.name)

    def finished(self, key):
        """One file, with paths and imports of the one crate."""
        crate, _ = key
        parser, edits = self.files[key], Edits(self.texts[key])
        used, seen = heads_of(parser), set()
        for item in parser.tree.walk():
            if item.kind == "use":
                lines = self.imports(item, key, used, seen)
                edits.put(item.start, item.end, lines) if lines else edits.drop(item.start, item.end)
            elif item.kind == "mod" and not self.has_module(key, item.name):
                edits.drop(*parser.with_comments(item))
            elif item.kind in ("path", "path_type", "struct_value", "call_pattern", "path_pattern", "struct_pattern"):
                first = item.segments[0]
                if len(item.segments) > 1 and (first.name == "crate" or first.name in self.crates):
                    edits.put(first.start, first.start + len(first.name), self.root(first.name, crate))
        return self.with_io(edits.result(), seen, used)

    def with_io(self, text, seen, used):
        """With an import of `io`, where an I/O error took the place of another."""
        return text if "io" in seen or "io" not in used else text.replace("\nuse ", "\nuse std::io;\nuse ", 1)

    def has_module(self, key, name):
        crate, file = key
        folder = "" if file == "lib.rt" else file[:-3] + "/"
        return (crate, f"{folder}{name}.rt") in self.texts

    def root(self, name, crate):
        return f"crate::proved::{crate if name == 'crate' else name}"

    def imports(self, item, key, used, seen):
        """What is left of a `use`."""
        crate, _ = key
        public = f"{'pub' if item.visible else ''} ".lstrip()
        groups = {}
        for path, alias in flat(item.tree, []):
            if path[-1] in self.wrappers:
                path = path[:-1] + self.wrappers[path[-1]]
            if "io" in path[1:-1]:
                path = ["std", "io"]
            name = alias or (path[-2] if path[-1] == "self" else path[-1])
            if name in seen or not self.is_kept(name, path, public, key, used):
                continue
            seen.add(name)
            if path[0] == "crate" or path[0] in self.crates:
                path = [*self.root(path[0], crate).split("::"), *path[1:]]
            groups.setdefault("::".join(path[:-1]), []).append(path[-1] + (f" as {alias}" if alias else ""))
        return "\n".join(f"{public}use {front}{'::' if front else ''}{named(names)};" for front, names in groups.items())

    def is_kept(self, name, path, public, key, used):
        if path[0] not in ("crate", "self", "super", "std", "core", "alloc", *self.crates) and not self.has_module(key, path[0]):
            return False
        if public:
            return (*self.module(key), name) in self.imported or self.is_inside(key)
        return path[-1] == "*" or name in used or bool(self.traits.get(name, set()) & self.calls(key))

    def calls(self, key):
        return {node.name for node in self.files[key].tree.walk() if node.kind == "method"}

    def module(self, key):
        """The path of a file's module, the crate first."""
        crate, file = key
        return (crate, *(() if file == "lib.rt" else file[:-3].split("/")))

    def collect(self):
        """What the files define, and what they import from each other."""
        self.traits = {"Hash": {"hash"}} | {item.name: {part.name for part in item.items if part.kind == "fn"}
            for parser in self.files.values() for item in parser.tree.items if item.kind == "trait"}
        self.imported = set(self.from_hand)
        for key, parser in self.files.items():
            inside = self.module(key)
            for item in parser.tree.walk():
                if item.kind == "use":
                    for path, _ in flat(item.tree, []):
                        root = (key[0],) if path[0] == "crate" else (path[0],) if path[0] in self.crates else (*inside, path[0])
                        self.imported.add((*root, *path[1:]))


def key_of(function, owner):
    """The key of a function: its type, if it has one, and its name; for a method only its name."""
    return "self" if takes_self(function) else owner, function.name


def named_functions(node, owner):
    """The functions that a node names."""
    found = set()
    for part in node.walk():
        if part.kind == "method":
            found.add(("self", part.name))
        elif part.kind == "path":
            names = [segment.name for segment in part.segments]
            kind = names[-2] if len(names) > 1 and names[-2][:1].isupper() else None
            found |= {(owner if kind == "Self" else kind, names[-1])} | ({("self", names[-1])} if kind else set())
    return found


def called(node, owner):
    """The type of the function that a call names, if it has one, and its name."""
    names = [segment.name for segment in node.callee.segments] if node.callee.kind == "path" else [None]
    kind = names[-2] if len(names) > 1 and names[-2][:1].isupper() else None
    return owner if kind == "Self" else kind, names[-1]


def reads(tree, kind, name):
    """Whether a file reads a field of a type, judging by names only."""
    return any(part.name == name and (part.kind == "field_pattern" or part.kind == "get" and not (
        owner != kind and part.value.kind == "path" and part.value.segments[0].name == "self"))
        for node, owner in owned(tree) if node.kind == "fn" for part in node.walk() if part.kind in ("get", "field_pattern"))


def is_getter(function, name):
    """Whether a function only returns a field of its receiver."""
    body = function.body
    return body is not None and not body.statements and body.tail is not None and body.tail.kind == "get" \
        and body.tail.name == name and body.tail.value.kind == "path" and last(body.tail.value) == "self"


def takes_self(function):
    return any(param.is_self for param in function.params)


def named(names):
    """The names at the end of a `use`."""
    return names[0] if len(names) == 1 and names[0] != "self" else f"{{{', '.join(names)}}}"


def unread_places(parser, function):
    """The indices of parameters that the body does not name."""
    named = names_in(parser, function.body)
    params = [param for param in function.params if not param.is_self]
    return [place for place, param in enumerate(params)
        if param.name and not named[param.name] and not param.name.startswith("_")]


def flat(tree, front):
    """The paths that a `use` names, with their aliases."""
    path = front + tree.path
    if tree.trees is None:
        yield path, tree.alias
    else:
        for part in tree.trees:
            yield from flat(part, path)
