"""Erases contracts and ghost lines, allocators, and failed allocations."""
import re

from .edits import Edits
from .facts import is_allocator, last, memory_result

# Functions of std that have another name if they cannot fail.
RENAMED = {("Vec", "from_slice"): "from", ("String", "from_str"): "from"}
# Clauses that say when an allocation fails.
ABOUT_MEMORY = re.compile(r"\bIsOk result\b|\bNoMemory\b|\bOnErr result\b")
# Functions that Rust has in a trait.
OF_TRAITS = {"clone", "default", "from_str"}
# Left to handwritten code: traits that have more methods in Rust.
BY_HAND = {("Error", "PatternError"), ("Error", "GlobError"), ("Display", "Pattern"), ("Debug", "Pattern"),
    ("Error", "SetRefusal"), ("Error", "BraceSetRefusal")}


class Eraser:
    """Erases in one source."""

    def __init__(self, parser, facts, exported=frozenset()):
        self.parser, self.text, self.exported = parser, parser.source, exported
        self.edits, self.facts = Edits(parser.source), facts
        self.memory_types = [set()]  # allocator types in scope
        self.memory_names = [set()]  # variables that are allocators
        self.copies = [set()]  # parameters that are borrowed or copied
        self.answers = [set()]  # parameters that are results of calls that fail only for lack of memory
        self.owner, self.in_trait, self.of = None, False, None
        self.heard = set()  # calls that fail only for lack of memory, and whose results are handled so
        self.reasons = set()  # why something else is changed

    def visit(self, node):
        getattr(self, f"visit_{node.kind}", self.visit_parts)(node)

    def visit_parts(self, node):
        for child in node.children():
            self.visit(child)

    def cut(self, node):
        self.edits.drop(node.start, node.end)

    # Items

    def visit_file(self, node):
        for attribute in node.inner:
            if attribute.name == "tactic":
                self.cut(attribute)
        self.items(node.items)

    def items(self, items):
        for item in items:
            if self.is_gone(item):
                self.edits.drop(*self.parser.with_comments(item))
            else:
                self.visit(item)

    def is_gone(self, item):
        kind = item.kind
        if kind == "ghost":
            return True
        if kind == "type":
            return any(last(bound) == "Allocator" for bound in item.bounds) or item.name == "Alloc"
        if kind in ("enum", "struct"):
            return item.name in self.facts.wrappers
        if kind == "impl":
            of = last(item.of)
            source = item.of.segments[-1].arguments if of == "From" else None
            if of == "Display" and last(item.type) in self.facts.wrappers \
                    and not re.search(r"\bfmt\((f|&?\w+, f)\)", self.text[item.start:item.end]):
                raise SystemExit(f"{last(item.type)}: it is not printed as what it holds")
            from_failure = source and last(source.types[0]) in ("AllocError", "AllocFailed")
            return of == "Model" or bool(from_failure) or last(item.type) in self.facts.wrappers \
                or (of, last(item.type)) in BY_HAND
        if kind == "fn" and self.of:
            return False
        if kind == "fn":
            return self.makes_memory(item) or any(self.is_std_path(param.type) for param in item.params if param.type)
        return False

    def makes_memory(self, function):
        """Whether a function makes the error of a failed allocation, other than from another one."""
        arms = {id(node) for arm in function.walk() if arm.kind == "arm" and self.is_memory_pattern(arm.pattern)
            for node in arm.walk()}
        return any(node.kind == "path" and (node.segments[-1].name == "Memory"
            or [part.name for part in node.segments] == ["GlobError", "memory"])
            for node in function.walk() if id(node) not in arms)

    def is_std_path(self, node):
        """Whether a type is std's `Path<'_>`, which is Rust's `&Path`."""
        return last(node) == "Path" and bool(node.segments[-1].arguments)

    def visit_impl(self, node):
        self.owner, self.of = last(node.type), node.of
        self.scope(node, lambda: (self.heads(node), self.items(node.items)))
        self.owner, self.of = None, None

    def visit_trait(self, node):
        self.owner, self.in_trait = node.name, True
        dropped = [bound for bound in node.bounds if last(bound) == "Drop"]
        if dropped:
            self.edits.without(node.bounds, lambda bound: bound in dropped, (self.after_generics(node), node.bounds[-1].end))
        self.scope(node, lambda: (self.heads(node), self.items(node.items)))
        self.owner, self.in_trait = None, False

    def after_generics(self, node):
        return node.generics.end if node.generics else self.text.index(node.name, node.plain_start) + len(node.name)

    def heads(self, node):
        """Visits what is before the members."""
        for attribute in node.attributes:
            self.visit(attribute)
        for part in (node.generics, getattr(node, "of", None), getattr(node, "type", None), node.where):
            if part:
                self.visit(part)

    def scope(self, node, inside):
        """Runs `inside` with the allocators among the generic parameters of a node in scope."""
        params = node.generics.params if node.generics else []
        self.memory_types.append(self.memory_types[-1] | {param.name for param in params if is_allocator(param)})
        inside()
        self.memory_types.pop()

    def visit_attribute(self, node):
        if node.name == "tactic":
            self.cut(node)
        elif node.name in ("derive", "derive_where"):
            names = [name for name in node.names if name != "Drop"]
            if names:
                self.edits.put(node.start, node.end, f"#[derive({', '.join(names)})]")
            else:
                self.cut(node)

    def visit_struct(self, node):
        def inside():
            gone = [field for field in node.fields if field.kind == "ghost_field" or self.is_memory(field.type)]
            for field in gone:
                self.cut_field(field)
            for child in node.children():
                if child not in gone:
                    self.visit(child)
        self.scope(node, inside)

    def cut_field(self, field):
        """Cuts a field or a variant with its comments and its comma."""
        start, end = self.parser.with_comments(field)
        self.edits.drop(start, end + (self.text[end:end + 1] == ","))

    def visit_enum(self, node):
        def inside():
            for child in node.children():
                if child.kind == "variant" and child.name == "Memory" and not child.fields:
                    self.cut_field(child)
                else:
                    self.visit(child)
        self.scope(node, inside)

    def visit_type(self, node):
        self.scope(node, lambda: self.visit_parts(node))

    def visit_generics(self, node):
        self.edits.without(node.params, lambda param: is_allocator(param) or is_writer(param), (node.start, node.end))
        for param in node.params:
            self.visit_parts(param)

    def visit_where(self, node):
        self.edits.without(node.bounds, lambda bound: self.is_memory(bound.type), (node.start, node.end))
        self.visit_parts(node)

    def visit_fn(self, node):
        self.memory_names.append({param.name for param in node.params if param.type and self.in_scope(node, param.type)})
        self.answers.append({param.name for param in node.params if param.type and memory_result(param.type)})
        self.copies.append({param.name for param in node.params if param.type
            and (param.type.kind == "ref" or last(param.type) in self.facts.copies)})
        self.scope(node, lambda: self.in_function(node))
        self.memory_names.pop()
        self.copies.pop()
        self.answers.pop()

    def in_scope(self, node, kind):
        params = node.generics.params if node.generics else []
        return last(kind) in {param.name for param in params if is_allocator(param)} or self.is_memory(kind)

    def in_function(self, node):
        if node.contracts:
            end = node.body.start if node.body else node.end - 1
            self.edits.put(node.head_end, end, " " if node.body else "")
            if self.is_exported(node) and node.name not in OF_TRAITS:
                self.state(node)
        if self.is_exported(node) and not self.in_trait and node.answer and (last(node.answer) != "Result"
                or memory_result(node.answer) is not None) and node.name not in OF_TRAITS \
                and not any(param.is_mut or param.type is not None and param.type.kind == "ref" and param.type.mut
                for param in node.params):
            self.edits.put(node.plain_start, node.plain_start, "#[must_use]\n")
        for part in (*node.attributes, node.generics, node.where):
            if part:
                self.visit(part)
        self.edits.without(node.params, lambda param: param.type and self.is_memory(param.type))
        for param in node.params:
            self.visit(param)
        answer = memory_result(node.answer)
        if answer is not None and answer.kind == "tuple" and not answer.types:
            self.edits.put(node.params_end, node.answer.end)
        elif node.answer:
            self.visit(node.answer)
        if node.body:
            if answer is not None:
                self.heard |= {id(one) for one in mark_answers(node.body)}
            self.visit(node.body)

    def is_exported(self, node):
        """Whether users of the crate call a function."""
        name = self.owner or node.name
        return name in self.exported and (self.in_trait or self.is_public(node))

    def is_public(self, node):
        return node.visible is not None and self.text[node.visible.start:node.visible.end] == "pub"

    def state(self, node):
        """Writes the contract of a function into its documentation."""
        start = next((one.start for one in node.attributes if one.name != "tactic"), node.plain_start)
        indent = self.text[self.text.rfind("\n", 0, start) + 1:start]
        lines = ["", "<details><summary>Contract</summary>", "", "```text"]
        for clause in node.contracts:
            types = [node.answer, *(param.type for param in node.params)]
            if any(memory_result(kind) is not None for kind in types if kind) \
                    and ABOUT_MEMORY.search(self.text, clause.start, clause.end):
                continue
            said = self.text[clause.start:clause.end].split("\n")
            lines += [said[0], *("    " + line.strip() for line in said[1:])]
        self.facts.stated.add("\n".join(lines[4:]))
        lines += ["```", "", "</details>"]
        self.edits.put(start, start, "".join(f"/// {line}".rstrip() + f"\n{indent}" for line in lines))

    # Types

    def is_memory(self, node):
        """Whether a type is an allocator."""
        if node.kind != "path_type":
            return False
        names = [segment.name for segment in node.segments]
        return names[-1] in self.memory_types[-1] or names == ["Global"] or len(names) > 1 and names[-1] == "Alloc"

    def visit_path_type(self, node):
        inner, name = memory_result(node), last(node)
        if inner is not None:
            self.edits.put(node.start, inner.start)
            self.edits.put(inner.end, node.end)
            self.visit(inner)
        elif name in self.facts.wrappers:
            kind = self.facts.wrappers[name][1]
            self.edits.put(node.start, node.end, "::".join(segment.name for segment in kind.segments))
        elif self.is_std_path(node):
            self.edits.put(node.start, node.end, "&Path")
        else:
            self.visit_parts(node)

    visit_bound = visit_path_type

    def visit_arguments(self, node):
        """Those of a type."""
        def gone(kind):
            return kind.kind == "bound_argument" and kind.name == "Alloc" or kind.kind == "path_type" and self.is_memory(kind)
        self.edits.without(node.types, gone, (node.start, node.end))
        for kind in node.types:
            if not gone(kind):
                self.visit(kind)

    def visit_segment(self, node):
        if node.name == "Formatter" and node.arguments:
            self.edits.put(node.arguments.start, node.arguments.end, "<'_>")
        else:
            self.visit_parts(node)

    # Statements and expressions

    def is_memory_value(self, node):
        """Whether an expression is an allocator."""
        if node.kind in ("unary", "borrow"):
            return self.is_memory_value(node.value)
        if node.kind == "path":
            return len(node.segments) == 1 and node.segments[0].name in self.memory_names[-1]
        if node.kind == "get":
            return node.name in self.facts.memory_fields
        if node.kind == "call":
            return last(node.callee) == "allocator"
        return node.kind == "method" and node.name == "allocator" and not node.arguments

    def fails(self, node):
        """Whether an expression fails only for lack of memory."""
        if node.kind == "paren":
            return self.fails(node.parts[0])
        if node.kind == "method":
            return self.facts.call_fails(None, node.name, True)
        if node.kind == "macro":
            return node.memory is not None or node.name in ("write", "writeln") and not self.is_formatter(node)
        if node.kind == "path":
            return len(node.segments) == 1 and node.segments[0].name in self.answers[-1]
        if node.kind == "call" and node.callee.kind == "path":
            names = [segment.name for segment in node.callee.segments]
            kind = names[-2] if len(names) > 1 else None
            return self.facts.call_fails(self.owner if kind == "Self" else kind, names[-1], False)
        return False

    def is_formatter(self, macro):
        return self.text[macro.arguments[0].start:macro.arguments[0].end] == "f"

    def visit_try(self, node):
        self.hear(node.value)
        self.visit(node.value)
        if self.fails(node.value):
            self.edits.put(node.value.end, node.end)

    def hear(self, node):
        """Records that the failure of a call is handled."""
        self.heard.add(id(node))

    def check(self, node):
        """Stops with an error if the failure of a call is handled in another way."""
        name = node.name if node.kind == "method" else last(node.callee)
        if self.fails(node) and id(node) not in self.heard and name not in self.facts.certain:
            raise SystemExit(f"a failed allocation is heard in another way: {self.text[node.start:node.end]}")

    def arguments(self, node, opened):
        """Visits arguments, without allocators."""
        self.edits.without(node.arguments, self.is_memory_value)
        for argument in node.arguments:
            if opened in self.facts.hearers or opened in ("Some", "Look", "List"):
                self.hear(argument)
            if not self.is_memory_value(argument):
                self.visit(argument)
            if argument.kind == "call" and last(argument.callee) == "Ok" and opened in self.facts.hearers:
                self.unwrap(argument)

    def unwrap(self, call):
        """Replaces `Some(x)` by `x`."""
        self.edits.put(call.start, call.arguments[0].start)
        self.edits.put(call.arguments[-1].end, call.end)

    def visit_call(self, node):
        self.check(node)
        names = [segment.name for segment in node.callee.segments] if node.callee.kind == "path" else []
        name = names[-1] if names else None
        self.visit(node.callee)
        self.arguments(node, name)
        if is_unit_ok(node) and node.plain:
            self.edits.put(node.start, node.end, "{}" if node.plain == "{}" else "")
        elif node.plain or len(names) > 1 and self.facts.wrappers.get(names[-2], [None])[0] == name:
            self.unwrap(node)
        elif tuple(names[-2:]) in RENAMED:
            segment = node.callee.segments[-1]
            self.edits.put(segment.start, segment.end, RENAMED[tuple(names[-2:])])

    def visit_method(self, node):
        self.check(node)
        self.visit(node.value)
        self.arguments(node, node.name)

    def visit_macro(self, node):
        if node.first:
            self.cut(node.first)
        for argument in node.arguments:
            self.visit(argument)
        if node.count:
            self.visit(node.count)
        if node.name in ("write", "writeln") and not self.is_formatter(node):
            target, *words = node.arguments
            line = "\\n" if node.name == "writeln" else ""
            said = self.edits.result(words[0].start, words[-1].end)
            first = self.text[words[0].start:words[0].end]
            said = f'{first[:-1]}{line}"{said[len(first):]}'
            self.edits.put(node.start, node.end, f"{self.edits.result(target.start, target.end)}.push_str(&format!({said}))")

    def visit_struct_value(self, node):
        def gone(field):
            value = field.value
            return field.kind == "field_value" and field.name in self.facts.memory_fields \
                and (value is None and field.name in self.memory_names[-1] or value is not None and self.is_memory_value(value))
        self.edits.without(node.fields, gone)
        for field in node.fields:
            if not gone(field):
                self.visit(field)
        if node.base:
            self.visit(node.base)

    def visit_closure(self, node):
        if node.contracts:
            self.edits.put(node.contracts[0].start, node.body.start)
        self.visit_parts(node)

    def visit_block(self, node):
        self.memory_names.append(set(self.memory_names[-1]))
        for statement in node.statements:
            self.visit(statement)
        if node.tail:
            self.visit(node.tail)
            self.splice(node.tail)
        self.memory_names.pop()

    def visit_let(self, node):
        if node.pattern.kind == "bind" and node.value and self.is_memory_value(node.value):
            self.memory_names[-1].add(node.pattern.name)
            self.cut(node)
            return
        unread = node.pattern.kind == "any" or node.pattern.kind == "bind" and node.pattern.name.startswith("_")
        if unread and node.value.kind == "path" and node.value.segments[0].name in self.copies[-1]:  # for a proof
            self.cut(node)
            return
        if node.other:
            self.hear(node.value)
        self.visit_parts(node)
        self.fill(node)
        if node.other and self.fails(node.value) and node.pattern.kind == "call_pattern":
            bound = node.pattern.patterns[0]
            if bound.kind == "tuple_pattern" and not bound.patterns:
                self.edits.put(node.start, node.value.start)
            else:
                self.edits.put(node.pattern.start, bound.start)
                self.edits.put(bound.end, node.pattern.end)
            self.edits.put(node.value.end, node.end, ";")

    def fill(self, node):
        """Replaces an allocation of filled memory by one that is filled afterwards."""
        value = node.value.value if node.value and node.value.kind == "try" else node.value
        if value and value.kind == "macro" and value.name == "vec" and value.count:
            if not (self.facts.is_pure(value.count) and self.facts.is_pure(value.arguments[0])):
                raise SystemExit(f"{node.pattern.name}: the length or the element is evaluated twice")
            count = self.edits.result(value.count.start, value.count.end)
            filling = self.edits.result(value.arguments[0].start, value.arguments[0].end)
            self.edits.put(node.value.start, node.end,
                f"Vec::with_capacity({count});\n{node.pattern.name}.resize({count}, {filling});")
            self.reasons.add("`Vec::with_capacity` and `resize` are there `vec![x; n]`: memory that is asked for as zeros is "
                "never what was freed last, and costs more.")

    def visit_ghost(self, node):
        self.cut(node)

    def visit_if(self, node):
        self.visit_parts(node)
        if node.other and node.other.kind == "block" and not self.edits.result(node.other.start, node.other.end)[1:-1].strip():
            self.edits.put(node.body.end, node.other.end)

    def is_memory_pattern(self, pattern):
        """Whether a pattern matches only a failed allocation."""
        if pattern.kind == "call_pattern" and len(pattern.patterns) == 1 and pattern.segments[-1].name == "Err":
            return self.is_memory_pattern(pattern.patterns[0])
        return pattern.kind == "path_pattern" and len(pattern.segments) > 1 and pattern.segments[-1].name == "Memory"

    def visit_or_pattern(self, node):
        kept = [pattern for pattern in node.patterns if not self.is_memory_pattern(pattern)]
        if len(kept) < len(node.patterns):
            self.edits.put(node.start, node.end, " | ".join(self.text[one.start:one.end] for one in kept))
        else:
            self.visit_parts(node)

    def visit_call_pattern(self, node):
        self.visit_parts(node)
        names = [segment.name for segment in node.segments]
        if len(names) > 1 and names[-2] in self.facts.wrappers and names[-1] == self.facts.wrappers[names[-2]][0]:
            self.edits.put(node.start, node.patterns[0].start)
            self.edits.put(node.patterns[-1].end, node.end)

    def visit_match(self, node):
        self.hear(node.value)
        self.visit_parts(node)
        arms = [arm for arm in node.arms if not self.is_memory_pattern(arm.pattern)]
        if self.fails(node.value):
            arms = [arm for arm in arms if last(arm.pattern) != "Err"]
            for arm in arms:
                self.unwrap_pattern(arm.pattern)
        if len(arms) == 1 and not arms[0].guard and self.is_plain(arms[0].pattern):
            self.one_arm(node, arms[0])
            return
        for arm in node.arms:
            if arm not in arms:
                self.cut(arm)

    def unwrap_pattern(self, pattern):
        if last(pattern) == "Ok":
            self.edits.put(pattern.start, pattern.patterns[0].start)
            self.edits.put(pattern.patterns[-1].end, pattern.end)

    def is_plain(self, pattern):
        """Whether a pattern matches everything."""
        if pattern.kind == "call_pattern" and pattern.segments[-1].name == "Ok":
            return self.is_plain(pattern.patterns[0])
        if pattern.kind == "call_pattern" and len(pattern.segments) > 1:
            kind, variant = (segment.name for segment in pattern.segments[-2:])
            return self.facts.wrappers.get(kind, [None])[0] == variant and self.is_plain(pattern.patterns[0])
        if pattern.kind == "tuple_pattern":
            return all(self.is_plain(one) for one in pattern.patterns)
        return pattern.kind in ("bind", "any") and not getattr(pattern, "sub", None)

    def one_arm(self, node, arm):
        """Replaces a `match` by the body of its only arm."""
        value = self.edits.result(node.value.start, node.value.end)
        pattern = self.edits.result(arm.pattern.start, arm.pattern.end)
        body = self.edits.result(arm.body.start, arm.body.end)
        for change in self.edits.changes:  # the whole of it may be a change
            if change[:2] == (arm.body.start, arm.body.end):
                body = change[2]
        front = f"{value};" if pattern in ("()", "_") else f"let {pattern} = {value};"
        if pattern == "_" and node.value.kind == "path":
            front = ""
        inner = body[1:-1] if arm.body.kind == "block" else body
        self.edits.put(node.start, node.end, f"{{ {front}\n{inner} }}" if front else body)
        node.statements = f"{front}\n{inner}"

    def visit_statement(self, node):
        self.visit(node.value)
        if not any(part.kind == "let" for part in node.value.walk()) and node.value.kind == "match" \
                and all(part.kind != "bind" for arm in node.value.arms for part in arm.pattern.walk()):
            self.splice(node.value)

    def splice(self, value):
        """Removes the braces of a `match` of one arm that is a statement."""
        if getattr(value, "statements", None):
            self.edits.changes = [change for change in self.edits.changes if change[:2] != (value.start, value.end)]
            self.edits.put(value.start, value.end, value.statements)

    def visit_return(self, node):
        if is_unit_ok(node.value) and node.value.plain:
            self.edits.put(node.start, node.end, "return")
        elif node.value:
            self.visit(node.value)


def is_unit_ok(node):
    """Whether an expression is `Ok(())`."""
    return node is not None and node.kind == "call" and last(node.callee) == "Ok" \
        and node.arguments[0].kind == "tuple_value" and not node.arguments[0].parts


def mark_answers(body):
    """Marks the results of a function, so that `Ok(x)` becomes `x`. Returns them."""
    return [answer for node in returns(body) if node.value for answer in mark_answer(node.value)] + mark_answer(body)


def mark_answer(node, in_arm=False):
    if node.kind == "block":
        return mark_answer(node.tail) if node.tail else []
    if node.kind == "if":
        return mark_answer(node.body) + (mark_answer(node.other) if node.other else [])
    if node.kind == "match":
        return [answer for arm in node.arms for answer in mark_answer(arm.body, in_arm=True)]
    if node.kind == "call" and last(node.callee) == "Ok":
        node.plain = "{}" if in_arm else "()"
    return [node]


def is_writer(param):
    """Whether a generic parameter is the writer of a formatter, which is not a parameter in Rust."""
    return any(bound.kind == "path_type" and [part.name for part in bound.segments] == ["fmt", "Write"] for bound in param.bounds)


def returns(node):
    """The `return`s of a function's body, without those of closures."""
    for child in node.children():
        if child.kind == "return":
            yield child
        if child.kind not in ("closure", "fn"):
            yield from returns(child)
