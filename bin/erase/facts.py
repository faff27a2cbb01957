"""Facts about all sources together: which functions fail only for lack of memory, and which errors are little else."""
from .syntax import Node

# What allocates in std: Rattle's returns a `Result`.
ALLOCATES = {"append", "clone", "extend", "extend_from_slice", "from_slice", "from_str", "insert", "push", "push_str",
    "resize", "to_ascii_lowercase", "to_lowercase", "with_capacity"}

# Expressions that change nothing, and calls that do not.
PURE = {"path", "segment", "get", "literal", "borrow", "unary", "binary", "cast", "paren", "index"}
PURE_CALLS = {"as_bytes", "as_slice", "as_str", "checked_add", "checked_mul", "div_ceil", "is_empty", "len", "saturating_mul"}


def last(node):
    """The last name of a type or path, or of the path at the start of a node."""
    return node.segments[-1].name if getattr(node, "segments", None) else None


def memory_result(node):
    """The type `T` of `Result<T, AllocError>`, and None for other types."""
    if last(node) == "Result" and node.segments[-1].arguments:
        types = node.segments[-1].arguments.types
        if len(types) == 2 and last(types[1]) == "AllocError":
            return types[0]
    return None


class Facts:
    """What is known of all sources."""

    def __init__(self, files):
        self.fails = {(kind, name): True for kind in ("Vec", "String") for name in ALLOCATES}
        self.fails["Box", "new"] = True
        self.memory_fields = set()  # fields that are allocators
        self.wrappers = {}  # errors that wrap an error or a failed allocation: that variant, and the wrapped type
        self.hearers = set()  # functions and variants whose arguments are results of such calls
        self.copies = set()  # types that are copied
        self.stated = set()  # contracts that are in the documentation
        self.changing = set()  # methods, some of which change their receiver or an argument
        self.methods = set()
        self.certain = {"to_ascii_lowercase"}  # functions of which some, as that of a character, return what cannot fail
        for tree in files:
            self.read(tree, None)

    def read(self, node, owner):
        if node.kind in ("impl", "trait"):
            owner = node.name if node.kind == "trait" else last(node.type)
        elif node.kind == "fn":
            self.function(node, owner)
        elif node.kind == "struct":
            memory = {param.name for param in node.generics.params if is_allocator(param)} if node.generics else set()
            self.memory_fields |= {field.name for field in node.fields if field.kind == "field" and last(field.type) in memory}
        elif node.kind == "enum":
            others = [variant for variant in node.variants if variant.name != "Memory"]
            if len(others) == 1 < len(node.variants) and len(others[0].fields) == 1 \
                    and others[0].fields[0].type.kind == "path_type":
                self.wrappers[node.name] = others[0].name, others[0].fields[0].type
            self.hearers |= {variant.name for variant in node.variants if any(memory_result(it.type) for it in variant.fields)}
        if node.kind in ("struct", "enum") and any("Copy" in one.names for one in node.attributes):
            self.copies.add(node.name)
        for child in node.children():
            self.read(child, owner)

    def function(self, node, owner):
        fails = memory_result(node.answer) is not None
        self.methods.add(node.name)
        if any(param.is_mut or param.type is not None and param.type.kind == "ref" and param.type.mut for param in node.params):
            self.changing.add(node.name)
        if any(param.type and memory_result(param.type) for param in node.params):
            self.hearers.add(node.name)
        if last(node.answer) not in ("Result", "Option"):
            self.certain.add(node.name)
        else:
            if self.fails.setdefault((owner, node.name), fails) != fails:
                raise SystemExit(f"{node.name}: functions of this name fail in several ways")

    def is_pure(self, node):
        """Whether an expression has no side effects, so that it may go or be evaluated twice."""
        return all(part.kind in PURE or part.kind == "method" and part.name in PURE_CALLS
            or part.kind in ("method", "call") and (part.name if part.kind == "method" else last(part.callee))
            in self.methods - self.changing for part in node.walk())

    def call_fails(self, kind, name, is_method):
        """Whether a call fails only for lack of memory."""
        if is_method or kind and not kind[0].isupper():
            kinds = {fails for (of, known), fails in self.fails.items() if known == name and (of is None) != is_method}
        else:
            kinds = {self.fails.get((kind, name), False)}
        if len(kinds) > 1:
            raise SystemExit(f"{name}: functions of this name fail in several ways")
        return kinds == {True}


def is_allocator(param):
    """Whether a generic parameter is an allocator."""
    return any(last(bound) == "Allocator" for bound in param.bounds) or last(param.default) == "Global"
