"""The grammar of sources: items, types, patterns and expressions as nodes with their offsets."""
from .tokens import tokens

BINARY = {"||": 1, "&&": 2, "==": 3, "!=": 3, "<": 3, ">": 3, "<=": 3, ">=": 3, "|": 4, "^": 5, "&": 6, "<<": 7, ">>": 7,
    "+": 8, "-": 8, "*": 9, "/": 9, "%": 9}
ASSIGN = {"=", "+=", "-=", "*=", "/=", "%=", "^=", "&=", "|=", "<<=", ">>="}
# Expressions that end a statement without a semicolon.
BLOCKS = {"{", "if", "match", "while", "loop", "for"}
# Macros whose arguments are all expressions, except for a pattern.
PATTERN_MACROS = {"matches"}


class Node:
    """A piece of a source: its kind, its offsets, and its parts by name."""

    def __init__(self, kind, start, **parts):
        self.kind, self.start, self.end, self.walked = kind, start, start, None
        self.__dict__.update(parts)

    def children(self):
        """The nodes that are its parts, in any order."""
        for part in list(vars(self).values()):
            if isinstance(part, Node):
                yield part
            elif isinstance(part, list):
                yield from (piece for piece in part if isinstance(piece, Node))

    def walk(self):
        """The node and all nodes in it, which are collected once: nothing changes after it is parsed."""
        if self.walked is None:
            self.walked = (self, *(node for child in self.children() for node in child.walk()))
        return self.walked


class Parser:
    """Parses one source. `items` are the items of the file."""

    def __init__(self, source):
        self.source = source
        self.all = tokens(source)
        self.tokens = [token for token in self.all if token.kind != "comment"]
        self.at = 0

    def with_comments(self, node):
        """The offset of an item, including the comments before it."""
        start = node.start
        for token in reversed([token for token in self.all if token.end <= node.start]):
            if token.kind != "comment" or token.text.startswith("//!") or self.source[token.end:start].count("\n") > 1:
                break
            start = token.start
        return start, node.end

    # Tokens

    def peek(self, ahead=0):
        at = self.at + ahead
        return self.tokens[at].text if at < len(self.tokens) else ""

    def kind(self, ahead=0):
        at = self.at + ahead
        return self.tokens[at].kind if at < len(self.tokens) else ""

    def here(self):
        return self.tokens[self.at].start if self.at < len(self.tokens) else len(self.source)

    def take(self, *texts):
        """Takes the next token if its text is one of these, or any token if none are named, and returns its text."""
        if texts and (self.peek() not in texts or self.kind() in ("text", "char")):
            return ""
        self.at += 1
        return self.tokens[self.at - 1].text

    def want(self, text):
        if not self.take(text):
            line = self.source.count("\n", 0, self.here()) + 1
            raise SyntaxError(f"line {line}: {text} is wanted: {self.source[self.here():self.here() + 40]!r}")
        return text

    def split(self, text):
        """Splits the next token after `text`, if it begins with that, as `>>` does with `>`."""
        token = self.tokens[self.at]
        if token.kind == "mark" and token.text != text and token.text.startswith(text):
            cut = token.start + len(text)
            self.tokens[self.at:self.at + 1] = [token._replace(text=text, end=cut),
                token._replace(text=token.text[len(text):], start=cut)]

    def done(self, node):
        node.end = self.tokens[self.at - 1].end
        return node

    def listed(self, one, close, between=","):
        """A list of what `one` parses, separated by commas, up to a closing bracket, which is taken too."""
        found = []
        while True:
            self.split(close)
            if self.take(close):
                return found
            found.append(one())
            self.split(close)
            if self.peek() != close:
                self.want(between)

    # Items

    def file(self):
        root = Node("file", 0, inner=self.inner_attributes(), items=[])
        while self.at < len(self.tokens):
            root.items.append(self.item())
        root.end = len(self.source)
        return root

    def inner_attributes(self):
        found = []
        while self.peek() == "#" and self.peek(1) == "!":
            found.append(self.attribute())
        return found

    def attribute(self):
        node = Node("attribute", self.here())
        self.want("#")
        self.take("!")
        self.want("[")
        node.name, first = self.peek(), self.at
        self.skip_to("]")
        node.names = [token.text for token in self.tokens[first + 1:self.at] if token.kind == "name"]
        return self.done(node)

    def skip_to(self, close):
        """Skips past the bracket that closes the one taken last."""
        pairs = {"(": ")", "[": "]", "{": "}"}
        while not self.take(close):
            opened = self.take()
            if opened in pairs:
                self.skip_to(pairs[opened])

    def item(self):
        start = self.here()
        attributes = []
        while self.peek() == "#":
            attributes.append(self.attribute())
        before = self.here()
        visible = self.visibility()
        if self.kind() == "ghost":
            node = Node("ghost", start, text=self.take())
        else:
            words = ["fn", "use", "mod", "const", "type", "struct", "enum", "trait", "impl", "unsafe"]
            word = self.peek() if self.peek() in words else "macro"
            if word == "const" and self.peek(1) in ("fn", "unsafe"):
                word = "fn"
            if word == "unsafe":
                word = self.peek(1)
            node = getattr(self, f"item_{word}")()
        node.attributes, node.visible, node.start, node.plain_start = attributes, visible, start, before
        return self.done(node)

    def visibility(self):
        start = self.here()
        if not self.take("pub"):
            return None
        if self.peek() == "(" and self.peek(1) in ("crate", "super", "self", "in"):
            self.take()
            self.skip_to(")")
        return self.done(Node("visible", start))

    def item_use(self):
        node = Node("use", self.here())
        self.want("use")
        node.tree = self.use_tree()
        self.want(";")
        return node

    def use_tree(self):
        node = Node("use_tree", self.here(), path=[], trees=None, alias=None)
        while True:
            if self.take("{"):
                node.trees = self.listed(self.use_tree, "}")
                break
            node.path.append(self.take())
            if not self.take("::"):
                break
        if self.take("as"):
            node.alias = self.take()
        return self.done(node)

    def item_mod(self):
        node = Node("mod", self.here())
        self.want("mod")
        node.name = self.take()
        if self.take("{"):
            node.items = []
            while not self.take("}"):
                node.items.append(self.item())
        else:
            self.want(";")
        return node

    def item_const(self):
        node = Node("const", self.here(), value=None)
        self.take()
        self.take("mut")
        node.name = self.take()
        self.want(":")
        node.type = self.type()
        if self.take("="):
            node.value = self.expression()
        self.want(";")
        return node


    def item_type(self):
        node = Node("type", self.here(), type=None, bounds=[])
        self.want("type")
        node.name = self.take()
        node.generics = self.generics()
        if self.take(":"):
            node.bounds = self.bounds()
        if self.take("="):
            node.type = self.type()
        self.want(";")
        return node

    def item_struct(self):
        node = Node("struct", self.here(), fields=[])
        self.want("struct")
        node.name = self.take()
        node.generics = self.generics()
        node.where = self.where()
        if self.take("{"):
            node.fields = self.listed(self.field, "}")
        else:
            if self.take("("):
                node.fields = self.listed(self.place, ")")
            node.where = node.where or self.where()
            self.want(";")
        return node

    def field(self):
        start = self.here()
        node = Node("field", start, attributes=[])
        while self.peek() == "#":
            node.attributes.append(self.attribute())
        node.visible = self.visibility()
        if self.kind() == "ghost":
            self.take()
            self.at -= 1
            # the comma is the ghost's own
            token = self.tokens[self.at]
            self.tokens[self.at:self.at + 1] = [token._replace(text=token.text[:-1], end=token.end - 1),
                token._replace(kind="mark", text=",", start=token.end - 1)]
            self.at += 1
            node.kind = "ghost_field"
            return self.done(node)
        node.name = self.take()
        self.want(":")
        node.type = self.type()
        return self.done(node)

    def place(self):
        node = Node("place", self.here(), visible=self.visibility())
        node.type = self.type()
        return self.done(node)

    def item_enum(self):
        node = Node("enum", self.here())
        self.want("enum")
        node.name = self.take()
        node.generics = self.generics()
        node.where = self.where()
        self.want("{")
        node.variants = self.listed(self.variant, "}")
        return node

    def variant(self):
        node = Node("variant", self.here(), attributes=[], fields=[])
        while self.peek() == "#":
            node.attributes.append(self.attribute())
        node.name = self.take()
        if self.take("("):
            node.fields = self.listed(self.place, ")")
        elif self.take("{"):
            node.fields = self.listed(self.field, "}")
        if self.take("="):
            node.value = self.expression()
        return self.done(node)

    def item_trait(self):
        node = Node("trait", self.here(), bounds=[])
        self.take("unsafe")
        self.want("trait")
        node.name = self.take()
        node.generics = self.generics()
        if self.take(":"):
            node.bounds = self.bounds()
        node.where = self.where()
        self.members(node)
        return node

    def item_impl(self):
        node = Node("impl", self.here(), of=None)
        self.take("unsafe")
        self.want("impl")
        node.generics = self.generics()
        node.type = self.type()
        if self.take("for"):
            node.of, node.type = node.type, self.type()
        node.where = self.where()
        self.members(node)
        return node

    def members(self, node):
        self.want("{")
        node.open = self.tokens[self.at - 1].end
        node.items = []
        while not self.take("}"):
            node.items.append(self.item())

    def item_fn(self):
        node = Node("fn", self.here(), body=None, answer=None)
        while self.take("const", "unsafe"):
            pass
        self.want("fn")
        node.name_at, node.name = self.here(), self.take()
        node.generics = self.generics()
        self.want("(")
        node.params = self.listed(self.param, ")")
        node.params_end = self.tokens[self.at - 1].end
        if self.take("->"):
            node.answer = self.type()
        node.where = self.where()
        node.head_end = self.tokens[self.at - 1].end
        node.contracts = self.contracts()
        if self.peek() == "{":
            node.body = self.block()
        else:
            self.want(";")
        return node

    def contracts(self):
        found = []
        while self.kind() == "contract":
            node = Node("contract", self.here())
            self.take()
            found.append(self.done(node))
        return found

    def param(self):
        node = Node("param", self.here(), type=None, name=None, is_self=False, is_mut=False)
        at = self.at
        is_borrowed = bool(self.take("&"))
        if self.kind() == "life":
            self.take()
        is_mut = bool(self.take("mut"))
        if self.take("self"):
            node.is_self, node.name, node.is_mut = True, "self", is_borrowed and is_mut
            if self.take(":"):
                node.type = self.type()
            return self.done(node)
        self.at = at
        node.pattern = self.pattern()
        node.name = node.pattern.name if node.pattern.kind == "bind" else None
        self.want(":")
        node.type = self.type()
        return self.done(node)

    def item_macro(self):
        node = Node("item_macro", self.here())
        if self.peek(1) != "!":
            self.want("an item")
        node.value = self.expression()
        self.take(";")
        return node

    # Generics and types

    def generics(self):
        node = Node("generics", self.here(), params=[])
        if not self.take("<"):
            return None
        node.params = self.listed(self.generic, ">")
        return self.done(node)

    def generic(self):
        node = Node("generic", self.here(), bounds=[], default=None)
        self.take("const")
        node.name = self.take()
        if self.take(":"):
            node.bounds = self.bounds()
        if self.take("="):
            node.default = self.type()
        return self.done(node)

    def bounds(self):
        found = []
        while True:
            if self.kind() == "life":
                found.append(self.lifetime())
            else:
                start = self.here()
                self.take("?")
                node = self.type(plain=True)
                node.start = start
                found.append(node)
            if not self.take("+"):
                return found

    def lifetime(self):
        node = Node("life", self.here(), name=self.take())
        return self.done(node)

    def where(self):
        node = Node("where", self.here(), bounds=[])
        if not self.take("where"):
            return None
        while self.peek() not in ("{", ";") and self.kind() != "contract":
            one = Node("where_bound", self.here())
            one.type = self.lifetime() if self.kind() == "life" else self.type()
            self.want(":")
            one.bounds = self.bounds()
            node.bounds.append(self.done(one))
            if not self.take(","):
                break
        return self.done(node)

    def type(self, plain=False):
        node = Node("path_type", self.here())
        self.split("&")
        if self.take("&"):
            node.kind, node.life = "ref", self.lifetime() if self.kind() == "life" else None
            node.mut = bool(self.take("mut"))
            node.type = self.type(plain=True)
        elif self.take("("):
            node.kind, node.types = "tuple", self.listed(self.type, ")")
        elif self.take("["):
            node.kind, node.type, node.len = "slice", self.type(), None
            if self.take(";"):
                node.len = self.expression()
            self.want("]")
        elif self.take("impl", "dyn"):
            node.kind, node.bounds = "bound_type", self.bounds()
        else:
            node.segments = self.segments(in_type=True)
        return self.done(node)

    def segments(self, in_type):
        """The segments of a path, with their arguments."""
        found = []
        self.take("::")
        while True:
            one = Node("segment", self.here(), name=self.take(), arguments=None)
            if in_type and self.peek() == "<" or self.peek() == "::" and self.peek(1) == "<":
                self.take("::")
                one.arguments = Node("arguments", self.here())
                self.want("<")
                one.arguments.types = self.listed(self.argument, ">")
                self.done(one.arguments)
            elif in_type and self.peek() == "(" and one.name in ("Fn", "FnMut", "FnOnce"):
                self.take()
                one.types = self.listed(self.type, ")")
                one.answer = self.type() if self.take("->") else None
            found.append(self.done(one))
            if self.peek() != "::" or self.peek(1) == "{":
                return found
            self.take()

    def argument(self):
        if self.kind() == "life":
            return self.lifetime()
        if self.kind() == "name" and self.peek(1) == "=":
            node = Node("bound_argument", self.here(), name=self.take())
            self.take()
            node.type = self.type()
            return self.done(node)
        if self.kind() in ("number", "char") or self.peek() in ("true", "false", "-", "{"):
            return self.primary()
        return self.type()

    # Patterns

    def pattern(self):
        node = Node("or_pattern", self.here())
        self.take("|")
        first = self.one_pattern()
        if self.peek() != "|":
            return first
        node.patterns = [first]
        while self.take("|"):
            node.patterns.append(self.one_pattern())
        return self.done(node)

    def one_pattern(self):
        node = Node("bind", self.here(), sub=None)
        self.split("&")
        if self.take("_"):
            node.kind = "any"
        elif self.take("..") :
            node.kind = "rest"
        elif self.take("&"):
            node.kind = "ref_pattern"
            self.take("mut")
            node.pattern = self.one_pattern()
        elif self.take("("):
            node.kind, node.patterns = "tuple_pattern", self.listed(self.pattern, ")")
        elif self.take("["):
            node.kind, node.patterns = "slice_pattern", self.listed(self.pattern, "]")
        elif self.kind() in ("number", "char", "text") or self.peek() in ("-", "true", "false"):
            node.kind = "literal_pattern"
            self.take("-")
            self.take()
            self.range_end()
        elif self.peek() in ("ref", "mut") or self.kind() == "name" and self.is_binding():
            while self.take("ref", "mut"):
                pass
            node.name = self.take()
            if self.take("@"):
                node.sub = self.one_pattern()
        else:
            node.kind, node.segments = "path_pattern", self.segments(in_type=False)
            if self.take("("):
                node.kind, node.patterns = "call_pattern", self.listed(self.pattern, ")")
            elif self.take("{"):
                node.kind, node.fields = "struct_pattern", self.listed(self.field_pattern, "}")
            else:
                self.range_end()
        return self.done(node)

    def is_binding(self):
        return self.peek(1) not in ("::", "(", "{") and not self.peek()[0].isupper() and self.peek(1) not in ("..=",)

    def range_end(self):
        if self.take("..=", ".."):
            if self.kind() in ("number", "char"):
                self.take()
            elif self.kind() == "name" and self.peek() != "if":
                self.segments(in_type=False)

    def field_pattern(self):
        node = Node("field_pattern", self.here(), pattern=None, name=None)
        if self.take(".."):
            return self.done(node)
        if self.kind() in ("name", "number") and self.peek(1) == ":":
            node.name = self.take()
            self.take()
            node.pattern = self.pattern()
        else:
            while self.take("ref", "mut"):
                pass
            node.name = self.take()
        return self.done(node)

    # Statements and expressions

    def block(self):
        node = Node("block", self.here())
        self.want("{")
        node.inner = self.inner_attributes()
        node.statements, node.tail = [], None
        while not self.take("}"):
            self.statement(node)
        return self.done(node)

    def statements(self):
        """Parses a file whose lines are those of a block."""
        node = Node("block", 0, statements=[], tail=None)
        while self.at < len(self.tokens):
            self.statement(node)
        return node

    def statement(self, block):
        start = self.here()
        if self.take(";"):
            return
        attributes = []
        while self.peek() == "#":
            attributes.append(self.attribute())
        if self.peek() == "let":
            node = self.let()
        elif self.kind() == "ghost" or self.peek() in ("fn", "use", "const", "struct", "enum", "trait",
                "impl"):
            node = self.item()
        else:
            value = self.expression(statement=True)
            node = Node("statement", start, value=value)
            if not self.take(";") and self.peek() == "}":
                block.tail = value
                return
        node.start = start
        block.statements.append(self.done(node))

    def let(self):
        node = Node("let", self.here(), type=None, value=None, other=None)
        self.want("let")
        node.pattern = self.pattern()
        if self.take(":"):
            node.type = self.type()
        if self.take("="):
            node.value = self.expression()
        if self.take("else"):
            node.other = self.block()
        self.want(";")
        return node

    def expression(self, bare=False, statement=False, least=0):
        """Parses one expression. `bare` excludes struct literals, as before a block."""
        start = self.here()
        if self.peek() in ("..", "..="):
            self.take()
            node = Node("range", start, low=None, high=None)
            if self.begins():
                node.high = self.expression(bare, least=1)
            return self.done(node)
        if statement and self.peek() in BLOCKS:
            left = self.primary(bare)
            if self.peek() not in (".", "?"):
                return left
            return self.operators(self.postfix(left), bare, least)
        return self.operators(self.unary(bare), bare, least)

    def operators(self, left, bare, least):
        while True:
            word = self.peek() if self.kind() == "mark" else self.peek() if self.peek() == "as" else ""
            if word == ">" and self.peek(1) == ">" and self.tokens[self.at].end == self.tokens[self.at + 1].start:
                word = ">>"
            if word == "as":
                self.take()
                left = Node("cast", left.start, value=left, type=self.type())
            elif word in BINARY and BINARY[word] > least:
                self.take()
                if word == ">>":
                    self.take()
                right = self.expression(bare, least=BINARY[word])
                left = Node("binary", left.start, mark=word, left=left, right=right)
            elif word in ("..", "..=") and least == 0:
                self.take()
                high = self.expression(bare, least=1) if self.begins(bare) else None
                left = Node("range", left.start, low=left, high=high)
            elif word in ASSIGN and least == 0:
                self.take()
                left = Node("assign", left.start, mark=word, left=left, right=self.expression(bare))
            else:
                return left
            self.done(left)

    def begins(self, bare=False):
        """Whether an expression begins here."""
        return self.kind() in ("name", "number", "char", "text", "life") or self.peek() in ("(", "[", "-", "*", "&", "!", "|")

    def unary(self, bare):
        start = self.here()
        self.split("&")
        mark = self.peek() if self.kind() == "mark" else ""
        if mark in ("-", "*", "!"):
            self.take()
            return self.done(Node("unary", start, mark=mark, value=self.unary(bare)))
        if mark == "&":
            self.take()
            mutable = bool(self.take("mut"))
            return self.done(Node("borrow", start, mut=mutable, value=self.unary(bare)))
        return self.postfix(self.primary(bare))

    def postfix(self, node):
        while True:
            if self.take("?"):
                node = Node("try", node.start, value=node)
            elif self.peek() == "(" :
                self.take()
                node = Node("call", node.start, plain=None, callee=node, arguments=self.listed(self.expression, ")"))
            elif self.take("["):
                node = Node("index", node.start, value=node, index=self.expression())
                self.want("]")
            elif self.peek() == "." and self.kind() == "mark":
                self.take()
                name_at = self.here()
                if self.kind(0) == "name" and (self.peek(1) == "(" or self.peek(1) == "::"):
                    name = self.take()
                    kinds = None
                    if self.take("::"):
                        self.want("<")
                        kinds = self.listed(self.argument, ">")
                    self.want("(")
                    node = Node("method", node.start, value=node, name=name, kinds=kinds,
                        arguments=self.listed(self.expression, ")"))
                else:
                    node = Node("get", node.start, value=node, name=self.take())
                node.name_at = name_at
            else:
                return node
            self.done(node)

    def primary(self, bare=False):
        start = self.here()
        word = self.peek()
        if self.kind() in ("number", "char", "text"):
            return self.done(Node("literal", start, text=self.take()))
        if word == "(":
            self.take()
            parts, comma = [], False
            while not self.take(")"):
                parts.append(self.expression())
                comma = bool(self.take(","))
            kind = "paren" if len(parts) == 1 and not comma else "tuple_value"
            node = Node(kind, start, parts=parts)
            return self.done(node)
        if word == "[":
            self.take()
            node = Node("array", start, parts=[], count=None)
            while not self.take("]"):
                node.parts.append(self.expression())
                if self.take(";"):
                    node.count = self.expression()
                self.take(",")
            return self.done(node)
        if word == "{":
            return self.block()
        if word in ("|", "||", "move"):
            return self.closure()
        if word in ("if", "match", "while", "loop", "for", "return", "break", "continue", "let"):
            return self.done(getattr(self, f"flow_{word}")(bare))
        return self.path_value(bare)

    def closure(self):
        node = Node("closure", self.here(), params=[], answer=None)
        self.take("move")
        if not self.take("||"):
            self.want("|")
            node.params = self.listed(self.closure_param, "|")
        if self.take("->"):
            node.answer = self.type()
        node.contracts = self.contracts()
        node.body = self.expression()
        return self.done(node)

    def closure_param(self):
        node = Node("param", self.here(), type=None, is_self=False, is_mut=False)
        node.pattern = self.one_pattern()
        node.name = node.pattern.name if node.pattern.kind == "bind" else None
        if self.take(":"):
            node.type = self.type()
        return self.done(node)

    def flow_if(self, bare):
        node = Node("if", self.here(), other=None)
        self.take()
        node.test = self.expression(bare=True)
        node.body = self.block()
        if self.take("else"):
            node.other = self.flow_if(bare) if self.peek() == "if" else self.block()
        return self.done(node)

    def flow_let(self, bare):
        node = Node("let_test", self.here())
        self.take()
        node.pattern = self.pattern()
        self.want("=")
        node.value = self.expression(bare=True, least=2)
        return node

    def flow_match(self, bare):
        node = Node("match", self.here(), arms=[])
        self.take()
        node.value = self.expression(bare=True)
        self.want("{")
        while not self.take("}"):
            arm = Node("arm", self.here(), guard=None)
            while self.peek() == "#":
                self.attribute()
            arm.pattern = self.pattern()
            if self.take("if"):
                arm.guard = self.expression()
            self.want("=>")
            arm.body = self.expression(statement=True)
            self.take(",")
            node.arms.append(self.done(arm))
        return node

    def flow_while(self, bare):
        node = Node("while", self.here())
        self.take()
        node.test = self.expression(bare=True)
        node.body = self.block()
        return node

    def flow_loop(self, bare):
        node = Node("loop", self.here())
        self.take()
        node.body = self.block()
        return node

    def flow_for(self, bare):
        node = Node("for", self.here())
        self.take()
        node.pattern = self.pattern()
        self.want("in")
        node.value = self.expression(bare=True)
        node.body = self.block()
        return node

    def flow_return(self, bare):
        node = Node("return", self.here(), value=None)
        self.take()
        if self.begins() or self.peek() == "{":
            node.value = self.expression(bare)
        return node

    def flow_break(self, bare):
        node = Node("break", self.here(), value=None)
        self.take()
        if self.kind() == "life":
            self.take()
        if self.begins():
            node.value = self.expression(bare)
        return node

    def flow_continue(self, bare):
        node = Node("continue", self.here())
        self.take()
        if self.kind() == "life":
            self.take()
        return node

    def path_value(self, bare):
        node = Node("path", self.here())
        if self.kind() != "name" and self.peek() != "<":
            self.want("an expression")
        node.segments = self.segments(in_type=False)
        self.done(node)
        if self.peek() == "!" and self.peek(1) in ("(", "[", "{"):
            return self.macro(node)
        if self.peek() == "{" and not bare and node.segments[-1].name[:1].isupper():
            self.take()
            value = Node("struct_value", node.start, segments=node.segments, base=None)
            value.fields = self.listed(lambda: self.field_value(value), "}")
            return self.done(value)
        return node

    def field_value(self, value):
        node = Node("field_value", self.here(), name=None, value=None)
        if self.take(".."):
            value.base = self.expression()
            node.kind = "base"
            return self.done(node)
        node.name = self.take()
        if self.take(":"):
            node.value = self.expression()
        return self.done(node)

    def macro(self, path):
        node = Node("macro", path.start, name=path.segments[-1].name, memory=None, arguments=[], pattern=None, count=None)
        self.take()
        close = {"(": ")", "[": "]", "{": "}"}[self.take()]
        start, node.first = self.here(), None
        if self.take("in"):
            node.memory = self.expression()
        if node.memory or self.peek() == "rt" and self.peek(1) == ";" and self.take():
            self.want(";")
            node.first = self.done(Node("first", start))
        while not self.take(close):
            if node.arguments and node.name in PATTERN_MACROS:
                node.pattern = self.pattern()
                node.guard = self.expression() if self.take("if") else None
            else:
                node.arguments.append(self.expression())
            if self.take(";"):
                node.count = None if self.peek() == close else self.expression()
                self.take(",")
            elif self.peek() != close:
                self.want(",")
        return self.done(node)
