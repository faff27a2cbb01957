"""The tokens of a source: those of Rust, with each contract and each ghost line as one token."""
import re
from typing import NamedTuple

TOKEN = re.compile(r"""
    (?P<space>\s+)
  | (?P<comment>//[^\n]*)
  | (?P<text>b?"(?:\\[\s\S]|[^"\\])*"|br?"[^"]*")
  | (?P<char>b?'(?:\\u\{\w+\}|\\x..|\\.|[^'\\])')
  | (?P<life>'\w+)
  | (?P<number>\d\w*(?:\.\d\w*)?)
  | (?P<name>[^\W\d]\w*)
  | (?P<mark>\.\.=|\.\.\.|<<=|>>=|::|->|=>|==|!=|<=|>=|&&|\|\||\.\.|\+=|-=|\*=|/=|%=|\^=|&=|\|=|<<|[-+*/%^!&|=<>@.,;:\#$?~(){}\[\]])
""", re.X)


class Token(NamedTuple):
    kind: str
    text: str
    start: int
    end: int


def tokens(source):
    """The tokens, without spaces but with comments. A contract is `requires` or `ensures` with all its braces."""
    found, at = [], 0
    while at < len(source):
        part = TOKEN.match(source, at)
        if not part:
            raise SyntaxError(f"no token: {source[at:at + 40]!r}")
        kind, end = part.lastgroup, part.end()
        if kind == "name" and part[0] in ("requires", "ensures"):
            kind, end = "contract", closed(source, max(source.find("{", at), at))
        elif kind == "name" and part[0] == "ghost":
            kind, end = "ghost", ghost_end(source, at)
        if kind != "space":
            found.append(Token(kind, source[at:end], at, end))
        at = end
    return found


def closed(source, at):
    """The offset after the brace that closes the one at an offset. In contracts every brace is a bracket."""
    level = 0
    for place in range(at, len(source)):
        level += (source[place] == "{") - (source[place] == "}")
        if level == 0:
            return place + 1
    raise SyntaxError("a brace is not closed")


GHOST = re.compile(r"ghost\s+(use\s[^;]*;|\w+\s*[=:]\s*\{)")


def ghost_end(source, at):
    """The offset after the `;` or `,` that ends a ghost line."""
    if not GHOST.match(source, at):
        raise SyntaxError(f"a ghost of another form: {source[at:at + 40]!r}")
    while source[at] not in ";,":
        at = closed(source, at) if source[at] == "{" else at + 1
    return at + 1
