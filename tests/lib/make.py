"""Makes patterns, texts and trees from a source of random numbers."""

import itertools
import os
import re
import shutil
from dataclasses import dataclass
from pathlib import Path

from lib.reference import LEXEME, escaped, join

# The characters of patterns and texts. They are few, so that matches are common. Some test the edges of case and
# ranges: the neighbours of the ASCII letters, and characters beyond ASCII whose other case has more or fewer bytes, or
# is an ASCII letter.
ALPHABETS = ["ab", "aAbB", "ab/.", "aB/.-", "aéÉ𝒳/", "@AZ[`az{", "kK\u212asS\u017f", "09-!]^", "ab*?[]!-"]
ALPHABETS += ["\u0301e\x01\x7f{,}\\"]
SPECIAL = "[]!*?-/."
# The most stars with which the crate, which backtracks, still ends soon.
STARS, STARS_OF_LONG_PATTERN = 4, 2
LONGEST_SHORT = 12
# Near the numbers of lexemes that fill a machine word of the matcher.
LONG = (60, 130)

NAME_PIECES = [*"aaabbABB...-![]*?éÉ𝒳", "ab", "a.b", "..", "[a]", "[!a]", "**"]
NODES = 24
DEEPEST = 5

# A few names, and components for them. Frequent ones are listed repeatedly. Some have a fault, but none of the plain
# ones has.
FEW_NAMES = ["a", "b", "ab", "A", ".a", ".b", "a.b", "é", "-"]
FEW_COMPONENTS = ["**"] * 4 + ["*"] * 3 + ["?", "a", "a*", "*b", ".*", ".?", "[ab]", "[!a]*", ".", "..", "", "A", ".a"]
FEW_COMPONENTS += ["é", "a[b]", "[b", "]*", "é**", "***", "??", "*.*", "[!.]*", "[.]*", "*[ab]", ".[.]", "*a*b*"]
PLAIN_COMPONENTS = ["**"] * 4 + ["*"] * 4 + ["?"] * 2 + ["a", "b", "a*", "*b", "[ab]", "[!a]*", "*.*", ".a", ".*"]
PLAIN_COMPONENTS += [".[a-z]", "é"]

# The beginnings of components and extensions by which a set looks up its patterns.
WORDS = ["src", "Lib", "main", "node_", "a", "é", "отчёт", "文書"]
KEYED = ["{0}/**", "**/{0}", "**/{0}/**", "{0}", "b/{0}*", "**/{0}?", "*.{0}", "**/*.{0}", "b/*.{0}", "{0}.[ab]", "*{0}"]
KEYED += ["*-{0}.js", "**/{0}-*", "*{0}/x"]
KEYED_TEXTS = ["{0}", "b/{0}", "{0}/a", "b/{0}/a", "a.{0}", "b/a.b.{0}", "b/{0}x", "{0}.b", "b/.{0}", "{0}/{0}"]
KEYED_TEXTS += ["a-{0}.js", "b/{0}-a", "{0}/x"]

# In a pattern, the path of the folder that the tree's folder, `tree`, is in.
ABOVE = "\0"
# The modes of directories that cannot be listed: in one nothing is possible, in the other names can be looked up.
MODES = [0, 0o111]
SETTINGS = ["", "d", "s", "sd", "i", "id", "is", "isd"]


def some(source, least, most, pieces):
    """A text of `least` to `most` pieces."""
    return "".join(source.choices(pieces, k=source.randint(least, most)))


def bracket(source, alphabet):
    """A bracket with characters and ranges, now and then unclosed."""
    entries = []
    for _ in range(source.choice([1, 1, 1, 2, 2, 3, 4])):
        first, last = source.choice(alphabet), source.choice(alphabet)
        entries.append(source.choice([first, first, f"{first}-{last}", source.choice(SPECIAL)]))
    return "[" + source.choice(["", "", "!"]) + "".join(entries) + source.choice(["]"] * 15 + [""])


def lexeme(source, alphabet):
    """A piece of a pattern."""
    stars = source.choice(["**/", "/**/", "/**"])
    made = [source.choice(alphabet), "?", "*", stars, bracket(source, alphabet), source.choice(SPECIAL)]
    return source.choices(made, [50, 10, 10, 8, 14, 8])[0]


def with_few_stars(pattern, most):
    """The pattern with every run of stars after the first `most` replaced by an `a`."""
    runs = itertools.count(1)
    return re.sub(r"\*+", lambda found: found[0] if next(runs) <= most else "a", pattern)


def pattern(source, alphabet):
    """The text of a pattern. Many have a syntax error."""
    if source.random() < 0.02:
        length, stars = source.randint(*LONG), STARS_OF_LONG_PATTERN
    else:
        length, stars = min(round(source.gammavariate(2, 2)), LONGEST_SHORT), STARS
    return with_few_stars("".join(lexeme(source, alphabet) for _ in range(length)), stars)


def piece(source, alphabet, found):
    """A text that a lexeme of a pattern may match."""
    if found == "**/":
        return source.choice(["", "", "a/", "a/b/", ".a/", "/"])
    if found[0] == "*":
        return some(source, 0, 3, alphabet + "/.")
    if found == "?" or found.startswith("[!"):
        return source.choice(alphabet + "/.")
    if found[0] == "[" and len(found) > 1:
        return source.choice(found[1:-1])
    return found.swapcase() if source.random() < 0.1 else found


def text(source, alphabet, lexemes):
    """A text. Half of the texts may match a pattern of these lexemes; some of those then have a character removed,
    inserted or replaced."""
    if source.random() < 0.4:
        return some(source, 0, 6, alphabet + "/.")
    found = "".join(piece(source, alphabet, it) for it in lexemes)
    if source.random() < 0.7:
        return found
    at = source.randint(0, len(found))
    return found[:at] + source.choice(["", source.choice(alphabet + "/.")]) + found[at + source.choice([0, 1]) :]


def keyed_case(source, texts):
    """A pattern that many sets look up by a component, its beginning or an extension, and texts that may have that."""
    word = source.choice(WORDS) + str(source.randint(0, 99))
    said = [word.swapcase() if source.random() < 0.1 else word for _ in range(texts)]
    return source.choice(KEYED).format(word), [source.choice(KEYED_TEXTS).format(it) for it in said]


def match_case(source, texts):
    """A pattern and some texts."""
    alphabet = source.choice(ALPHABETS)
    made = pattern(source, alphabet)
    lexemes = re.findall(rf"\*\*/|{LEXEME.pattern}", made, re.S)
    return made, [text(source, alphabet, lexemes) for _ in range(texts)]


def name(source):
    """A name of arbitrary pieces."""
    found = "".join(source.choices(NAME_PIECES, k=source.choice([1, 1, 2, 2, 3])))
    return found if found not in (".", "..") else "a"


def few_name(source):
    """One of a few names."""
    return source.choice(FEW_NAMES)


def place(folder, paths):
    """Makes directories, whose paths end in /, links PATH->TARGET, files PATH=TEXT, and empty files."""
    for path in paths:
        path, *rest = re.split(b"(->|=)", os.fsencode(path), maxsplit=1)
        path = os.path.join(os.fsencode(folder), path)
        os.makedirs(os.path.dirname(path), exist_ok=True)
        if rest[:1] == [b"->"]:
            os.symlink(rest[1], path)
        elif not path.endswith(b"/"):
            Path(os.fsdecode(path)).write_bytes(b"".join(rest[1:]))


def grown(source, nodes, name, share=0.5):
    """The paths of a tree, each after its directory, and whether each is a directory."""
    found = {}
    for _ in range(nodes):
        above = [path for path, is_dir in found.items() if is_dir and path.count("/") + 1 < DEEPEST]
        found.setdefault(join(source.choice(["", *above[-4:]]), name(source)), source.random() < share)
    return found


@dataclass(frozen=True)
class Tree:
    """A tree below a folder: paths as `place` takes them, and the modes of directories that cannot be listed."""

    ends: dict
    modes: dict

    def build(self, folder):
        """Makes the tree in a folder."""
        place(folder, [path + end for path, end in self.ends.items()])
        for path, mode in self.modes.items():
            os.chmod(os.path.join(folder, path), mode)

    def remove(self, folder):
        """Removes the folder."""
        for path in self.modes:
            os.chmod(os.path.join(folder, path), 0o700)
        shutil.rmtree(folder)

    def starts(self):
        """The directories in which a walk may begin: those in which names can be looked up."""
        shut = tuple(f"{path}/" for path, mode in self.modes.items() if mode == 0)
        return ["", *(path for path, end in self.ends.items() if end == "/" and not f"{path}/".startswith(shut))]


def links(source, directories, files, name):
    """Links to a file, to a directory without links, to nothing, and to themselves. So no walk through them goes in a
    cycle."""
    targets = [path for path in directories if source.random() < 0.5]
    inner = tuple(f"{target}/" for target in targets)
    places = [path for path in ["", *directories] if not f"{path}/".startswith(inner)]
    for _ in range(source.choice([0, 0, 1, 2, 3])):
        place, own = source.choice(places), name(source)
        up = "../" * (place.count("/") + 1 if place else 0)
        goals = [up + target for target in [*targets, *files]] + ["missing", own]
        yield join(place, own), f"->{source.choice(goals)}"


def tree(source, may_shut, name=name):
    """A tree of directories, files, links and, if `may_shut`, a directory that cannot be listed."""
    found = grown(source, source.randint(1, NODES), name)
    directories = [path for path, is_dir in found.items() if is_dir]
    files = [path for path, is_dir in found.items() if not is_dir]
    made = dict(links(source, directories, files, name)) | {path: "/" * is_dir for path, is_dir in found.items()}
    is_shut = may_shut and directories and source.random() < 0.3
    return Tree(made, {source.choice(directories): source.choice(MODES)} if is_shut else {})


def framed(source, parts):
    """A pattern for a walk, of these components. One that begins with `/` would walk the whole machine."""
    start = source.choice([""] * 12 + ["./", f"{ABOVE}/tree/", f"{ABOVE}/tr?e/"])
    return (start + "/".join(parts) + source.choice(["", "", "", "", "/"])).lstrip("/")


def few_components(source, components):
    """A pattern of one to three of these components."""
    return framed(source, source.choices(components, k=source.randint(1, 3)))


def component(source, own):
    """A component for a name: mostly one that matches it."""
    at = source.randrange(len(own))
    inner = source.choice(["?", f"[{own[at]}]", f"[!{own[at]}]", f"[.{own[at]}]"])
    widened = [own[:at] + inner + own[at + 1 :], own[:at] + "*" + own[source.randint(at, len(own)) :]]
    other = source.choice(FEW_COMPONENTS)
    return source.choice([escaped(own), escaped(own), own.swapcase(), *widened, *widened, "*", "**", other])


def walk_pattern(source, paths):
    """A pattern made from an existing path, with its components widened."""
    parts = [component(source, own) for own in source.choice(paths or ["a"]).split("/")]
    if source.random() < 0.4:
        parts.insert(source.randint(0, len(parts)), source.choice(["**", "**", "*", ".", "..", ".*"]))
    return framed(source, parts)
