#!/usr/bin/env python3
"""Installs everything; runs each example of the man pages and of the tutorial, and each call of the programs in the
README; checks the man pages with `mandoc` or `groff`, if installed, and the completions in bash, fish and zsh. Prints
what is wrong, and last how many checks passed and failed."""

import os
import re
import subprocess
import tempfile
from pathlib import Path

from lib.count import ROOT, Count, built, has, run

README, TUTORIAL = ((ROOT / name).read_text(encoding="utf-8") for name in ("README.md", "rust/TUTORIAL.md"))
PAGES = sorted(ROOT.glob("man/*.1"))
ROFF = {r"\(aq": "'", r"\(ga": "`", r"\e": "\\", r"\-": "-", r"\&": ""}

# Command lines whose last word is incomplete, and the completions that are offered for it: by bash, and by fish and zsh
# where they differ. Neither of these offers `--`, and fish offers options only after a hyphen.
COMPLETIONS = [
    ("globs ", "--help --version escape explain find help ignore match"),
    ("globs m", "match"),
    ("globs match -", "-- -0 -d -i -s -v"),
    ("globs match a", ""),
    ("globs match a -", ""),
    ("globs match -- -", ""),
    ("globs find -t d -n 5 --m", "--max-depth"),
    ("globs find a --m", ""),
    ("globs find -i a -x b --m", ""),
    ("globs explain -", "-- -d -i -s"),
    ("globs escape -", "-- -0"),
    ("globs find -", "-- --directory --git --ignore --ignore-files --max-depth --utf8-only -0 -C -L -d -i -n -t -x"),
    ("globs find --m", "--max-depth"),
    ("globs find -t ", "d f l"),
    ("globs find -n 5 fo", "folder"),
    ("globs find --ignore fo", "folder"),
    ("globs find --ignore-files .i", ".ignore"),
    ("globs find -C fo", "folder"),
    ("globs ignore -", "-- --git -0 -v"),
    ("globs ignore -0 fo", "folder"),
    ("globs help f", "find"),
    ("globs help find f", ""),
]
NO_DASHES = {line: found.removeprefix("-- ") for line, found in COMPLETIONS}
OTHERS = {"bash": {}, "zsh": NO_DASHES, "fish": NO_DASHES | {"globs ": "escape explain find help ignore match",
    "globs find -n 5 fo": "folder/", "globs find --ignore fo": "folder/", "globs find -C fo": "folder/",
    "globs ignore -0 fo": "folder/"}}

# What each shell runs: it reads the file MADE, completes each line of the file ASKED, and writes a line with all
# completions to the file OFFERED.
BASH = """
. "$MADE"
while IFS= read -r line; do
    read -r -a COMP_WORDS <<<"$line"
    [ "${line% }" = "$line" ] || COMP_WORDS+=('')
    COMP_CWORD=$((${#COMP_WORDS[@]} - 1))
    _globs
    echo "${COMPREPLY[*]}"
done <"$ASKED" >"$OFFERED" 2>&1
"""
FISH = """
source $MADE
while read -d \\n line
    echo -- (complete -C $line | string split -f1 \\t)
end <$ASKED >$OFFERED 2>&1
"""

# zsh does so at its start in a terminal, where what is offered goes through `compadd`, which with -O, -A or -D only
# asks. Then it ends.
ZSHRC = """
fpath=("${MADE:h}" $fpath)
autoload -Uz compinit && compinit -u -D
compadd() {
    local -a found options=("${(@)argv[1,(i)(-|--)]}")
    if ((${options[(I)-[OAD]*]} == 0)); then
        builtin compadd -A found "$@"
        offered+=($found)
    fi
    builtin compadd "$@"
}
zle-line-init() {
    local line
    while IFS= read -r line; do
        offered=() BUFFER=$line CURSOR=$#line
        zle list-choices
        print -r -- $offered
    done <$ASKED >$OFFERED
    BUFFER=exit
    zle accept-line
}
zle -N zle-line-init
"""
SHELLS = {"bash": ["bash", "-c", BASH], "fish": ["fish", "--no-config", "-c", FISH],
    "zsh": ["script", "-qec", "timeout --foreground 60 zsh -d -i", "/dev/null"]}

MADE = {"bash": "share/bash-completion/completions/globs", "zsh": "share/zsh/site-functions/_globs",
    "fish": "share/fish/vendor_completions.d/globs.fish"}
INSTALLED = sorted([*MADE.values(), "share/man/man1/globs.1", "bin/globs"])


def blocks_of(page, kind):
    return re.findall(rf"^```{kind}\n(.*?)^```$", page, re.M | re.S)


def shown(blocks):
    """The commands after a `$`, each with its output."""
    return [it for block in blocks for it in re.findall(r"^\$ (.*)\n((?:(?!\$ ).*\n)*)", block, re.M)]


def examples():
    """The commands of the man pages and of the README's text blocks."""
    text = "".join(page.read_text(encoding="utf-8") for page in PAGES)
    blocks = re.findall(r"^\.EX\n(.*?)^\.EE$", text, re.M | re.S)
    blocks = [re.sub(r"\\\(..|\\.", lambda it: ROFF[it[0]], block) for block in blocks]
    return shown(blocks + blocks_of(README, "text"))


def shown_calls():
    """The calls of the program in the README, each with its output, which is listed at the end of its comment."""
    calls = [it for block in blocks_of(README, "sh")
        for it in re.findall(r"^(.*bin/glob(?:_run|s) .*?) +# (.*)$", block, re.M)]
    return [(command, comment.split(": ")[-1].replace(", ", "\n") + "\n") for command, comment in calls]


class Manual:
    """The folders where everything is installed, and where programs run."""

    def __init__(self, work):
        self.prefix, self.folder, self.home, self.count = work / "prefix", work / "here", work, Count()
        (self.folder / "folder").mkdir(parents=True)

    def install(self):
        """Checks that everything is installed."""
        built("globs")
        status, _, errors = run([ROOT / "bin/install", self.prefix])
        files = sorted(str(it.relative_to(self.prefix)) for it in self.prefix.rglob("*") if it.is_file())
        self.count.same(f"bin/install {errors}", (status, files), (0, INSTALLED))

    def pages(self):
        """Checks the man pages with the tools for it."""
        for words in (["mandoc", "-Tlint", "-Wwarning"], ["groff", "-man", "-ww", "-z"]):
            if has(words[0], "a check of the man pages"):
                self.count.same(words[0], run([*words, *PAGES]), (0, "", ""))

    def completions(self):
        """Checks the completions that the shells offer, and that they can read their files."""
        for shell, file in MADE.items():
            if has(shell, f"completions of {shell}"):
                made = self.prefix / file
                self.count.same(f"{shell} -n", run([shell, "-n", made]), (0, "", ""))
                offered = dict(zip(dict(COMPLETIONS), self.offered(shell, made)))
                for line, wanted in COMPLETIONS:
                    found = " ".join(sorted(offered.get(line, ["no answer"])))
                    self.count.same(f"{shell}: {line}", found, OTHERS[shell].get(line, wanted))

    def offered(self, shell, made):
        """What a shell offers for each line."""
        (self.home / ".zshrc").write_text(ZSHRC, encoding="utf-8")
        asked, offered = self.home / "asked", self.home / "offered"
        asked.write_text("".join(f"{line}\n" for line, _ in COMPLETIONS), encoding="utf-8")
        offered.write_text("")
        env = {"PATH": os.environ["PATH"], "TERM": "dumb", "HOME": self.home, "ZDOTDIR": self.home}
        env |= {"MADE": made, "ASKED": asked, "OFFERED": offered}
        run(SHELLS[shell], cwd=self.folder, env=env, stdin=subprocess.DEVNULL)
        return [it.split() for it in offered.read_text(encoding="utf-8").splitlines()]

    def examples(self):
        installed = f"{self.prefix}/bin:{built('glob_run').parent}:/usr/bin:/bin"
        rows = [("pages", installed, examples()), ("tutorial", installed, shown(blocks_of(TUTORIAL, "console")))]
        for name, path, calls in [*rows, (ROOT, os.environ["PATH"], shown_calls())]:
            folder = self.home / name
            folder.mkdir(exist_ok=True)
            for command, output in calls:
                _, *found = run(["bash", "-c", command], cwd=folder, env={"PATH": path}, stdin=subprocess.DEVNULL)
                self.count.same(command, found, [output, ""])


def main():
    with tempfile.TemporaryDirectory() as work:
        manual = Manual(Path(work))
        manual.install()
        manual.pages()
        manual.completions()
        manual.examples()
    manual.count.end()


main()
