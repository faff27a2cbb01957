"""Inputs: paths, sets of patterns, long texts and trees, the same ones for each call."""

import os
import random

# How many folders a path has, from none to eight, with their frequencies. Words listed several times are more frequent.
DEPTHS = (4, 10, 18, 22, 18, 12, 8, 5, 3)
FOLDERS = (
    "src src src src src src lib lib tests tests test docs include core util utils common api net io os walk parser"
    " grammar matcher storage client server handlers models views static assets images fonts locale examples benches"
    " vendor node_modules third_party build target debug release v1 v2 2024-11 x86_64 .git .github .cache .config"
    " __pycache__ Größe données проект 文档 My-Project"
).split()
WORDS = (
    "main index parser lexer token config error errors result types state store cache queue worker client server"
    " request response header session user account order item price report export import reader writer buffer stream"
    " matcher pattern glob walk path file entry node tree graph table column query plan schema migration test util"
    " helper common base core Widget Button Panel café naïve Übersicht données файл 資料 東京"
).split()
WHOLE_NAMES = (
    "mod.rs mod.rs mod.rs lib.rs main.rs README.md readme.txt LICENSE Makefile Cargo.toml Cargo.lock package.json"
    " __init__.py .gitignore .gitattributes .env .env.local .editorconfig .DS_Store"
).split()
ENDINGS = (
    ".rs .rs .rs .rs .rs .RS .toml .md .txt .json .yaml .js .min.js .ts .tsx .css .html .py .py .c .c .h .h .cpp .go"
    " .java .sql .sh .svg .png .tar.gz .o .d"
).split() + [""]

# Rules of ignore files of common languages, editors and systems: directories whose content is ignored, and files.
IGNORED_FOLDERS = (
    "target node_modules build dist __pycache__ .pytest_cache .mypy_cache .ruff_cache .tox .nox .venv venv env .eggs"
    " .idea .vscode .vs .settings .gradle .cache .parcel-cache .next .nuxt .output .svelte-kit .turbo coverage .nyc_output"
    " htmlcov .ipynb_checkpoints .hypothesis .terraform .svn .hg CVS DerivedData Pods .bundle vendor/bundle _build .stack-work"
    " .dub zig-cache zig-out out bin/Debug bin/Release obj cmake-build-debug CMakeFiles .ccls-cache .history tmp logs"
).split()
IGNORED_FILES = (
    "*.o *.obj *.a *.so *.so.* *.dylib *.dll *.lib *.exe *.pdb *.d *.gch *.pch *.class *.jar *.war *.ear"
    " *.pyc *.pyo *.py[cod] *$py.class *.egg *.egg-info .installed.cfg *.log npm-debug.log* yarn-error.log* *.tsbuildinfo"
    " .eslintcache .npmrc .yarn-integrity *.tgz .env .env.local .env.*.local *.swp *.swo .*.sw[a-p] *~ .DS_Store ._* Thumbs.db"
    " Desktop.ini *.iml *.ipr *.iws *.suo *.user *.bak *.orig *.rej *.tmp *.temp *.rs.bk *.profraw *.gcda *.gcno"
    " .coverage .coverage.* coverage.xml *.cover nosetests.xml *.mo *.pot hs_err_pid* replay_pid* .project .classpath"
    " local.properties *.test *.prof"
).split()


def name_of(source):
    """The last part of a path."""
    if source.random() < 0.15:
        return source.choice(WHOLE_NAMES)
    stem = "_".join(source.choices(WORDS, k=source.choice((1, 1, 2, 2, 3))))
    if source.random() < 0.2:
        stem += f"-{source.getrandbits(28):07x}"
    return "." * (source.random() < 0.03) + stem + source.choice(ENDINGS)


def paths(count):
    """Paths like those of source trees, with up to eight folders."""
    source = random.Random(1979)
    depths = (source.choices(range(len(DEPTHS)), DEPTHS)[0] for _ in range(count))
    return ["/".join([*source.choices(FOLDERS, k=depth), name_of(source)]) for depth in depths]


def ignored(count):
    """Patterns like those of ignore files: known rules, then more in the same forms, half of which name something that
    a path may have."""
    source = random.Random(482)
    known = [*(f"**/{name}/**" for name in IGNORED_FOLDERS), *(f"**/{name}" for name in IGNORED_FILES)]
    patterns = dict.fromkeys(known[:count])
    while len(patterns) < count:
        stem, rare = "_".join(source.choices(WORDS, k=2)), f"-{source.getrandbits(12):03x}"
        stem += source.choice(["", rare])
        end = source.choice([end for end in ENDINGS if end])
        forms = [f"**/{stem}/**"] * 4 + [f"**/{stem}{end}"] * 3 + [f"**/*{rare}{end}"] * 2 + [f"**/{stem}*"]
        patterns[source.choice(forms)] = None
    return list(patterns)


def disk_paths(folder):
    """The paths of files below a folder, without those whose names cannot be printed."""
    found = [os.path.join(at, name) for at, _, names in os.walk(folder) for name in names]
    return sorted(path.removeprefix("/") for path in found if path.isprintable())


def add_files(folder, count):
    """Makes empty files. Every other one ends in .txt, the rest in .rs."""
    for number in range(count):
        (folder / f"file{number:06}.{('txt', 'rs')[number % 2]}").touch()


def wide(folder, share, outer=100):
    """100 directories with 100 directories each, and 10 files in each of those."""
    for number in range(outer * 100 // share):
        below = folder / f"dir{number // 100:02}" / f"dir{number % 100:02}"
        below.mkdir(parents=True)
        add_files(below, 10)


def flat(folder, share):
    """100,000 files in one directory."""
    add_files(folder, 100_000 // share)


def chain(folder, share):
    """1,000 nested directories, with a file in each."""
    for _ in range(1000 // share):
        folder = folder / "d"
        folder.mkdir()
        add_files(folder, 1)


def half(folder, share):
    """100,000 files, half of them in excluded directories."""
    for name, outer in (("src", 50), ("target", 40), ("node_modules", 10)):
        (folder / name).mkdir()
        wide(folder / name, share, outer)
