"""The programs that answer the same cases, line by line, and the user who runs them."""

import os
import re
import shutil
import subprocess
from contextlib import contextmanager
from pathlib import Path

from lib.count import ROOT, run

NOBODY = 65534
SECONDS = 600


def unprivileged_user():
    """The user who runs the programs, nobody instead of root, and whether a directory can be made unreadable for it."""
    if os.geteuid() != 0:
        return None, True
    try:
        subprocess.run(["true"], user=NOBODY, group=NOBODY, extra_groups=[], check=True)
        return NOBODY, True
    except (OSError, subprocess.CalledProcessError):
        return None, False


USER, MAY_SHUT = unprivileged_user()
AS_USER = {"user": USER, "group": USER, "extra_groups": []} if USER else {}


@contextmanager
def as_user():
    """Reads the disk as the programs do."""
    own = os.geteuid()
    os.seteuid(USER or own)
    try:
        yield
    finally:
        os.seteuid(own)


def ask(words, lines, folder=None):
    """An answer for each line. If a folder is given, the program runs there as that user."""
    how = {"cwd": folder, **AS_USER} if folder else {}
    asked = "".join(f"{line}\n" for line in lines).encode()
    status, output, errors = run(words, input=asked, timeout=SECONDS, text=False, **how)
    answers = output.decode().split("\n")[:-1]
    if status or len(answers) != len(lines):
        said = f"status {status}, {len(answers)} answers of {len(lines)} {errors.decode()}"
        raise SystemExit(f"failed: {words}: {said}\n0 passed, 1 failed")
    return answers


def original():
    """The folder with the sources of the original crate, as its Debian package has them, or None."""
    return max(Path("/usr/share/cargo/registry").glob("glob-0.3.*"), default=None)


def built_over(crate, sources, folder):
    """Builds the programs of a package in a folder, with the crate from another folder, and returns the folder of the
    programs. Cargo runs offline."""
    shutil.copytree(sources, folder)
    manifest = folder / "Cargo.toml"
    package = 'package = "cadmiumdove", ' if crate == ROOT / "rust" else ""
    line = f'glob = {{ {package}path = "{crate}" }}'
    manifest.write_text(re.sub(r"(?m)^glob = .*", line, manifest.read_text(encoding="utf-8")), encoding="utf-8")
    env = {**os.environ, "CARGO_TARGET_DIR": str(folder / "target"), "RUSTFLAGS": "--cap-lints allow"}
    subprocess.run(["cargo", "build", "-q", "--release", "--offline"], cwd=folder, env=env, check=True)
    return folder / "target/release"
