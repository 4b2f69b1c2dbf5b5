"""Copies of the crates in which wrong bodies are planted, and the prover's command over them."""
import functools
import os
import pathlib
import shutil
import sys

from harness.repository import ROOT

# Where the prover keeps what it has checked of a crate.
KEPT = "out/incremental"


def libraries():
    """The folders of the libraries that were built in this checkout."""
    return (ROOT / "crates").glob("*/out/rlib")


def link_or_copy(one, other):
    """Gives a file of a library a second name: such a file is replaced, and never written into."""
    try:
        os.link(one, other)
    except OSError:
        shutil.copy2(one, other)


def copy_of_crates(folder):
    """A copy of the sources, and of the libraries that rt has built of them: of what it made no more is needed."""
    copy = pathlib.Path(folder)
    shutil.copytree(ROOT / "crates", copy / "crates", ignore=shutil.ignore_patterns("out"))
    for library in libraries():
        shutil.copytree(library, copy / library.relative_to(ROOT), copy_function=link_or_copy)
    for name in ("crates.txt", "HANDLES"):
        shutil.copy(ROOT / name, copy)
    return copy


@functools.cache
def toolchain():
    """What `rt` is made of: how it calls the prover stands there alone."""
    sys.path.insert(0, str(pathlib.Path(shutil.which("rt")).resolve().parent))
    import rtlib

    return rtlib


def are_left_by_ci():
    """Whether the libraries here are those that `rt ci` left. Those that `rt check` built have a stamp, and where there were some, `rt ci` put them back."""
    return not any((library / "stamp").exists() for library in libraries())


def check_command(home, after_ci):
    """The command that checks the crate of a copy."""
    if after_ci and are_left_by_ci():
        crate = next(it for it in toolchain().crates_below(str(home.parent)) if it.name == home.name)
        return [toolchain().RATTLE, "check", *crate.words(["--jobs", "1"], keeps=False), "--incremental", KEPT]
    return ["rt", "check", "--jobs", "1"]
