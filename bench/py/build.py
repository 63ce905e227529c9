"""Builds the two archives and the measuring program over each. All that is built goes below target/bench."""
import os
import shutil
import subprocess
from pathlib import Path

BENCH = Path(__file__).resolve().parent.parent
ROOT = BENCH.parent
TARGET = ROOT / "target" / "bench"
LIBRARY = ROOT / "crates" / "station" / "out" / "libstation.a"
CALLS = ("open", "take", "take_class", "send", "seal", "mark", "total", "substitute")
CELLS = ("calls", "cells", "kept", "linked", "shapes", "tables")


class Failed(Exception):
    """Something could not be built or run."""


def said(*words, **options):
    """What a command prints; a failure tells all that it said."""
    words = [str(word) for word in words]
    try:
        ended = subprocess.run(words, capture_output=True, text=True, check=False, **options)
    except OSError as error:
        raise Failed(f"{words[0]}: {error.strerror}") from error
    if ended.returncode != 0:
        raise Failed(f"{' '.join(words)}\n{ended.stdout}{ended.stderr}")
    return ended.stdout


def library(instead=None):
    """The library's archive, built by rt where it is on the path, or another one in its place."""
    if instead is None and shutil.which("rt"):
        said("rt", "lib", cwd=ROOT / "crates" / "station")
    archive = instead or LIBRARY
    if not archive.is_file():
        raise Failed(f"no archive {archive}")
    return archive


def tuned():
    """The archive of bench/rust."""
    target = TARGET / "cargo"
    manifest = BENCH / "rust" / "Cargo.toml"
    flags = {"CARGO_TARGET_DIR": str(target), "RUSTFLAGS": "-C target-cpu=x86-64"}
    said("cargo", "build", "--offline", "--release", "--manifest-path", manifest, env=os.environ | flags)
    return target / "release" / "libtuned.a"


def program(name, sources, *archives):
    """A program of c/ linked with archives. Everything is bound at its start, so that no call pays for that."""
    TARGET.mkdir(parents=True, exist_ok=True)
    made = TARGET / name
    files = [BENCH / "c" / f"{source}.c" for source in sources]
    strict = ["-std=gnu11", "-O2", "-Wall", "-Wextra", "-Werror", f"-I{ROOT / 'include'}", f'-DTABLES="{BENCH / "tables"}"']
    said("gcc", *strict, *files, *archives, "-Wl,-z,now", "-lgcc_s", "-o", made)
    return made


def renamed(archive):
    """The archive with its calls named tuned_, to be linked beside the library."""
    made = TARGET / "renamed.a"
    names = [f"--redefine-sym=lirvedd_{call}=tuned_{call}" for call in CALLS]
    said("objcopy", *names, archive, made)
    return made
