#!/usr/bin/env python3
"""Builds the archive, crates/station/out/libstation.a, right after `rt ci`.

`rt lib` in the crate's folder builds it too, but it takes no library that `rt ci` built and proves every crate below once more. This takes
them, as `rt ci` does for the programs, and proves crate station alone again. Where they are not there, or another command built some of
them since, `rt lib` does it.
"""
import os
import subprocess
import sys
from pathlib import Path

TOP = Path(__file__).resolve().parent.parent
FOLDER = TOP / "crates" / "station"
ARCHIVE = "out/libstation.a"
sys.dont_write_bytecode = True


def kit():
    """What `rt` itself goes by, from the kit whose first page `rt doc` names."""
    page = subprocess.run(["rt", "doc"], capture_output=True, text=True, check=True).stdout.strip()
    sys.path.insert(0, str(Path(page).parent / "bin"))
    import rtlib  # pylint: disable=import-error
    return rtlib


def are_the_gates(crates):
    """Whether `rt ci` built these libraries: others have a stamp beside them."""
    return all(Path(it.rlib, "format").is_file() and not Path(it.rlib).with_name("stamp").exists() for it in crates)


def built():
    """Whether the archive is built over the libraries of `rt ci`."""
    rtlib = kit()
    # Its first call sets a signal's handler, which only the main thread may.
    rtlib.guarded()
    crate = rtlib.Crate(str(FOLDER), str(TOP), {})
    if not are_the_gates(crate.below()):
        return False
    (FOLDER / "out").mkdir(exist_ok=True)
    words = crate.words(["--jobs", str(min(4, os.cpu_count() or 1))], keeps=False)
    return crate.prove(["build", *words, "--toolchain", f"{rtlib.KIT}/toolchain", "--backend", "llvm", "-o", ARCHIVE]) == 0


def main():
    (FOLDER / ARCHIVE).unlink(missing_ok=True)
    try:
        if built():
            return 0
    except (Exception, SystemExit) as error:  # pylint: disable=broad-except
        print(f"archive: another kit than this script knows ({error!r})")
    print("archive: rt lib", flush=True)
    return subprocess.run(["rt", "lib"], cwd=FOLDER, check=False).returncode


if __name__ == "__main__":
    sys.exit(main())
