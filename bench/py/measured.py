"""One side, library or tuned Rust: its instructions and stack by cell."""
import os
import re
import shutil
from collections import namedtuple

from build import CALLS, CELLS, TARGET, Failed, program, said

# Callgrind counts an instruction that repeats, as memset and memmove may use, once a byte: they are to do without it.
ONCE = {"GLIBC_TUNABLES": "glibc.cpu.x86_rep_stosb_threshold=99999999:glibc.cpu.x86_rep_movsb_threshold=99999999"}

Cell = namedtuple("Cell", "call shape rows slots")
Side = namedtuple("Side", "instructions digest stack")


def cell(text):
    """A cell by its name, and what stands after that."""
    call, shape, rows, slots, *rest = text.split()
    return Cell(call, shape, int(rows), int(slots)), rest


def lines(printed):
    """What a measuring program printed after each cell's name."""
    return dict(map(cell, printed.splitlines()))


def counted(made, words):
    """Instructions a call, and digests of the answers. Callgrind counts inside the calls alone, and dumps once a cell."""
    dumps = TARGET / f"{made.name}_dumps"
    shutil.rmtree(dumps, ignore_errors=True)
    dumps.mkdir()
    toggles = [f"--toggle-collect=lirvedd_{call}" for call in CALLS]
    out = f"--callgrind-out-file={dumps}/out"
    printed = said("valgrind", "--tool=callgrind", out, *toggles, made, "count", *words, env=os.environ | ONCE)
    totals = dict(filter(None, map(dumped, dumps.glob("out.*"))))
    shutil.rmtree(dumps)
    told = lines(printed)
    instructions = {at: totals[at] / int(inputs) for at, (_, inputs) in told.items()}
    return instructions, {at: digest for at, (digest, _) in told.items()}


def dumped(dump):
    """A dump's cell and its instructions; the dump at the program's end has no cell."""
    text = dump.read_text()
    name = re.search(r"^desc: Trigger: Client Request: (.*)$", text, re.M)
    return (cell(name[1])[0], total(text)) if name else None


def total(text):
    """The instructions in all that a dump tells of."""
    found = re.search(r"^(?:summary|totals): (\d+)$", text, re.M)
    if not found:
        raise Failed("callgrind's dump has no total")
    return int(found[1])


def side(name, archive, quick):
    made = program(f"measure_{name}", (*CELLS, "measure", "stack"), archive)
    instructions, digest = counted(made, ["quick"] if quick else [])
    stack = {at: int(number) for at, (number,) in lines(said(made, "stack")).items()}
    return Side(instructions, digest, stack)
