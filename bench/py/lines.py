"""Busy rounds: the same lines played by the calls of either side, and by stationround."""
import os
import random
from collections import namedtuple

from build import BENCH, ROOT, TARGET, Failed, said
from measured import ONCE, total

PROGRAM = ROOT / "crates" / "stationround" / "out" / "stationround"
LAST = 4095
REACH = 256
TOGGLES = [f"lirvedd_{call}" for call in ("open", "take", "take_class", "send")]

# Instructions of the calls alone, the library's and tuned Rust's, and of the whole program, or None.
Lines = namedtuple("Lines", "count calls tuned program")


def busy(count):
    """So many lines: rounds of 4,096 slots, three takings for two sendings, half of them with a class, due within 256 slots, payloads of any
    length."""
    draw = random.Random(1)
    slot = LAST + 1
    for _ in range(count):
        if slot > LAST:
            slot = 0
            yield f"00{LAST:04X}"
        elif draw.random() < 0.6:
            due = min(slot + draw.randrange(REACH), LAST)
            frame = f"{due:04X}{draw.randint(1, 1 << 24):08X}"
            payload = draw.randbytes(draw.randrange(25)).hex().upper()
            yield f"04{frame}{draw.randrange(4):02X}{payload}" if draw.random() < 0.5 else f"01{frame}{payload}"
        else:
            slot += 1
            yield "02"


def replay(archive):
    made = TARGET / "replay"
    strict = ["-std=c11", "-O2", "-Wall", "-Wextra", "-Werror"]
    said("gcc", *strict, f"-I{ROOT / 'include'}", BENCH / "c" / "replay.c", archive, "-Wl,-z,now", "-lgcc_s", "-o", made)
    return made


def counted(words, toggles, stdin=os.devnull):
    """Instructions, all or inside some functions alone, and what is printed."""
    out = TARGET / "lines.callgrind"
    options = [f"--callgrind-out-file={out}", *(f"--toggle-collect={name}" for name in toggles)]
    with open(stdin, encoding="ascii") as given:
        printed = said("valgrind", "--tool=callgrind", *options, *words, env=os.environ | ONCE, stdin=given)
    instructions = total(out.read_text())
    out.unlink()
    return instructions, printed


def of_program(program, given, wanted):
    """None where the program is not built."""
    if not program.is_file():
        print(f"No {program}: its lines are not measured.")
        return None
    own, printed = counted([program], [], given)
    if printed != wanted:
        raise Failed(f"{program}: it prints other replies than the calls give")
    return own


def measure(library, tuned, quick, program=None):
    count = 10_000 if quick else 100_000
    given = TARGET / "busy_lines"
    given.write_text("".join(f"{line}\n" for line in busy(count)), encoding="ascii")
    calls, wanted = counted([replay(library), given], TOGGLES)
    theirs, printed = counted([replay(tuned), given], TOGGLES)
    if printed != wanted:
        raise Failed("the library and tuned Rust play the busy rounds differently")
    return Lines(count, calls, theirs, of_program(program or PROGRAM, given, wanted))


def show(lines):
    print(f"\nBusy rounds, {lines.count:,} lines: {lines.calls:,} instructions in the library's calls, {lines.tuned:,} in "
          f"tuned Rust's; ratio {lines.calls / lines.tuned:.2f}")
    if lines.program:
        print(f"Stationround, the same lines: {lines.program:,} instructions; "
              f"{(lines.program - lines.calls) / lines.count:,.0f} more a line than the calls alone")
