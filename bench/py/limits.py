"""The limits, and whether they hold."""
from collections import namedtuple

from known import BY_CALL, NEW, PARTLY_USED, SEVEN
from shown import most_stack

# The library against tuned Rust at 1,024 rows: full tables in the seven shapes.
FULL = {"soundness": 1.05, "open": 1.05, "take": 1.05, "take_class": 1.05, "seal": 1.05, "send": 1.05, "sealed": 1.05, "mark": 1.05,
        "total": 1.12, "substitute": 1.3}
PARTLY_USED_MOST = 1.3
NEW_MOST = 1.5
FEW_ROWS_MOST = 1.6
# A sending of a sealed table against one of the same table unsealed: one in a hundred is for looking whether it is sealed.
SEALED_MOST = 1.01
BUSY_MOST = 1.15
STACK = 28_000
# Shapes whose rows are others in a round of more slots.
BY_SLOTS = ("far", "beyond")

Limit = namedtuple("Limit", "text value most")


def at(side, call, shape, rows=1024):
    """The instructions of these cells, by cell."""
    return {cell: own for cell, own in side.instructions.items() if cell[:3] == (call, shape, rows)}


def against_known(tuned):
    """Tuned Rust counts as tuned if it is near the best figures known."""
    for call, shapes in BY_CALL.items():
        for shape, best in shapes.items():
            yield Limit(f"tuned Rust: {call} {shape} against {best:,}", max(at(tuned, call, shape).values()) / best, 1.1)


def ratio(library, tuned, call, shape, rows=1024):
    """The greatest over the slots; None where there is no such cell."""
    ratios = (own / tuned.instructions[cell] for cell, own in at(library, call, shape, rows).items())
    return max(ratios, default=None)


def most_of(call, shape):
    if shape in PARTLY_USED:
        return PARTLY_USED_MOST
    return NEW_MOST if shape in NEW else FULL[call]


def against_tuned(library, tuned):
    for call in FULL:
        for shape in ("-", *SEVEN, *PARTLY_USED, *NEW):
            found = ratio(library, tuned, call, shape)
            if found is not None:
                yield Limit(f"{call} {shape}, 1,024 rows", found, most_of(call, shape))


def with_few_rows(library, tuned):
    """The greatest over the shapes, and which it is; None where so many rows are left out."""
    for call in FULL:
        for rows in (16, 128):
            shapes = dict.fromkeys(cell.shape for cell in library.instructions if cell[0::2] == (call, rows))
            found = [(ratio(library, tuned, call, shape, rows), shape) for shape in shapes]
            value, shape = max(found, default=(None, "-"))
            yield Limit(f"{call}, {rows} rows ({shape})", value, FEW_ROWS_MOST)


def against_fewer_slots(library):
    """The same rows in a round of 4,096 slots and of 1,024."""
    by_call = {}
    for cell, own in library.instructions.items():
        fewer = library.instructions.get(cell._replace(slots=1024))
        if cell.rows == 1024 and cell.slots == 4096 and cell.shape not in BY_SLOTS:
            by_call[cell.call] = max(own / fewer, by_call.get(cell.call, 0))
    for call, found in by_call.items():
        yield Limit(f"{call}, 4,096 slots against 1,024", found, 1.05)


def against_unsealed(library):
    """A sending of a sealed table is not dearer than one of the same table unsealed: the greatest over rows and slots."""
    by_shape = {}
    for cell, own in library.instructions.items():
        if cell.call == "sealed":
            unsealed = library.instructions[cell._replace(call="send")]
            by_shape[cell.shape] = max(own / unsealed, by_shape.get(cell.shape, 0))
    for shape, found in by_shape.items():
        yield Limit(f"sealed {shape} against send", found, SEALED_MOST)


def stacks(library):
    for call in dict.fromkeys(cell.call for cell in library.stack):
        yield Limit(f"{call}, bytes of stack", most_stack(library, call), STACK)


def of_lines(whole):
    yield Limit("busy rounds, the library's calls against tuned Rust's", whole.calls / whole.tuned, BUSY_MOST)
    yield Limit("stationround's lines against the calls alone", whole.program and whole.program / whole.calls, 1.3)


def same_answers(library, tuned):
    wrong = [cell for cell, digest in library.digest.items() if tuned.digest[cell] != digest]
    for cell in wrong:
        print(f"The two answer differently: {' '.join(map(str, cell))}")
    return not wrong


def show(limit):
    verdict = "pass" if limit.value <= limit.most else "FAIL"
    shown = f"{limit.value:,}" if isinstance(limit.value, int) else f"{limit.value:.3f}"
    print(f"{verdict}  {limit.text:<54} {shown:>7} of at most {limit.most:,}")


def judge(library, tuned, whole):
    """Prints each limit with its verdict, those that do not hold once more at the end. Those of cells left out, or of a
    program that is not built, are not judged. Returns whether all hold."""
    print("\nLimits")
    every = [*against_known(tuned), *against_tuned(library, tuned), *with_few_rows(library, tuned),
             *against_fewer_slots(library), *against_unsealed(library), *stacks(library), *of_lines(whole)]
    found = [limit for limit in every if limit.value is not None]
    for limit in found:
        show(limit)
    failed = [limit for limit in found if limit.value > limit.most]
    if failed:
        print("\nLimits that do not hold")
        for limit in failed:
            show(limit)
    same = same_answers(library, tuned)
    print(f"{len(found) - len(failed)} limits hold, {len(failed)} do not; {len(every) - len(found)} not judged")
    return same and not failed
