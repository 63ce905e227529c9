"""The measured cells as a table."""
from measured import Cell

COLUMNS = "{:<11}{:<12}{:>5}{:>6} |{:>9}{:>9}{:>7} |{:>9}{:>8} |{:>9}{:>9}{:>7}"
TITLES = ["call", "shape", "rows", "slots", "library", "tuned", "ratio", "floor", "/ floor", "lib. ns", "tuned ns", "ratio"]


def number(value):
    return f"{value:,.0f}"


def ratio(value, other):
    return f"{value / other:.2f}"


def floor_of(library, cell):
    """Soundness alone, of as many rows in use; the slots make no difference."""
    full = Cell("soundness", "-", cell.rows, 1024)
    return library.instructions.get(cell._replace(call="soundness", slots=1024), library.instructions[full])


def table(library, tuned, times):
    """Instructions; the floor is soundness alone, the library's own, of as many rows in use; times are information."""
    print("\nInstructions a call, and nanoseconds")
    print(COLUMNS.format(*TITLES))
    for cell, theirs in tuned.instructions.items():
        ours, time = library.instructions[cell], times[cell]
        floor = floor_of(library, cell)
        print(COLUMNS.format(*cell, number(ours), number(theirs), ratio(ours, theirs), number(floor), ratio(ours, floor),
                             number(time.library), number(time.tuned), ratio(time.library, max(time.tuned, 1))))


def most_stack(side, call):
    return max(size for cell, size in side.stack.items() if cell.call == call and cell.rows == 1024)


def stack(library, tuned):
    """By painting: the most over the shapes."""
    print("\nStack in bytes beside the table, 1,024 rows")
    print(f"{'call':<11}{'library':>9}{'tuned':>9}")
    for call in dict.fromkeys(cell.call for cell in tuned.stack):
        print(f"{call:<11}{number(most_stack(library, call)):>9}{number(most_stack(tuned, call)):>9}")
