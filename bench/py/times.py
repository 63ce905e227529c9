"""The time of both sides by cell, measured in turns in one program."""
from collections import namedtuple

from build import CELLS, program, renamed, said
from measured import lines

Times = namedtuple("Times", "library tuned")


def measure(library, tuned, quick):
    """Nanoseconds a call."""
    made = program("turns", (*CELLS, "renamed", "turns"), library, renamed(tuned))
    printed = said(made, *(["quick"] if quick else []))
    return {at: Times(*map(float, numbers)) for at, numbers in lines(printed).items()}
