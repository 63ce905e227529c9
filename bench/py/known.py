"""The best figures known: instructions at 1,024 rows, the least of all that was measured on the same tables, also by code that
was slower in time. Tuned Rust has to be near each of them."""

SEVEN = ("inplan", "halfout", "asc2x", "fewdue", "equal", "spread", "chain")
PARTLY_USED = ("quarter", "sparse", "tenth", "unused")
NEW = ("far", "crowd", "alternating", "beyond", "fallrise", "worst", "classes")


def row(*figures):
    """By shape; a call that is not asked of a shape has 0 there."""
    return {shape: figure for shape, figure in zip(SEVEN + PARTLY_USED + NEW, figures) if figure}


def judging(full, *figures):
    """Of a call that looks at neither due slots nor weights."""
    return {"-": full} | dict(zip(PARTLY_USED, figures))


# Soundness is that of code for one number at a time: 12,400 are known with two at a time (SSE2), written by hand in C. Figures older
# than the class have on top what telling equals apart by it added to tuned Rust. Not counted as known is the library where it is better
# than 1.1: sending, sealed or not, and substitutes in asc2x, and sealed sending in worst.
BY_CALL = {
    "soundness": judging(16_400, 9_500, 8_400, 8_100, 7_200),
    "open": {"-": 1_400},
    "take": judging(16_500, 9_600, 8_400, 8_200, 7_200),
    "take_class": judging(16_500, 9_600, 8_400, 8_200, 7_200),
    "seal": judging(16_400, 9_500, 8_400, 8_100, 7_200),
    "send": row(48_800, 135_000, 142_900, 129_800, 132_400, 66_800, 151_000, 28_600, 19_200, 16_100, 7_600,
                31_500, 113_800, 180_800, 87_300, 158_200, 170_500, 127_200),
    "sealed": row(35_400, 117_700, 143_700, 114_500, 104_000, 56_000, 68_600, 24_700, 17_200, 14_300, 7_600,
                  24_800, 75_900, 149_800, 76_900, 165_600, 164_100, 112_700),
    "mark": row(35_000, 120_600, 130_500, 120_300, 99_900, 43_600, 67_100, 21_100, 12_200, 11_500, 7_600,
                24_800, 64_600, 151_300, 52_000, 158_200, 149_000, 114_600),
    "total": row(28_900, 111_300, 118_400, 111_300, 94_400, 54_200, 65_400, 23_500, 16_500, 13_500, 7_600,
                 25_800, 59_600, 145_800, 71_200, 142_000, 142_400, 110_300),
    "substitute": row(27_700, 130_500, 135_300, 132_800, 107_800, 57_500, 77_100, 26_600, 17_100, 15_100, 0,
                      39_300, 64_000, 161_700, 36_400, 161_700, 155_200, 111_800),
}
