"""This file has the table of --chances, from runs or from results that are known."""

from fractions import Fraction

ENDINGS = ["END", "STOP", "WHAT", "HOW", "SORRY", "LIMIT", "NOINPUT"]


def table_of(runs):
    """The bytes of the table of these runs: each is its ending, the bytes that it showed, and its chance."""
    sums = {}
    for ending, shown, chance in runs:
        result = ending, last_line(shown)
        so_far, number = sums.get(result, (Fraction(0), 0))
        sums[result] = so_far + chance, number + 1
    return table_text(sums)


def table_text(sums):
    """The bytes of the table with these results: of each ending and last line, its chance and its number of runs."""
    rising = sorted(sums, key=lambda result: (ENDINGS.index(result[0]), result[1]))
    return b"".join(row_text(*result, *sums[result]) for result in rising)


def last_line(shown):
    """The last line of a transcript, without its end; empty where there is none."""
    lines = shown.split(b"\n")
    line = lines[-1] or (lines[-2] if len(lines) > 1 else b"")
    return line[:-1] if line.endswith(b"\r") else line


def row_text(ending, line, chance, number):
    """A row of the table, for so many runs with this ending and this last line."""
    head = f"CHANCE {chance.numerator}/{chance.denominator} {number} {ending} {len(line)}\n"
    return head.encode() + line + b"\n"
