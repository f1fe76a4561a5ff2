"""The tables in checks/tables: rows of small runs, and what the public calls of the crates are wanted to answer to them.

A line `row NAME` begins a row; what it gives stands behind it, as the head of its table says, and what is wanted in lines that begin
with `=`. A line that begins with `#` is a comment. A program prints the rows with its answers in the same form: PROGRAMS says which one.

The name of a file is the subject, with `_large` behind it where its rows are too long for sources that run unproved.
"""
import glob
import os
import re

from cases import TOP

LARGE = "_large"
# The programs, and the subjects that each of them answers.
PROGRAMS = {
    "rma_line_probe": ("calls", "lex", "lines", "log"),
    "rma_type_probe": ("bytes", "layouts", "types"),
    "rma_order_probe": ("epochs", "order", "sources"),
    "rma_probe": ("accesses", "lists", "table"),
    "rma_findings_probe": ("cuts", "races", "strict", "trials"),
    "rma_audit_probe": ("audit",),
}


def tables():
    """The files of all tables."""
    return sorted(glob.glob(f"{TOP}/checks/tables/*.txt"))


def subject_of(table):
    """The word by which the program knows what a table is about."""
    return os.path.basename(table).removesuffix(".txt").removesuffix(LARGE)


def crate_of(table):
    """The crate of the program that answers a table."""
    return next(crate for crate, subjects in PROGRAMS.items() if subject_of(table) in subjects)


def is_large(table):
    """Whether it needs the proved program."""
    return table.endswith(f"{LARGE}.txt")


def rows_of(text):
    """The lines that are wanted, or answered, by row."""
    rows = {}
    for row in re.split(r"^row ", text, flags=re.M)[1:]:
        name, _, lines = row.partition("\n")
        if name in rows:
            raise ValueError(f"two rows have the name {name}")
        rows[name] = [line for line in lines.splitlines() if line.startswith("=")]
    return rows


def difference(wanted, got):
    """The first lines that differ, or nothing."""
    if wanted == got:
        return None
    at = next((k for k, (one, other) in enumerate(zip(wanted, got)) if one != other), min(len(wanted), len(got)))
    line = lambda lines: repr(lines[at]) if at < len(lines) else "nothing more"
    return f"{line(wanted)} is wanted as answer {at + 1}, and it is {line(got)}"


def results(table, answer):
    """The rows of a table, each with what differs in what the program printed."""
    with open(table, encoding="utf-8") as file:
        wanted = rows_of(file.read())
    got = rows_of(answer)
    name_of = lambda row: f"checks/tables/{os.path.basename(table)}: {row}"
    return [(name_of(row), difference(lines, got[row]) if row in got else "no answer") for row, lines in wanted.items()]
