"""Layouts of buffers against a plain listing of their elements (MPI 4.0, "Datatypes").

The datatypes are the basic ones, and those that a row of checks/tables/types.txt makes, of which no more than the lines are taken. Each
element of each copy is listed by itself. Of each datatype these buffers are asked: up to three copies, each number of elements up to
60, three addresses, in both spaces.
"""
import re
from functools import cached_property

import tables
from cases import TOP

ROW = "constructors make what is counted along their typemaps"
SIZES = {
    1: "SIGNED_CHAR UNSIGNED_CHAR INT8_T UINT8_T C_BOOL BYTE CHAR",
    2: "SHORT UNSIGNED_SHORT INT16_T UINT16_T",
    4: "INT UNSIGNED INT32_T UINT32_T FLOAT",
    8: "LONG UNSIGNED_LONG LONG_LONG UNSIGNED_LONG_LONG INT64_T UINT64_T AINT OFFSET COUNT DOUBLE",
}
SIZE_OF = {word: size for size, words in SIZES.items() for word in words.split()}
# A line with a greater number is left out: its datatype has too many elements to be listed.
MOST = 1_000
COUNTS = range(4)
MOST_ENTRIES = 60
END = 1 << 48
ADDRESSES = (0, 100, END - 16)
LOWEST = {"local": 0, "target": -END}


class Typemap:
    """The elements in order, each a basic datatype with its displacement, and the markers of both bounds."""

    def __init__(self, elements, lower_marks, upper_marks):
        self.elements, self.lower_marks, self.upper_marks = elements, lower_marks, upper_marks

    @cached_property
    def extent(self):
        """The distance of one copy from the next: to the greatest marker, or to the end of the last byte, raised for the alignment."""
        lower = min(self.lower_marks or [at for _, at in self.elements], default=0)
        if self.upper_marks:
            return max(self.upper_marks) - lower
        end = max((at + SIZE_OF[word] for word, at in self.elements), default=0)
        alignment = max((SIZE_OF[word] for word, _ in self.elements), default=1)
        return (end - lower + alignment - 1) // alignment * alignment


def placed(copies):
    """Copies of typemaps, each with its displacement, one behind the other."""
    elements = [(word, by + at) for by, one in copies for word, at in one.elements]
    lower_marks = [by + at for by, one in copies for at in one.lower_marks]
    upper_marks = [by + at for by, one in copies for at in one.upper_marks]
    return Typemap(elements, lower_marks, upper_marks)


def groups(words, size):
    """Words in groups of a size."""
    return list(zip(*[iter(words)] * size))


def indices(dimensions):
    """The indices in an array of the elements of a part, by the size of the array, that of the part and its start, the fastest last."""
    found = [0]
    for size, part, start in dimensions:
        found = [at * size + start + k for at in found for k in range(part)]
    return found


def made(types, kind, words):
    """The typemap that a constructor makes, by the words behind the name."""
    if kind == "struct":
        members = [(int(length), int(at), types[old]) for length, at, old in groups(words, 3)]
        return placed([(at + k * old.extent, old) for length, at, old in members for k in range(length)])
    old = next(types[it] for it in words if it in types)
    numbers = [int(it) for it in words if it.lstrip("-").isdigit()]
    if kind == "resized":
        lower, extent = numbers
        return Typemap(old.elements, [lower], [lower + extent])
    if kind == "subarray":
        dimensions = groups(numbers, 3)[:: -1 if words[0] == "fortran" else 1]
        part = placed([(at * old.extent, old) for at in indices(dimensions)])
        whole = len(indices([(size, size, 0) for size, _, _ in dimensions]))
        return Typemap(part.elements, [0], [whole * old.extent])
    unit = 1 if kind in ("hvector", "hindexed") else old.extent
    return placed([(at * unit + k * old.extent, old) for length, at in blocks(kind, numbers) for k in range(length)])


def blocks(kind, numbers):
    """The blocks of a constructor of one old datatype, each by its length and its displacement."""
    if kind == "contiguous":
        return [(numbers[0], 0)]
    if kind in ("vector", "hvector"):
        count, length, stride = numbers
        return [(length, i * stride) for i in range(count)]
    if kind in ("indexed", "hindexed"):
        return groups(numbers, 2)
    return [(numbers[0], at) for at in numbers[1:]]


def datatypes():
    """The lines that make the datatypes, and the typemaps of all by their names."""
    with open(f"{TOP}/checks/tables/types.txt", encoding="utf-8") as file:
        row = file.read().split(f"\nrow {ROW}\n")[1].split("\nrow ")[0]
    lines = [it for it in row.splitlines() if it.startswith("type ") and all(int(n) <= MOST for n in re.findall(r"\b\d+\b", it))]
    types = {word: Typemap([(word, 0)], [], []) for word in SIZE_OF}
    for line in lines:
        _, kind, name, *words = line.split()
        types[name] = made(types, kind, words)
    return lines, types


def layout(elements, address, space):
    """The answer that is wanted for elements at an address."""
    spans = sorted((address + at, address + at + SIZE_OF[word]) for word, at in elements)
    if any(start < LOWEST[space] or end > END for start, end in spans):
        return "= out_of_space"
    runs, overlaps = [], ""
    for start, end in spans:
        if runs and start <= runs[-1][1]:
            overlaps = " overlaps" if start < runs[-1][1] else overlaps
            runs[-1][1] = max(runs[-1][1], end)
        else:
            runs.append([start, end])
    words = {word for word, _ in elements}
    common = words.pop() if len(words) == 1 else "mixed"
    return f"= {' '.join(f'{start}+{end - start}' for start, end in runs)}{overlaps} {common}" if runs else "= nothing"


def buffers():
    """A table with one row, and the questions of that, each with the answer that is wanted."""
    lines, types = datatypes()
    wanted = {}
    for name, one in types.items():
        for count in COUNTS:
            elements = placed([(k * one.extent, one) for k in range(count)]).elements
            for entries in range(min(len(elements), MOST_ENTRIES) + 1):
                asked = [(address, space) for address in ADDRESSES for space in LOWEST]
                wanted |= {f"place {name} {count} {at} {entries} {space}": layout(elements[:entries], at, space) for at, space in asked}
    return "\n".join(["row buffers", *lines, *wanted]), wanted


def difference(wanted, answer):
    """The first question that has another answer, or nothing."""
    got = tables.rows_of(answer).get("buffers", [])
    for (question, one), other in zip(wanted.items(), got):
        if one != other:
            return f"{question}: {one!r} is wanted, and the answer is {other!r}"
    return None if len(got) == len(wanted) else f"{len(wanted)} questions, and {len(got)} answers"
