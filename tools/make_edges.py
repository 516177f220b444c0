#!/usr/bin/env python3
"""Makes the files of crates/edges/data: a description and the bytes that it is read over, for each edge, and their list edges.txt.

    tools/make_edges.py [FOLDER]

Where a folder is given, the files go there, and those of the edge `longest` too, whose stream of 268,435,455 bytes the program makes itself.
Each description is given as its tables, record by record, with the fields in the order of docs/FORMAT.md.
"""
import pathlib
import struct
import sys

# the operators and the kinds of line that the edges need
CONSTANT, NAMED, ADD, LESS = 1, 2, 7, 11
UNSIGNED, SIGNED, ASSIGN, MAP_READ, USE, IF, WHILE = range(1, 8)

# the most elements of a read, rounds of a while and objects of a use
MOST = 65535


def constant(value):
    return [CONSTANT, value >> 16, value % 65536]


def plain(rank, first, number, greatest=0):
    """A plain class."""
    return [0, 0, 0, greatest, 0, 0, 0, rank, first, number]


def line(kind, *fields):
    return [kind, *fields, *[0] * (7 - len(fields))]


def description(classes, lines=(), nodes=(), names=(), extensions=(), maps=(), rows=()):
    """The bytes of a description whose top class is class 1."""
    tables = [classes, names, extensions, lines, nodes, maps, rows]
    numbers = [*map(len, tables), 1, *(field for table in tables for record in table for field in record)]
    return b"SDT\x00\x01" + struct.pack(f">{len(numbers)}H", *numbers)


def largest():
    """Each table at its greatest count: an expandable top class with 128 names, each read and then worked out again; 31 classes that it
    uses once each; 16 maps that it reads by; 32 extensions; and reads of a byte for the lines that are left."""
    names, used, maps, extensions, left = 128, 31, 16, 32, 146
    own = 2 * names + used + maps + left
    return description(
        classes=[plain(2, 1, own, greatest=65535), *(plain(1, own + 1 + i, 1) for i in range(used))],
        names=[[1]] * names,
        extensions=[[1, own + used + 1 + i, 1] for i in range(extensions)],
        lines=[
            *(line(UNSIGNED, 1, n) for n in range(1, names + 1)),
            *(line(ASSIGN, n, names + n) for n in range(1, names + 1)),
            *(line(USE, n, 2) for n in range(2, used + 2)),
            *(line(MAP_READ, n, n) for n in range(1, maps + 1)),
            *(line(UNSIGNED, 1) for _ in range(left + used + extensions)),
        ],
        nodes=[
            constant(8),
            constant(1),
            *([NAMED, n, 0] for n in range(1, names + 1)),
            *([ADD, n, 2] for n in range(3, names + 1)),
        ],
        maps=[[4, 16 * i + 1, 16] for i in range(maps)],
        rows=[[index, 65535, index] for _ in range(maps) for index in range(16)],
    )


def objects(greatest):
    """Sixteen classes, of which each uses the next once, and the last reads a byte."""
    return description(
        classes=[plain(17 - n, n, 1, greatest) for n in range(1, 17)],
        lines=[*(line(USE, n, 1) for n in range(2, 17)), line(UNSIGNED, 2)],
        nodes=[constant(1), constant(8)],
    )


def ifs(depth):
    """So many ifs, each in the first block of the one before, and a read of a byte in the last."""
    return description(
        classes=[plain(1, 1, depth + 1)],
        lines=[*(line(IF, 1, depth - i) for i in range(depth)), line(UNSIGNED, 2)],
        nodes=[constant(1), constant(8)],
    )


def whiles():
    """Eight whiles, each in the block of the one before, with a name of its own that is 1 until the innermost block makes it 0."""
    return description(
        classes=[plain(1, 1, 25)],
        names=[[1]] * 8,
        lines=[
            *(line(ASSIGN, n, 2) for n in range(1, 9)),
            *(line(WHILE, 4 + i, 16 - i, 1) for i in range(8)),
            line(UNSIGNED, 3),
            *(line(ASSIGN, n, 1) for n in range(1, 9)),
        ],
        nodes=[constant(0), constant(1), constant(8), *([NAMED, n, 0] for n in range(1, 9))],
    )


def elements(count, width):
    """A read of so many numbers of so many bits."""
    return description([plain(1, 1, 1)], [line(UNSIGNED, 1, 0, 2)], [constant(width), constant(count)])


def endless():
    """A while with nothing inside, on what is always true."""
    return description([plain(1, 1, 1)], [line(WHILE, 1, 0, MOST)], [constant(1)])


def rounds(end):
    """A while that counts from 0 up to `end`."""
    return description(
        classes=[plain(1, 1, 2)],
        names=[[1]],
        lines=[line(WHILE, 5, 1, MOST), line(ASSIGN, 1, 4)],
        nodes=[constant(1), constant(end), [NAMED, 1, 0], [ADD, 3, 1], [LESS, 3, 2]],
    )


def uses():
    """From no to the most objects of an expandable family of which no id is known."""
    family = [1, 0, 1, 65535, 8, 0, 0, 1, 0, 0]
    return description([plain(2, 1, 1), family], [line(USE, 2, 0, 0, MOST)])


def number(kind, lines, width):
    """A class of so many lines, none or one, that reads a number of so many bits."""
    return description([plain(1, lines, lines)], [line(kind, 1)] * lines, [constant(width)])


EDGES = {
    "largest": (largest(), bytes([0x83, 0xFF, 0x7F]) + bytes(i % 251 for i in range(65535))),
    "objects": (objects(0), bytes([42])),
    "windows": (objects(65535), bytes([*range(16, 0, -1), 42])),
    "ifs": (ifs(8), bytes([42])),
    "ninth-if": (ifs(9), bytes([42])),
    "whiles": (whiles(), bytes([42])),
    "elements": (elements(MOST, 1), b"\xfe" * 8192),
    "no-bits": (elements(MOST, 0), b""),
    "elements-over": (elements(MOST + 1, 1), b"\xfe" * 8192),
    "endless": (endless(), b""),
    "rounds": (rounds(MOST), b""),
    "rounds-over": (rounds(MOST + 1), b""),
    "uses": (uses(), b"".join(bytes([i % 200, 0]) for i in range(MOST))),
    "uses-over": (uses(), b"".join(bytes([i % 200, 0]) for i in range(MOST)) + b"\x00\x00"),
    "nothing": (number(UNSIGNED, 0, 0), b""),
    "too-few": (number(UNSIGNED, 1, 8), b""),
    "no-width": (number(SIGNED, 1, 0), b""),
    "unsigned": (number(UNSIGNED, 1, 32), bytes([255, 255, 255, 255])),
    "signed": (number(SIGNED, 1, 32), bytes([128, 0, 0, 0])),
    "too-wide": (number(SIGNED, 1, 33), bytes([128, 0, 0, 0, 0])),
}


def longest():
    """Objects of the greatest size, and a last one, that fill the longest source: an id, three size bytes, and bytes that are 0."""
    def head(size):
        return bytes([9, 0x80 | size >> 14, 0x80 | size >> 7 & 127, size & 127])

    most, step = 268_435_455, 65_539
    stream = bytearray(most)
    for at in range(0, most, step):
        size = min(step, most - at) - 4
        stream[at:at + 4] = head(size)
    return stream


def main():
    data = pathlib.Path(__file__).resolve().parent.parent / "crates/edges/data"
    folder = pathlib.Path(sys.argv[1]) if len(sys.argv) > 1 else data
    folder.mkdir(exist_ok=True)
    for name, (table, stream) in EDGES.items():
        (folder / f"{name}.sdt").write_bytes(table)
        (folder / f"{name}.bin").write_bytes(stream)
    (folder / "edges.txt").write_text("".join(f"{name}\n" for name in EDGES))
    if folder != data:
        (folder / "longest.sdt").write_bytes(uses())
        (folder / "longest.bin").write_bytes(longest())


if __name__ == "__main__":
    main()
