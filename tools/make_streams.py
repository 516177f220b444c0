#!/usr/bin/env python3
"""Makes the streams of tools/odd_streams.sh: their descriptions, their bytes, and the lines that `items` should print of them.

    tools/make_streams.py FOLDER

The lines are worked out from docs/FORMAT.md and docs/READING.md, not by a program of this repository.
"""
import pathlib
import sys

from make_edges import MOST, UNSIGNED, USE, constant, description, line, plain

VALUE, OPEN, CLOSE = 1, 2, 3


def item(kind, number, of_class, index, value, place, length):
    return f"{kind} {number} {of_class} {index} {value} {place} {length}"


def long():
    """Four reads of as many bytes as a count may be: more than three pieces of a file."""
    lines = 4
    file = description([plain(1, 1, lines)], lines=[line(UNSIGNED, 1, 0, 2)] * lines, nodes=[constant(8), constant(MOST)])
    stream = bytes(i * 7 % 251 for i in range(lines * MOST))
    items = [item(OPEN, 0, 1, 0, 0, 0, 0)]
    items += [item(VALUE, 1 + i // MOST, 1, i % MOST, byte, i * 8, 8) for i, byte in enumerate(stream)]
    items.append(item(CLOSE, 0, 1, 0, 0, len(stream) * 8, 0))
    return file, stream, items


def passed():
    """Ten expandable objects of 65,535 bytes, of which the description knows the first: with their sizes more than a piece each, and passed over."""
    count, size = 10, 65535
    header = bytes([0x80 | size >> 14, 0x80 | size >> 7 & 0x7F, size & 0x7F])
    file = description(
        [plain(2, 1, 1), plain(1, 2, 1, greatest=65535)],
        lines=[line(USE, 2, 2), line(UNSIGNED, 1)],
        nodes=[constant(8), constant(count)],
    )
    stream, items = b"", [item(OPEN, 0, 1, 0, 0, 0, 0)]
    for i in range(count):
        place = len(stream) * 8
        items.append(item(OPEN, 1, 2, i, 0, place, size))
        items.append(item(VALUE, 2, 2, 0, 100 + i, place + 24, 8))
        stream += header + bytes([100 + i]) + bytes(j * 11 % 253 for j in range(size - 1))
        items.append(item(CLOSE, 1, 2, i, 0, len(stream) * 8, 0))
    items.append(item(CLOSE, 0, 1, 0, 0, len(stream) * 8, 0))
    return file, stream, items


def short():
    """No bytes at all, and no elements to read."""
    file = description([plain(1, 1, 1)], lines=[line(UNSIGNED, 1, 0, 2)], nodes=[constant(8), constant(0)])
    return file, b"", [item(OPEN, 0, 1, 0, 0, 0, 0), item(CLOSE, 0, 1, 0, 0, 0, 0)]


def main():
    folder = pathlib.Path(sys.argv[1])
    for make in (long, passed, short):
        file, stream, items = make()
        name = make.__name__
        (folder / f"{name}.sdt").write_bytes(file)
        (folder / f"{name}.bin").write_bytes(stream)
        (folder / f"{name}.txt").write_text("\n".join([*items, "end"]) + "\n")


if __name__ == "__main__":
    main()
