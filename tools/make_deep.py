#!/usr/bin/env python3
"""Makes descriptions whose work is as deep as it may be, and streams for them, to measure the stack with (tools/stack.sh).

    tools/make_deep.py FOLDER

Each has 256 nodes, of which all but seven are eight deep, and 512 lines. `flat` has one class that reads; `nested` eight ifs nested, and reads inside;
`objects` sixteen objects of a size, each inside the one before, the innermost with eight ifs nested, and reads that work out three nodes for each element.
"""
import pathlib
import sys

from make_edges import ADD, IF, UNSIGNED, USE, constant, description, line, plain

# node 1 is 1, each next one adds 1 up to node 7, and every node after that is 8
NODES = [constant(1), *([ADD, n, 1] for n in range(1, 7)), *[[ADD, 7, 1]] * 249]


def deep(i):
    """The number of a node that is eight deep."""
    return 8 + i % 249


def ifs(lines):
    """Eight ifs nested, with so many lines inside."""
    return [line(IF, deep(i), lines + 7 - i) for i in range(8)]


def sized(content):
    """An object's content after its size."""
    size = len(content)
    return bytes([0x80 | size >> 7, size & 127] if size > 127 else [size]) + content


def flat():
    return description([plain(1, 1, 512)], [line(UNSIGNED, deep(i)) for i in range(512)], NODES), bytes([8]) * 512


def nested():
    return description([plain(1, 1, 512)], [*ifs(504), *(line(UNSIGNED, deep(i)) for i in range(504))], NODES), bytes([8]) * 504


def objects():
    classes = [*(plain(17 - n, n, 1, 65535) for n in range(1, 16)), plain(1, 16, 497, 65535)]
    reads = [line(UNSIGNED, deep(i), 0, 0, 0, 0, deep(i + 1), deep(i + 2)) for i in range(489)]
    stream = bytes([8]) * 489
    for _ in range(16):
        stream = sized(stream)
    return description(classes, [*(line(USE, n, 1) for n in range(2, 17)), *ifs(489), *reads], NODES), stream


def main():
    folder = pathlib.Path(sys.argv[1])
    for name, (table, stream) in {"flat": flat(), "nested": nested(), "objects": objects()}.items():
        (folder / f"{name}.sdt").write_bytes(table)
        (folder / f"{name}.bin").write_bytes(stream)


if __name__ == "__main__":
    main()
