#!/usr/bin/env bash
# `items` over streams that are no short file: one of several pieces, one of which most is passed over, one whose file grows
# while it is read, and a named pipe. It runs the program that the gate has built; the lines that are wanted are worked out
# by tools/make_streams.py.
set -euo pipefail
cd "$(dirname "$0")/.."
items=$PWD/crates/items/out/items
work=$(mktemp -d)
trap 'rm -rf "$work"' EXIT
tools/make_streams.py "$work"
cd "$work"

# Says what is wrong, and fails.
wrong() {
    echo "odd streams: $1" >&2
    exit 1
}

# Fails where what was printed is not what is wanted.
wanted() {
    cmp "$1" "$2" || wrong "$3"
}

# in pieces, and in one piece from a pipe
for stream in long passed; do
    timeout 60 "$items" "$stream.sdt" "$stream.bin" > by_pieces
    wanted "$stream.txt" by_pieces "$stream.bin reads as other items"
    cat "$stream.bin" | timeout 60 "$items" "$stream.sdt" /dev/stdin > at_once
    wanted "$stream.txt" at_once "$stream.bin reads as other items from a pipe"
done

# The file gets a byte more after the first item is printed. The program is then still at work, since what it prints is
# more than a pipe holds.
mkfifo printed
cp long.bin grows.bin
timeout 60 "$items" long.sdt grows.bin > printed &
{
    read -r first
    printf 'x' >> grows.bin
    echo "$first"
    cat
} < printed > grown
wait $! || wrong "a file that grows while it is read is not read to its end"
wanted long.txt grown "a file that grows while it is read reads as other items"

# A quick writer may have closed the named pipe again before a program opens it a second time, which would then wait for
# ever. That is seldom, so it is tried often, by several at once.
tries() {
    mkfifo "named$1"
    for _ in {1..60}; do
        timeout 20 bash -c ': > "$0"' "named$1" &
        timeout 5 "$items" short.sdt "named$1" > "from_pipe$1" || true
        cmp -s short.txt "from_pipe$1" || return 1
        wait $!
    done
}
others=()
for reader in {1..8}; do
    tries "$reader" &
    others+=($!)
done
for other in "${others[@]}"; do
    wait "$other" || wrong "a named pipe is not read to its end"
done
echo "odd streams: several pieces, passed over, grown, named pipe: as wanted"
