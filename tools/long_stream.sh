#!/usr/bin/env bash
# How long a program takes to read a long stream, and how much memory at most:
#     tools/long_stream.sh [PROGRAM [OBJECTS]]
# PROGRAM is called with a description and a stream, as `items` is, which is taken where none is given. Two streams are made and read: OBJECTS
# objects like the sample's (10,000,000 if none are given, which is 35 MB), and one of 4,096 objects that fill the longest source that there may be,
# 268,435,455 bytes. Build first: `cargo build --release` in bench/baseline, `rt run` in crates/items and crates/edges.
set -euo pipefail
cd "$(dirname "$0")/.."
program=${1:-crates/items/out/items}
objects=${2:-10000000}
made=$(mktemp -d)
trap 'rm -rf "$made"' EXIT

# Reads a stream, and says what it took; of what the program prints only the lines and the last of them are looked at.
measured() {
    /usr/bin/time -f '%e s, %M KB at most' -o "$made/took" "$program" "$1" "$2" 2> /dev/null \
        | tee >(wc -l > "$made/lines") | tail -n 1 > "$made/last" || true
    sleep 1
    echo "$3: $(stat -c %s "$2") bytes, $(cat "$made/lines") lines, the last '$(cat "$made/last")': $(tail -n 1 "$made/took")"
}

bench/baseline/target/release/baseline repeat "$objects" "$made/many.sdt" "$made/many.bin"
measured "$made/many.sdt" "$made/many.bin" "$objects objects"
crates/edges/out/edges "$made" > /dev/null
measured "$made/longest.sdt" "$made/longest.bin" "the longest source"
