#!/usr/bin/env bash
# Makes the files of the edges anew, compares them with those of crates/edges/data, asks the interpreter in plain Rust (bench/baseline) about
# them, and compares its answers with what the program's file stdout says. Build the interpreter first: `cargo build --release` in
# bench/baseline. It takes 0.3 GB in the folder for what is made for a short time.
set -euo pipefail
cd "$(dirname "$0")/.."
baseline=$PWD/bench/baseline/target/release/baseline
made=$(mktemp -d)
trap 'rm -rf "$made"' EXIT
tools/make_edges.py "$made"
for file in crates/edges/data/*; do
    cmp "$file" "$made/$(basename "$file")"
done
differ=0
asked=0
while IFS= read -r line; do
    name=${line%%: *}
    [ -f "$made/$name.sdt" ] || continue
    asked=$((asked + 1))
    answer=$("$baseline" count "$made/$name.sdt" "$made/$name.bin" 2>&1) || true
    answer=${answer##*.sdt: }
    if [ "$name: $answer" != "${line%, * open}" ]; then
        echo "$name: the interpreter says '$answer', and the file '${line#*: }'" >&2
        differ=$((differ + 1))
    fi
done < crates/edges/stdout
echo "$asked edges asked, $differ differ"
[ "$differ" -eq 0 ]
