#!/usr/bin/env bash
# The sample's items, packed and read again by `items`, have to be the same lines. It runs the programs that the gate has built.
set -euo pipefail
cd "$(dirname "$0")/.."
work=$(mktemp -d)
trap 'rm -rf "$work"' EXIT
cp crates/pack/data/description.sdt crates/pack/data/items.txt "$work"
programs=$PWD/crates
cd "$work"
"$programs/pack/out/pack" > packed
"$programs/items/out/items" > read
{ grep -v '^end$' items.txt; echo end; } > expected
if ! cmp expected read; then
    echo "what pack wrote does not read as the items that it was given" >&2
    exit 1
fi
echo "$(cat packed): packed, and read again"
