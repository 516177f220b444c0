#!/usr/bin/env bash
# Tests the boundary of the static library: the kept cases from Rust, and the example in C on the sample.
set -euo pipefail
cd "$(dirname "$0")"
(cd ../../crates/embed && rt lib) >&2
cargo test --release
kit=$(dirname "$(rt doc)")
out=$(mktemp -d)
trap 'rm -rf "$out"' EXIT
"${CC:-cc}" -std=c11 -Wall -Wextra -Werror -O2 -o "$out/example" example.c \
    -L../../crates/embed/out -lembed -L"$kit/c" -llibc_c
"$out/example" ../../docs/sample.sdt ../../docs/stream.bin >"$out/told"
diff "$out/told" ../../crates/items/stdout
head -c 3 ../../docs/stream.bin >"$out/short"
"$out/example" ../../docs/sample.sdt "$out/short" | tail -n 1 >"$out/told"
echo 'refused 18 2 0 8' | diff "$out/told" -
echo "the example in C prints the sample's items, and a fault"
