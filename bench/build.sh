#!/usr/bin/env bash
# Builds the static library of the crate embed, and the programs of trials/ over it. Prints nothing on standard output.
# Where JILAFOTRA_LIBRARY names a folder, the library there is taken, and none is built.
set -euo pipefail
cd "$(dirname "$0")"
if [ -z "${JILAFOTRA_LIBRARY:-}" ]; then
    (cd ../crates/embed && rt lib) >&2
fi
cargo build --release --manifest-path trials/Cargo.toml >&2
