#!/usr/bin/env bash
# Compares the library with the interpreter on what is made up from seeds: differential.sh [FIRST COUNT], 1 and 20000
# if none are given. Prints what came up how often, and the smallest differences; ends with 1 where there is one.
set -euo pipefail
cd "$(dirname "$0")"
./build.sh
trials/target/release/differential "$@"
