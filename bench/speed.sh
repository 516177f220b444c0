#!/usr/bin/env bash
# Prints the tables of docs/SPEED.md: time, instructions and memory of the library, the interpreter in plain Rust and
# code written by hand. Takes some minutes, and wants valgrind and a machine that does nothing else, for the times.
set -euo pipefail
cd "$(dirname "$0")"
./build.sh
machine=$(sed -n 's/^model name\s*: //p' /proc/cpuinfo | head -n 1)
echo "$(rt version), $(rustc --version), $(valgrind --version), $machine, $(nproc) cores"
trials/target/release/speed
