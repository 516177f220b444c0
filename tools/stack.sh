#!/bin/bash
# The smallest limit on the stack, in KiB, with which a program still ends and prints as without one:
#     tools/stack.sh PROGRAM [ARGUMENT..]
# The environment is left empty, since it stands on the stack too. Where the program does no more than print its help, the number
# says what its start takes.
set -uo pipefail

# Runs the program with a stack of so many KiB, or as it is where none is given; prints its status and what it wrote.
ended() {
    ( [ "$1" = as-it-is ] || ulimit -s "$1"; shift; exec env -i "$@" ) 2>/dev/null | cksum
    echo "${PIPESTATUS[0]}"
}

wanted=$(ended as-it-is "$@")
least=0
most=8192
while [ $((most - least)) -gt 1 ]; do
    middle=$(((least + most) / 2))
    if [ "$(ended "$middle" "$@")" = "$wanted" ]; then most=$middle; else least=$middle; fi
done
echo "$most KiB: $*"
