#!/usr/bin/env bash
# A program that forgets a writing and its duty must not build, and the same program must run where it gives the
# writing up. It is tried in a copy of the crates, with a program `forgets` beside them, before any proof.
set -euo pipefail
cd "$(dirname "$0")/.."
copy=$(mktemp -d)
trap 'rm -rf "$copy"' EXIT
git ls-files crates crates.txt | tar -c -T - | tar -x -C "$copy"
below=$(sed -n 's/^writing: //p' crates.txt)
echo "forgets: $below writing" >> "$copy/crates.txt"
mkdir -p "$copy/crates/forgets/src"
cd "$copy/crates/forgets"

# a program that does something with what was opened
program_with() {
    cat > src/main.rt <<END
// Opens a writing.
#![tactic(auto)]

use checked::checked::Checked;
use writing::state::Writing;

fn opens(checked: Checked) -> bool {
    match Writing::open(checked, 8) {
        Ok((writing, duty)) => {
            $1
            true
        }
        Err(_) => false,
    }
}

fn main(rt: HostRuntime) {
    if let Ok(checked) = Checked::load(rt.alloc(), b"") {
        let _ = opens(checked);
    }
}
END
}

program_with 'let _ = writing.give_up(duty);'
if ! said=$(rt try 2>&1); then
    echo "forgotten: a writing that is given up does not build:" >&2
    echo "$said" >&2
    exit 1
fi
program_with '// forgotten'
if said=$(rt try 2>&1); then
    echo "forgotten: a writing that is forgotten builds" >&2
    exit 1
fi
for value in writing duty; do
    if ! grep -q "linear-value-let-go.: .$value. is let go" <<< "$said"; then
        echo "forgotten: it is not said that the $value was let go:" >&2
        echo "$said" >&2
        exit 1
    fi
done
echo "forgotten: a writing that is forgotten does not build"
