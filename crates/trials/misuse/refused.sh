#!/bin/sh
# refused.sh BODY MESSAGE
# Gives a copy of the crate `trials` one more function with this body, and succeeds if the checker refuses it with this message.
set -eu
root=$(cd "$(dirname "$0")/../../.." && pwd)
copy=$(mktemp -d)
trap 'rm -rf "$copy"' EXIT
tar -C "$root" --exclude=out -cf - crates crates.txt | tar -C "$copy" -xf -
cd "$copy"
echo 'mod misuse;' >> crates/trials/src/lib.rt
cat > crates/trials/src/misuse.rt <<END
use bounds::problem::Bounds;
use register::working::Working;
use rows::row::Constraint;

fn misuse(row: Constraint) {
    let mut register = Working::new(Bounds);
    let _ = register.enter(row);
    $1
}
END
if (cd crates/trials && rt check) > log 2>&1; then
    echo "taken: $1"
    exit 1
fi
grep -F "$2" log
