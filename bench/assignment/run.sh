#!/usr/bin/env bash
# Times one call of assignment::balance::rebalance from C, outside of the gate: in a scratch repository, with a crate that exports it.
# usage: run.sh [FOLDER]   the scratch repository; a new temporary one if none is named, since stray crates in this repository fail the gate
set -eu
root=$(cd "$(dirname "$0")/../.." && pwd)
out=${1:-$(mktemp -d)}
mkdir -p "$out/crates/assignment_c/src"
for crate in fault flow assignment; do
    mkdir -p "$out/crates/$crate"
    cp -r "$root/crates/$crate/src" "$root/crates/$crate/specs" "$out/crates/$crate/"
    if [ -d "$root/crates/$crate/proofs" ]; then cp -r "$root/crates/$crate/proofs" "$out/crates/$crate/"; fi
done
printf 'fault:\nflow: fault\nassignment: fault flow\nassignment_c staticlib: fault flow assignment\n' > "$out/crates.txt"
cat > "$out/crates/assignment_c/src/lib.rt" <<'RT'
// For C to link.
#![tactic(auto)]

use assignment::balance::rebalance;

#[unsafe(no_mangle)]
pub extern "C" fn rebalance_c(assignment: &mut [u16], servers: &[u8]) -> u8 {
    match rebalance(assignment, servers) {
        Ok(()) => 0,
        Err(fault) => u8::from(fault),
    }
}
RT
cd "$out"
git init -q .
(cd crates/assignment_c && rt lib)
cc -O2 -o main "$root/bench/assignment/main.c" crates/assignment_c/out/libassignment_c.a
./main
