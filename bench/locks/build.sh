#!/bin/sh
# Builds the four programs that measure.py runs, into out/ beside it. The two that take cells of the lock table are the
# crate of crate.diff in a copy of the repository (a crate of its own would prove its eleven cells at each gate), which
# proves what it stands on first: lock_table_called as the crate stands, lock_table without the line `#[inline(never)]`
# over take_once, so that a round is inlined into its loop.
set -e
here=$(cd "$(dirname "$0")" && pwd)
copy=$(mktemp -d)
trap 'rm -rf "$copy"' EXIT
mkdir -p "$here/out"
rustc -O --edition 2024 -o "$here/out/atomics" "$here/atomics.rs"
rustc -O --edition 2024 -o "$here/out/atomics_token" "$here/atomics_token.rs"
(cd "$here/../.." && git ls-files crates crates.txt HANDLES | tar cf - -T -) | tar xf - -C "$copy"
cd "$copy"
git apply "$here/crate.diff"
build() { (cd crates/lock_bench && rt run -- 10 1 >&2) && cp crates/lock_bench/out/lock_bench "$here/out/$1"; }
build lock_table_called
sed -i '/^#\[inline(never)\]$/d' crates/lock_bench/src/main.rt
build lock_table
