#!/bin/sh
# Compares the library with the Rust reference on random and damaged formulas: run.sh SEED COUNT. Needs rt, rustc and cc only.
# Where target/bin/legs is there (tools/legs/build.sh), its output is compared too; LEGS names another program.
set -e
cd "$(dirname "$0")/../.."
[ $# -eq 2 ] || { echo "usage: $0 SEED COUNT" >&2; exit 2; }
out=target/library
[ -n "$BUILT" ] || tools/library/build.sh > /dev/null
rustc --edition 2021 -O tools/compare/main.rs --extern vebrostin="$out/libvebrostin.rlib" -o "$out/compare"
legs=${LEGS:-target/bin/legs}
[ -x "$legs" ] || exec "$out/compare" "$1" "$2"
tools/library/runner.sh "$legs" "$out/legs"
exec "$out/compare" "$1" "$2" "$out/legs"
