#!/bin/sh
# Builds the static library, the Rust crate over it, the command `vebrostin` and the examples into target/library. Needs rt, rustc and cc only.
set -e
cd "$(dirname "$0")/../.."
out=target/library
mkdir -p "$out"
mkdir -p target/staticlib
(cd crates/vebrostin_c && rt lib)
cp crates/vebrostin_c/out/libvebrostin_c.a target/staticlib/libvebrostin.a
# Each function begins at a line of 64 bytes, where there is an objcopy that can do this; else the library stays as rt wrote it, and does the same.
# On some processors a jump that crosses such a line takes longer, and where the linker puts a function would change a run's time by a third (docs/BENCHMARKS.md).
if objcopy --set-section-alignment '.text.*=64' target/staticlib/libvebrostin.a target/staticlib/aligned.a 2>/dev/null; then
    mv target/staticlib/aligned.a target/staticlib/libvebrostin.a
else
    rm -f target/staticlib/aligned.a
fi
rustc --edition 2021 -O --crate-type rlib --crate-name vebrostin rust/src/lib.rs -L target/staticlib -l static=vebrostin --out-dir "$out"
rustc --edition 2021 -O --crate-name vebrostin_command rust/src/bin/vebrostin/main.rs --extern vebrostin="$out/libvebrostin.rlib" -o "$out/vebrostin"
rustc --edition 2021 -O examples/fuel_per_mile.rs --extern vebrostin="$out/libvebrostin.rlib" -o "$out/fuel_per_mile_rust"
rustc --edition 2021 -O examples/terms.rs --extern vebrostin="$out/libvebrostin.rlib" -o "$out/terms"
cc -O2 -Wall -Wextra -Iinclude examples/fuel_per_mile.c target/staticlib/libvebrostin.a -lm -o "$out/fuel_per_mile_c"
echo "built: target/staticlib/libvebrostin.a, $out/libvebrostin.rlib, $out/vebrostin, $out/fuel_per_mile_c, $out/fuel_per_mile_rust, $out/terms"
