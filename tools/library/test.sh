#!/bin/sh
# Tests the library through its interface: the worked flights by the Rust crate, the examples, what the records of derivatives say
# (tools/derivative), then 20,000 random formulas beside the reference, records among them (tools/compare).
set -e
cd "$(dirname "$0")/../.."
tools/library/build.sh
out=target/library
rustc --edition 2021 -O --test rust/tests/worked.rs --extern vebrostin="$out/libvebrostin.rlib" -o "$out/worked"
"$out/worked"
for language in c rust; do
    "$out/fuel_per_mile_$language" examples/trip 2 90 300 400 200 0 | grep -v asked > "$out/printed"
    printf 'fuel 690 kg\nfuel per mile 1.5 kg\n' | diff - "$out/printed"
done
examples/terms.sh
echo "examples agree"
PYTHONDONTWRITEBYTECODE=1 tools/derivative/records.py
tools/compare/run.sh 1 20000
