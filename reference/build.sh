#!/bin/sh
# Builds the oracle with rustc alone. OUT names the program to write.
set -e
out=${OUT:-/tmp/oracle/oracle}
mkdir -p "$(dirname "$out")"
exec rustc --edition 2021 -O --crate-name oracle -o "$out" "$(dirname "$0")/src/oracle.rs"
