#!/bin/sh
# Makes each example again, runs `legs` on it and compares with what stands beside it, and so with the terms of derivatives. tools/legs/build.sh
# builds `legs` (LEGS names another program), and tools/library/build.sh the command that makes them.
set -e
cd "$(dirname "$0")/.."
mkdir -p target/examples
tools/library/runner.sh "${LEGS:-target/bin/legs}" target/examples/legs
legs=$(realpath target/examples/legs)
for text in examples/*.txt; do
    name=$(basename "$text" .txt)
    target/library/vebrostin pack "$text" "examples/$name.csv" "target/examples/$name" > target/examples/packed
    for file in formula.bin input counts.txt; do
        cmp "examples/$name/$file" "target/examples/$name/$file"
    done
    (cd "target/examples/$name" && "$legs" < input) | diff "examples/$name/output" -
done
# the two flights have no text to make them from
(cd examples/flights && "$legs" < input) | diff examples/flights/output -
examples/terms.sh
echo "examples agree"
