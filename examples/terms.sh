#!/bin/sh
# Compares what `terms` prints with what stands beside the formulas: FOLDER/terms.NAME, or FOLDER/terms.NAME.NODE for a part.
# tools/library/build.sh builds it; TERMS names another build.
set -e
cd "$(dirname "$0")/.."
for file in examples/*/terms.*; do
    words=$(echo "${file##*/terms.}" | tr . ' ')
    # shellcheck disable=SC2086 # a name and maybe a node
    "${TERMS:-target/library/terms}" "$(dirname "$file")" $words | diff "$file" -
done
