#!/bin/sh
# Runs the commands of examples.txt and compares the answers with the lines that start with '>'.
cd "$(dirname "$0")" || exit 2
answers=$(grep -v '^[#>]' examples.txt | "${ORACLE:-/tmp/oracle/oracle}" | sed 's/^/> /')
if [ "$answers" = "$(grep '^>' examples.txt)" ]; then
    echo "examples agree"
else
    echo "examples differ"
    exit 1
fi
