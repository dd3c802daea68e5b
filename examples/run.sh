#!/bin/sh
# Builds `legs` and runs it on an example: examples/run.sh [flights|trip|reserve|alternate|payload]
# Builds the library and shows where each term of a derivative came from: examples/run.sh terms [trip distance|payload fuel 3|..]
set -e
cd "$(dirname "$0")/.."
name=${1:-flights}
if [ "$name" = terms ]; then
    shift
    [ $# -gt 0 ] || set -- trip distance
    tools/library/build.sh > /dev/null
    folder=examples/$1
    shift
    exec target/library/terms "$folder" "$@"
fi
if [ ! -f "examples/$name/formula.bin" ]; then
    echo "no example '$name'; there are: $(cd examples && echo */formula.bin | sed 's,/formula.bin,,g')" >&2
    exit 2
fi
mkdir -p target/examples
tools/legs/build.sh
tools/library/runner.sh target/bin/legs target/examples/legs
legs=$(realpath target/examples/legs)
cd "examples/$name"
exec "$legs" < input
