#!/bin/sh
# Proves and builds `legs` as target/bin/legs. Needs rt only.
set -e
cd "$(dirname "$0")/../.."
mkdir -p target/bin
log=target/legs.log
# `rt run` says so where it has proved and built the program and runs it, here on no input. How that run ends is no matter: where the system's
# C library is older than the toolchain's, the program does not start without tools/library/runner.sh.
(cd crates/legs && rt run < /dev/null) > "$log" 2>&1 || true
if ! grep -q '^rt: running out/legs' "$log"; then
    tail -n 20 "$log" >&2
    echo "legs could not be built; $log has it all" >&2
    exit 1
fi
cp crates/legs/out/legs target/bin/legs
