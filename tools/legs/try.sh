#!/bin/sh
# Builds `legs` and the reference and compares them: try.sh [SEED [CASES]]. See compare.py.
set -e
here=$(cd "$(dirname "$0")" && pwd)
root=$here/../..
oracle=${ORACLE:-/tmp/oracle/oracle}
"$root/tools/legs/build.sh"
[ -x "$oracle" ] || OUT=$oracle "$root/reference/build.sh"
legs=$(mktemp)
trap 'rm -f "$legs"' EXIT
"$root/tools/library/runner.sh" "$root/target/bin/legs" "$legs"
python3 "$here/compare.py" "$legs" "$oracle" "${1:-1}" "${2:-1000}"
