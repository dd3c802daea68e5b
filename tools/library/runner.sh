#!/bin/sh
# Writes a script that runs a proved program with the toolchain's own C library: runner.sh PROGRAM SCRIPT.
# The programs ask for a newer glibc than many systems have.
set -e
program=$(realpath "$1")
lib=$(dirname "$(rt doc)")/toolchain/lib
printf '#!/bin/sh\nexec %s/ld-linux-x86-64.so.2 --library-path %s %s\n' "$lib" "$lib" "$program" > "$2"
chmod +x "$2"
