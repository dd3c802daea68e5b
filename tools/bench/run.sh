#!/bin/sh
# Times compile, derive, run and legs beside the Rust reference on the same inputs, in one run, as tables. Needs rt, rustc, cc.
# legs is target/bin/legs (tools/legs/build.sh), or what LEGS names; without it there is no table of lines a second. Where BEFORE names
# another build of legs, only the two builds are timed, side by side. Where DERIVE_BEFORE names a libvebrostin.a from before there were
# records, only derive of that build and of this one is timed, side by side.
set -e
cd "$(dirname "$0")/../.."
out=target/library
[ -n "$BUILT" ] || tools/library/build.sh > /dev/null
if [ -n "$DERIVE_BEFORE" ]; then
    rustc --edition 2021 -O tools/bench/derive.rs -o "$out/bench_derive"
    shared() { cc -shared -o "$2" -Wl,--whole-archive "$1" -Wl,--no-whole-archive -lm; }
    shared "$DERIVE_BEFORE" "$out/derive_before.so"
    shared target/staticlib/libvebrostin.a "$out/derive_after.so"
    echo "$(date +%F), $(grep -m1 'model name' /proc/cpuinfo | cut -d: -f2 | sed 's/^ *//'), $(nproc) cores, load $(cut -d' ' -f1 /proc/loadavg)"
    exec "$out/bench_derive" "$(realpath "$out/derive_before.so")" "$(realpath "$out/derive_after.so")"
fi
rustc --edition 2021 -O tools/bench/main.rs --extern vebrostin="$out/libvebrostin.rlib" -o "$out/bench"
rustc --edition 2021 -O tools/bench/legs_reference.rs -o "$out/legs_reference"
rustc --edition 2021 -O tools/bench/reader.rs --extern vebrostin="$out/libvebrostin.rlib" -o "$out/reader"
legs=${LEGS:-target/bin/legs}
echo "$(date +%F), $(grep -m1 'model name' /proc/cpuinfo | cut -d: -f2 | sed 's/^ *//'), $(nproc) cores, load $(cut -d' ' -f1 /proc/loadavg), $(rustc --version)"
[ -n "$BEFORE" ] || "$out/reader"
[ -x "$legs" ] || exec "$out/bench"
tools/library/runner.sh "$legs" "$out/legs"
if [ -n "$BEFORE" ]; then
    tools/library/runner.sh "$BEFORE" "$out/legs_before"
    exec "$out/bench" builds "$out/legs_before" "$out/legs"
fi
# legs is started by a script, which names its C library; so the reference is too
printf '#!/bin/sh\nexec %s\n' "$(realpath "$out/legs_reference")" > "$out/reference"
chmod +x "$out/reference"
exec "$out/bench" "$out/legs" "$out/reference"
