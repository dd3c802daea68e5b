#!/bin/sh
# Tests the command `vebrostin`: text and bytes back and forth on random trees, every message, random bytes as files (the tests of
# rust/src/bin/vebrostin), then each command on the examples and on odd files, beside tools/command/golden. WRITE=1 writes that anew.
set -e
cd "$(dirname "$0")/../.."
[ -n "$BUILT" ] || tools/library/build.sh
out=target/library
CARGO_MANIFEST_DIR=$PWD/rust rustc --edition 2021 -O --test --crate-name vebrostin_tests rust/src/bin/vebrostin/main.rs \
    --extern vebrostin="$out/libvebrostin.rlib" -o "$out/vebrostin_tests"
"$out/vebrostin_tests"

try=target/command
rm -rf "$try"
mkdir -p "$try/got"
tried=0
# ok NAME WORDS..: what the command prints, both ways, and its exit status are those of golden/NAME
ok() {
    label=$1
    shift
    status=0
    "$out/vebrostin" "$@" > "$try/stdout" 2> "$try/stderr" || status=$?
    { cat "$try/stdout"; echo "--- standard error"; cat "$try/stderr"; echo "--- exit status $status"; } > "$try/got/$label"
    [ -z "$WRITE" ] || cp "$try/got/$label" "tools/command/golden/$label"
    diff "tools/command/golden/$label" "$try/got/$label"
    tried=$((tried + 1))
}

ok help --help
ok nothing
ok unknown-option check examples/trip.txt --quick
ok unknown-command compile examples/trip.txt
ok no-value eval examples/trip.txt examples/trip.csv --by
ok no-file check examples/none.txt
ok folder-as-file check examples
for name in trip reserve alternate payload; do
    ok "check-$name" check "examples/$name.txt"
    ok "eval-$name" eval "examples/$name.txt" "examples/$name.csv"
    ok "pack-$name" pack "examples/$name.txt" "examples/$name.csv" "$try/$name"
    for file in formula.bin input counts.txt; do
        cmp "examples/$name/$file" "$try/$name/$file"
    done
    ok "show-$name" show "examples/$name"
    "$out/vebrostin" show "examples/$name" > "$try/$name.txt"
    "$out/vebrostin" pack "$try/$name.txt" "examples/$name.csv" "$try/again"
    cmp "examples/$name/formula.bin" "$try/again/formula.bin"
done > "$try/packed"
ok show-flights show examples/flights
ok eval-rates eval examples/trip.txt examples/trip.csv --by distance,wind,burn
ok eval-rates-reserve eval examples/reserve.txt examples/reserve.csv --by mass
ok eval-no-rate eval examples/reserve.txt examples/reserve.csv --by piston
ok eval-unknown-rate eval examples/trip.txt examples/trip.csv --by distanse

# lines of values that are not as they should be
printf '"wind","tas",distance,burn,climb\r\n0,200,400,300,90\r\n0,200,400,300\n0,2OO,400,300,90\n1e999,200,400,300,90\n\n -30 , 200,4e2, +300,90' > "$try/odd.csv"
printf 'climb,burn,distance,tas\n90,300,400,200\n' > "$try/short.csv"
printf 'climb,burn,distance,tas,wind,wnd\n' > "$try/extra.csv"
printf 'climb,burn,distance,tas,wind,wind\n' > "$try/twice.csv"
printf '90,300,400,200,0\n' > "$try/headless.csv"
ok eval-odd eval examples/trip.txt "$try/odd.csv" --by distance
for name in short extra twice headless; do
    ok "eval-$name" eval examples/trip.txt "$try/$name.csv"
done
ok pack-odd pack examples/trip.txt "$try/odd.csv" "$try/none"

# a question of each function (at places where every libm gives the same), a truth value, a formula without names
printf 'counts: all the questions, in no unit\nnames: a:p\nexp(a - 1) + log(a) + log10(100 * a) + sin(a - 1) + cos(a - 1) + tan(a - 1) + tanh(a - 1) + (4 * a) ^ 0.5 + hill(a, 2, 1)\n' > "$try/questions.txt"
printf 'a\n1\n0\n' > "$try/a.csv"
ok eval-questions eval "$try/questions.txt" "$try/a.csv"
printf 'counts: whether a is large\nnames: a:p\na > 0.5 and not a > 2\n' > "$try/truth.txt"
ok eval-truth eval "$try/truth.txt" "$try/a.csv"
ok eval-truth-rate eval "$try/truth.txt" "$try/a.csv" --by a
printf 'counts: a fixed quantity, in kg\nnames:\n1 / 3\n' > "$try/fixed.txt"
printf '\n\n\n' > "$try/fixed.csv"
ok eval-fixed eval "$try/fixed.txt" "$try/fixed.csv"
head -c 1000002 /dev/zero | tr '\0' '\n' > "$try/many.csv"
ok pack-many pack "$try/fixed.txt" "$try/many.csv" "$try/many"

# folders that operators may send
sent() {
    mkdir -p "$try/$1"
    printf "$2" > "$try/$1/formula.bin"
    printf "$3" > "$try/$1/input"
}
symbol='\2\0\0\0\0\0\0\0\0\0\0\0\0\0\0\0'
floor='\7\11\1\0\0\0\0\0\0\0\0\0\0\0\0\0'
mkdir -p "$try/empty-folder"
ok show-empty-folder show "$try/empty-folder"
sent empty '' ''
sent cut '\4\0\2\0\0' 'a:p\n'
sent kind '\11\0\0\0\0\0\0\0\0\0\0\0\0\0\0\0' 'a:p\n'
sent more "$symbol$symbol" 'a:p\n'
sent short '' 'a:p\n'
head -c 40 examples/trip/formula.bin > "$try/short/formula.bin"
sent spoilt '' 'a:p\n'
{ head -c 48 examples/trip/formula.bin; printf '\11'; tail -c +50 examples/trip/formula.bin; } > "$try/spoilt/formula.bin"
sent names "$symbol" 'A:p\n'
sent refused "$floor$symbol" 'a:i\n3ff0000000000000\nrubbish\n'
sent unnamed "$symbol" ''
sent escape "$symbol" 'a:p\n\033[31m\n'
printf 'fuel \033[31m\n' > "$try/escape/counts.txt"
printf 'no,answer,detail,steps\n1,ask,16:4069000000000000:4000000000000000,8\n2,ask,0:3ff0000000000000,8\n3,bad,3,0\n4,bad,5,0\n5,\033[31m\n0,refused,6:root,0\n0,refused,12:2,0\n0,refused,3:,0\ntotal,1,1,1,1\ntotal,1,1,1,1,1\n' > "$try/escape/output"
sent older "$symbol" 'a:p\n3ff0000000000000\n'
printf 'no,answer,detail,steps\n1,value,3ff0000000000000,1\n' > "$try/older/output"
{ printf '\7\13\0\1\0\0\0\0\0\0\0\0\0\0\0\0'; for i in $(seq 256); do printf "$symbol"; done; } > "$try/long"
sent large '' 'a:p\n'
sent deep '' 'a:p\n'
{ for i in $(seq 1100); do printf '\3\1\1\0\0\0\0\0\0\0\0\0\0\0\0\0'; done; printf "$symbol"; } > "$try/deep/formula.bin"
mv "$try/long" "$try/large/formula.bin"
for name in empty cut kind more short spoilt names refused unnamed escape older large deep; do
    ok "show-$name" show "$try/$name"
done

# pictures
ok plot-trip plot examples/trip.txt examples/trip.csv --over distance=100..900 --by distance -o "$try/trip.svg"
printf 'holding,piston,least,landing\n2400,0,900,60000\n' > "$try/reserve.csv"
ok plot-reserve plot examples/reserve.txt "$try/reserve.csv" --over mass=-20000..80000 --by mass -o "$try/reserve.svg"
ok plot-wind plot examples/trip.txt "$try/short.csv" --over wind=-300..100 -o "$try/wind.svg"
ok plot-range plot examples/trip.txt "$try/short.csv" --over wind=100..0 -o "$try/none.svg"
ok plot-unreadable plot examples/trip.txt "$try/short.csv" --over wind -o "$try/none.svg"
ok plot-no-values plot examples/trip.txt --over wind=0..1 -o "$try/none.svg"
ok plot-nowhere plot examples/trip.txt "$try/short.csv" --over wind=0..1 -o "$try/none/none.svg"
for name in trip reserve wind; do
    [ -z "$WRITE" ] || cp "$try/$name.svg" "tools/command/golden/$name.svg"
    cmp "tools/command/golden/$name.svg" "$try/$name.svg"
done
echo "$tried calls of the command agree"
