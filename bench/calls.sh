#!/bin/sh
# The root of a file of 256 MiB through the static library of crates/ssz_c beside `ssz root`, in processor
# time of the whole programs, the least of ROUNDS in turn (9); the cost of a small call; and that of a part
# of nine million bytes, by themselves and by a slice of them. Needs both built (`rt lib`, `rt run`) and a C
# compiler: bench/calls.sh [ROUNDS].
set -eu
takes=numbers
. "$(dirname "$0")/words"
rounds=${1:-9}
cd "$(dirname "$0")/.."
out=$(mktemp -d)
trap 'rm -rf "$out"' EXIT
kit=$(dirname "$(rt doc)")
ssz=${BUILD:+$BUILD/ssz}
ssz=${ssz:-crates/ssz_cli/out/ssz_cli}
cc -std=gnu11 -O2 -Iinclude -o "$out/calls" bench/calls.c "${BUILD:-crates/ssz_c/out}/libssz_c.a" "$kit/c/liblibc_c.a"
printf '{"ssz":1,"types":[["L",{"list":["uint64",1099511627776]}]]}' >"$out/l.json"
head -c $((256 << 20)) /dev/urandom >"$out/l.ssz"

# Processor seconds of one run.
seconds() {
    { LC_ALL=C bash -c 'TIMEFORMAT="%U %S"; time "$@" >/dev/null' - "$@"; } 2>&1 | tail -1 | awk '{ print $1 + $2 }'
}

# The two take turns, and the least of each counts: other work, of the machine's other guests too, only adds.
for _ in $(seq "$rounds"); do
    seconds "$ssz" root "$out/l.json" L "$out/l.ssz" >>"$out/program"
    seconds "$out/calls" "$out/l.json" L "$out/l.ssz" >>"$out/library"
done
program=$(sort -n "$out/program" | head -1)
library=$(sort -n "$out/library" | head -1)
echo "ssz root: $program s"
echo "library:  $library s"
awk -v p="$program" -v l="$library" 'BEGIN { printf "the library beside ssz root: %+.1f %%\n", (l / p - 1) * 100 }'
echo "the call alone: $("$out/calls" "$out/l.json" L "$out/l.ssz")"
echo "a small call: $("$out/calls" "$out/l.json")"
# A list of a million containers with a truth value each, and a number of the last.
printf '{"ssz":1,"types":[["C",{"container":[["a","uint64"],["b","boolean"]]}],["M",{"list":["C",1048576]}]]}' >"$out/m.json"
head -c $((9 << 20)) /dev/zero >"$out/m.ssz"
"$out/calls" "$out/m.json" M "$out/m.ssz" /1048575/a
