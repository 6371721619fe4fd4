#!/bin/sh
# examples/foreign.sh
#
# Builds the static library and the examples of C, Python and Rust, runs each over the same inputs as the
# program `ssz`, and compares what they print, of sessions beside `ssz run` too. Each part is asked of a slice
# as well, and sessions stand on a schema that was read.
#
# The examples of C that test themselves are run as they are, built with the address and the undefined-behaviour
# sanitizer, and under valgrind: statuses.c and typed.c lead each call to its statuses, pointers.c and empty.cpp
# pass what may be null, handles.c moves handles and forks, and memory.c refuses each allocation in turn. state.c
# edits a state, whose root and bytes are compared, and threads.c asks in eight threads.
#
# The doors of Python, Rust and C are driven by hostile/doors.py with 20,000 drawn rounds beside the program.
#
# It needs the kit that README names, and says what it left out for want of a compiler, an interpreter or valgrind.
# The last line is 'N compared, M differ'.
set -eu
usage() {
    sed -n '2,/^set -eu/s/^# \{0,1\}//p' "$0"
}
case ${1-} in
'') ;;
-h | --help) usage; exit 0 ;;
*) usage >&2; exit 2 ;;
esac
cd "$(dirname "$0")/.."
out=$(mktemp -d)
trap 'rm -rf "$out"' EXIT
kit=$(dirname "$(rt doc)")

(cd crates/ssz_c && rt lib >"$out/log" 2>&1) || { tail "$out/log"; exit 1; }
ssz=crates/ssz_cli/out/ssz_cli
[ -x "$ssz" ] || (cd crates/ssz_cli && rt run -- root data/pair.json P data/zero16.bin) >"$out/log" 2>&1 ||
    { tail "$out/log"; exit 1; }
library="crates/ssz_c/out/libssz_c.a $kit/c/liblibc_c.a"
compared=0
differ=0

# NAME TO COMPILER FLAG ..: builds examples/c/NAME as TO.
build() {
    example=examples/c/$1 to=$2
    shift 2
    "$@" -Wall -Wextra -Iinclude -o "$to" "$example" $library
}

# WHAT COMMAND ..: an example that tests itself finds all as it should be.
holds() {
    what=$1
    shift
    compared=$((compared + 1))
    if "$@" >"$out/said" 2>&1; then
        echo "$what: $(tail -n 1 "$out/said")"
    else
        differ=$((differ + 1))
        echo "$what differs:"
        cat "$out/said"
    fi
}

# COMPILER ..: the first one whose programs run with both sanitizers, or nothing.
sanitized='-g -O1 -fsanitize=address,undefined -fno-sanitize-recover=all'
sanitizing() {
    echo 'int main(void) { return 0; }' >"$out/none.c"
    for one in "$@"; do
        command -v "$one" >/dev/null || continue
        "$one" $sanitized -o "$out/none" "$out/none.c" 2>/dev/null && "$out/none" 2>/dev/null || continue
        echo "$one"
        return
    done
}

refusing='-Wl,--wrap=malloc,--wrap=realloc'
# The examples of C that test themselves: as they are, with sanitizers, and under valgrind.
self_tests_of_c() {
    watched='valgrind -q --leak-check=full --error-exitcode=9'
    command -v valgrind >/dev/null || { watched=; echo "left out: valgrind"; }
    sanitizer=$(sanitizing cc gcc clang)
    [ "$sanitizer" ] || echo "left out: sanitizers for C (no compiler has them)"
    for name in statuses typed pointers handles memory; do
        more=
        [ "$name" != memory ] || more=$refusing
        build "$name.c" "$out/$name" cc -std=c11 -O2 $more
        holds "$name.c" $watched "$out/$name"
        [ "$sanitizer" ] || continue
        build "$name.c" "$out/$name.sanitized" "$sanitizer" -std=c11 $sanitized $more
        holds "$name.c, sanitized" "$out/$name.sanitized"
    done
}

# The one of C++, by each compiler and standard.
self_tests_of_cpp() {
    found=
    for compiler in c++ clang++; do
        command -v "$compiler" >/dev/null || continue
        found=yes
        for standard in c++11 c++17; do
            build empty.cpp "$out/empty" "$compiler" -std=$standard -O2
            holds "empty.cpp, $compiler -std=$standard" "$out/empty"
        done
    done
    [ "$found" ] || echo "left out: c++ (no compiler)"
    sanitizer=$(sanitizing c++ g++ clang++)
    [ "$sanitizer" ] || { echo "left out: sanitizers for C++ (no compiler has them)"; return; }
    build empty.cpp "$out/empty.sanitized" "$sanitizer" -std=c++11 $sanitized
    holds "empty.cpp, sanitized" "$out/empty.sanitized"
}

# What each language runs, or nothing.
ways=
if command -v cc >/dev/null; then
    build example.c "$out/c" cc -std=c11 -O2
    build state.c "$out/state_c" cc -std=c11 -O2
    build threads.c "$out/threads" cc -std=c11 -O2 -pthread
    self_tests_of_c
    self_tests_of_cpp
    ways="$ways c"
    if command -v python3 >/dev/null; then
        cc -shared -o "$out/libssz_c.so" -Wl,--whole-archive $library -Wl,--no-whole-archive
        ways="$ways python"
    else
        echo "left out: python (no python3)"
    fi
    if command -v rustc >/dev/null; then
        rustc --edition 2024 -O -o "$out/rust" examples/rust/example.rs \
            -C link-arg=crates/ssz_c/out/libssz_c.a -C link-arg="$kit/c/liblibc_c.a"
        ways="$ways rust"
    else
        echo "left out: rust (no rustc)"
    fi
else
    echo "left out: c, python, rust (no cc)"
fi

run() {
    case $1 in
    c) shift && "$out/c" "$@" ;;
    python) shift && PYTHONDONTWRITEBYTECODE=1 python3 examples/python/example.py "$out/libssz_c.so" "$@" ;;
    rust) shift && "$out/rust" "$@" ;;
    esac
}

# The same four lines by the program: the root, the index, the part and the verdict.
by_program() {
    "$ssz" root "$1" "$2" "$3" >"$out/root" || { cat "$out/root"; return; }
    cat "$out/root"
    echo "gindex $2 $4" >"$out/script"
    "$ssz" run "$1" "$out/script" >"$out/index" ||
        { sed 's/^refused 1/refused 0/' "$out/index"; return; }
    cat "$out/index"
    "$ssz" part "$1" "$2" "$3" "$4" || return 0
    "$ssz" verify "$(cut -d' ' -f2 "$out/root")" "$5" || true
}

# WORDS: each way prints of them what is wanted.
each_way() {
    for way in $ways; do
        run "$way" "$@" >"$out/said" 2>&1 || true
        compared=$((compared + 1))
        cmp -s "$out/wanted" "$out/said" && continue
        differ=$((differ + 1))
        echo "$way differs on $*"
        diff "$out/wanted" "$out/said" || true
    done
}

# SCHEMA TYPE FILE PATH: the proof is that of the part, where there is one.
compare() {
    printf 'load V %s %s\nprove V %s\n' "$2" "$3" "$4" >"$out/script"
    "$ssz" run "$1" "$out/script" | sed -n 2p >"$out/proof" || true
    by_program "$1" "$2" "$3" "$4" "$out/proof" >"$out/wanted" 2>&1
    each_way "$1" "$2" "$3" "$4" "$out/proof"
}

# SCHEMA: the lines of the script that comes in, by a session and by `ssz run`.
compare_lines() {
    cat >"$out/lines"
    "$ssz" run "$1" "$out/lines" >"$out/wanted" 2>&1 || true
    each_way "$1" "$out/lines"
}

# SCHEMA: each way prints the names that come in and those that are built in, in byte order.
compare_names() {
    { cat; printf '%s\n' boolean byte uint8 uint16 uint32 uint64 uint128 uint256; } | LC_ALL=C sort >"$out/wanted"
    each_way "$1"
}

# So many bytes of this value, an octal number.
bytes() {
    head -c "$1" /dev/zero | tr '\0' "\\$2"
}

printf '%s' '{"ssz":1,"types":[["P",{"container":[["a","uint64"],["b","uint64"]]}]]}' >"$out/pair.json"
printf '%s' '{"ssz":1,"types":[["M",{"container":[["a","uint16"],["b",{"list":["uint8",4]}]]}]]}' >"$out/m.json"
printf '\252\273\006\000\000\000\001\002' >"$out/m.ssz"
bytes 16 000 >"$out/16"
bytes 15 000 >"$out/15"
bytes 17 000 >"$out/17"
compare "$out/pair.json" P "$out/16" /a
compare "$out/pair.json" P "$out/15" /a
compare "$out/pair.json" P "$out/17" /b
compare "$out/pair.json" Q "$out/16" /a
compare "$out/pair.json" P "$out/16" /c
compare "$out/m.json" M "$out/m.ssz" /b
compare "$out/m.json" M "$out/m.ssz" '/b/#len'
compare "$out/m.json" M "$out/m.ssz" /b/1
compare "$out/m.json" M "$out/m.ssz" /b/2
compare "$out/16" P "$out/16" /a
deneb=examples/ethereum/deneb.json
bytes 16 001 >"$out/fork"
bytes 40 002 >"$out/checkpoint"
bytes 112 003 >"$out/header"
bytes 121 000 >"$out/validator"
bytes 128 004 >"$out/attestation"
compare "$deneb" Fork "$out/fork" /current_version
compare "$deneb" Checkpoint "$out/checkpoint" /root
compare "$deneb" BeaconBlockHeader "$out/header" /state_root
compare "$deneb" Validator "$out/validator" /slashed
compare "$deneb" AttestationData "$out/attestation" /target/epoch
printf 'new S BeaconState\nset S /slot 0x4000000000000000\nsave S %s\n' "$out/state" >"$out/script"
"$ssz" run "$deneb" "$out/script" >"$out/log" || cat "$out/log"
compare "$deneb" BeaconState "$out/state" /slot
compare "$deneb" BeaconState "$out/state" /finalized_checkpoint/root
compare "$deneb" BeaconState "$out/state" '/validators/#len'
compare "$deneb" BeaconState "$out/state" /validators/7/slashed
compare "$deneb" BeaconState "$out/state" /justification_bits/1

echo M | compare_names "$out/m.json"
sed -n 's/^\["\([A-Za-z0-9_]*\)".*/\1/p' "$deneb" | compare_names "$deneb"
echo 'schema S1' >"$out/wanted"
each_way "$out/16"

# A state of 5 balances, of which the bytes change as state.c says: what it writes has the root that it says.
if [ -x "$out/state_c" ]; then
    {
        echo 'new S BeaconState'
        for balance in 01 02 03 04 05; do echo "append S /balances 0x000000${balance}00000000"; done
        echo "save S $out/before"
        echo 'set S /balances 0x00000000000000000000000300000000000000020000000000000005000000000000000400000000'
        echo "save S $out/after"
        echo 'root S'
    } >"$out/script"
    "$ssz" run "$deneb" "$out/script" | sed -n 's/^root 0x//p' >"$out/wanted"
    "$out/state_c" "$deneb" "$out/before" "$out/written" | tail -1 >"$out/said" || true
    compared=$((compared + 2))
    cmp -s "$out/wanted" "$out/said" || { differ=$((differ + 1)); echo "state.c says another root"; }
    cmp -s "$out/after" "$out/written" || { differ=$((differ + 1)); echo "state.c writes other bytes"; }
fi

# Eight threads, each with a handle of its own: no call is refused, no root differs, nothing is read while it is written.
if [ -x "$out/threads" ]; then
    echo '48008 asked, 0 refused, 0 differ' >"$out/wanted"
    watched=
    command -v valgrind >/dev/null && watched='valgrind -q --tool=helgrind --error-exitcode=9'
    $watched "$out/threads" "$deneb" Checkpoint >"$out/said" 2>&1 || true
    compared=$((compared + 1))
    cmp -s "$out/wanted" "$out/said" || { differ=$((differ + 1)); echo "threads.c says otherwise"; cat "$out/said"; }
fi

compare_lines "$out/m.json" <<'LINES'
# a version, edits, and what is shown of it
new V M
new V M

  lit W M 0xaabb060000000102
lit X M 0xaabb
set W /a 0x0100
append W /b 0x09
append W /b 0x09
append W /b 0x09
pop V /b
fork W U
root W
root U
bytes W /b
json W /
len W /b
len W /a
set W /c 0x00
gindex M /b/#len
prove W /a
prove W 4 3
hashes
compact
list
drop W
list
nothing of the grammar
LINES
compare_lines "$deneb" <<'LINES'
new S BeaconState
root S
set S /slot 0x4000000000000000
set S /finalized_checkpoint/epoch 0x0200000000000000
append S /balances 0x0040597307000000
append S /validators 0x00
root S
prove S /finalized_checkpoint/root
prove S /slot
len S /balances
bytes S /fork
hashes
LINES
compare_lines "$out/16" <<'LINES'
list
LINES

# TO: an installation of what was built here: the program, the header, and the library as an archive and shared.
installed() {
    mkdir -p "$1/bin" "$1/include" "$1/lib"
    cp "$ssz" "$1/bin/ssz"
    cp include/ssz.h "$1/include/ssz.h"
    {
        echo "CREATE $1/lib/libssz.a"
        for archive in $library; do echo "ADDLIB $archive"; done
        printf 'SAVE\nEND\n'
    } | ar -M
    cc -shared -o "$1/lib/libssz.so.0" -Wl,--whole-archive $library -Wl,--no-whole-archive
}

# Python, Rust and C beside the program: each round is one that is compared.
doors() {
    for one in cc ar python3 cargo; do
        command -v $one >/dev/null || { echo "left out: the doors (no $one)"; return; }
    done
    installed "$out/installed"
    python3 hostile/doors.py --prefix "$out/installed" --rounds 20000 >"$out/said" || true
    cat "$out/said"
    rounds=$(sed -n '$s/^\([0-9]*\) rounds, .*/\1/p' "$out/said")
    wrong=$(sed -n '$s/.* rounds, \([0-9]*\) differ$/\1/p' "$out/said")
    compared=$((compared + ${rounds:-0}))
    # That no round was run is a difference, too.
    [ "${rounds:-0}" -gt 0 ] || wrong=1
    differ=$((differ + ${wrong:-1}))
}
doors

echo "$compared compared, $differ differ"
[ "$differ" -eq 0 ] && [ "$compared" -gt 0 ]
