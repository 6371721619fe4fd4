#!/bin/sh
# Runs the scripts whose figures stand in bench/README.md one after the other, and puts what each prints into FOLDER, one
# file a script. Run it on an idle machine after 'rt run' in crates/ssz_cli and in crates/bench and 'rt lib' in
# crates/ssz_c, or with BUILD=FOLDER of ./build-v3: bench/figures.sh FOLDER [SCRIPT..].
# It takes half an hour for all of them; a script that fails is said, and the others go on.
set -eu
takes=any
. "$(dirname "$0")/words"
[ $# -ge 1 ] || { sed -n '2,6s/^# \{0,1\}//p' "$0"; exit 2; }
mkdir -p "$1"
to=$(cd "$1" && pwd)
shift
here=$(cd "$(dirname "$0")" && pwd)
[ $# -gt 0 ] || set -- table codec reading views json tree prove slices edit_work edit_time scripts statements work compact partial versions weave \
    proofs schema arena scale calls "sessions work 2000 1" "sessions time 100000 3"
failed=0 done=0
for job; do
    done=$((done + 1))
    echo "$done of $#: $job" >&2
    out="$to/$(echo "$job" | tr ' ' _).txt"
    # The words of a job are its script and what it is given.
    # shellcheck disable=SC2086
    measured() { script=$1; shift; "$here/$script.sh" "$@"; }
    # shellcheck disable=SC2086
    measured $job >"$out" 2>&1 || { echo "$job: failed, see $out" >&2; failed=$((failed + 1)); }
done
echo "$((done - failed)) ended, $failed failed" >&2
[ "$failed" = 0 ]
