#!/bin/sh
# Shows that the compiler refuses an edit of an arena while a view of it lives. Prints what it says
# of edit_under_view.txt, in a copy of the repository, and ends with status 0 exactly where that is
# what edit_under_view.said has, and where the same program without the edit is compiled and run.
set -eu
case ${1-} in -h | --help) sed -n '2,4s/^# \{0,1\}//p' "$0"; exit 0 ;; esac
[ $# = 0 ] || { echo "$0: no word $1" >&2; exit 2; }
here=$(cd "$(dirname "$0")" && pwd)
folder=$(mktemp -d)
trap 'rm -rf "$folder"' EXIT
tar -C "$here/../.." --exclude=out -cf - crates crates.txt HANDLES | tar -C "$folder" -xf -
echo "refused: anyhow ssz_chunk ssz_schema ssz_arena ssz_views" >> "$folder/crates.txt"
mkdir -p "$folder/crates/refused/src"
cd "$folder/crates/refused"

cp "$here/edit_under_view.txt" src/main.rt
rt try > said 2>&1 || true
grep -v '^$' said
grep -v '^$' said | cmp - "$here/edit_under_view.said"

grep -v 'arena.leaf' "$here/edit_under_view.txt" > src/main.rt
rt try > said 2>&1 || true
grep -q '^Error: no such type' said
echo "without the edit it runs"
