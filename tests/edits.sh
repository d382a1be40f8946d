#!/bin/sh
# Wrong bodies that the gate does not try: each of them costs a check of a crate that takes minutes, or says the same as one that it tries.
# tests/edits/CRATE/NAME.edit has the form of an edit in crates/CRATE/must-fail/.
#
# tests/edits.sh              looks whether each fits the code: its old text stands in its file exactly once. This is part of program.sh
# tests/edits.sh CRATE..      gives those of these crates to the prover, which is to refuse each, over a copy of the repository with what
#                             `rt ci` has proved on this machine. It takes minutes for each edit, and is no part of the gate

LC_ALL=C
export LC_ALL
top=$(cd "$(dirname "$0")/.." && pwd) || exit 1
cd "$top" || exit 1

# Whether the old text of an edit stands in its file exactly once.
fits() {
    file=$(sed -n 's/^file: //p' "$1")
    sed -n 's/^old: //p' "$1" >"$work/old"
    [ "$(wc -l <"$work/old")" -eq 1 ] && [ "$(sed -n 's/^new: //p' "$1" | wc -l)" -eq 1 ] || return 1
    [ "$(grep -cFf "$work/old" "crates/$2/$file")" -eq 1 ]
}

work=$(mktemp -d) || exit 1
trap 'rm -rf "$work"' EXIT
trap 'exit 1' HUP INT TERM
failed=0

if [ $# -eq 0 ]; then
    for edit in tests/edits/*/*.edit; do
        crate=$(basename "$(dirname "$edit")")
        fits "$edit" "$crate" || { echo "$edit does not fit" >&2; failed=1; }
    done
    exit "$failed"
fi

for crate; do
    [ -d "tests/edits/$crate" ] || { echo "tests/edits has none of $crate" >&2; exit 2; }
done
git ls-files -z crates crates.txt HANDLES | xargs -0 cp --parents -t "$work" || exit 1
rm -rf "$work"/crates/*/must-fail
for crate; do
    cp -r "tests/edits/$crate" "$work/crates/$crate/must-fail"
done
cd "$work" && rt ci "$@"
