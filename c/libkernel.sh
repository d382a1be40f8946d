#!/bin/sh
# Makes crates/kernel_c/out/libkernel_c.a, the kernel for C, out of proved code.
#
# `rt ci` proves every crate from nothing, and leaves the libraries that other crates use in crates/*/out/rlib, but it need not leave a
# library for C. Over those libraries kernel_c alone is proved once more here (a minute) and compiled; where it is not proved,
# nothing is made. Nothing is done where the library is there and no source of a crate that it stands on is newer. JOBS is how many
# processes prove at once.
#
# Status 1: there is no library of these sources, and the last line of the error stream says why.
set -eu

crate=kernel_c
CDPATH='' cd -- "$(dirname -- "$0")/.."
top=$(pwd -P)
out=crates/$crate/out
made=$out/lib$crate.a

fail() {
    echo "libkernel.sh: $*" >&2
    exit 1
}

# What crates.txt says of the crate: `below`, every crate of the repository that it stands on, each after those that it uses; `own` and
# `kit`, what its own line names, of the repository and of the kit.
uses() {
    awk -v of="$crate" '
        function walk(name,    count, at, found) {
            count = split(uses[name], found)
            for (at = 1; at <= count; at++)
                if (found[at] in uses && !(found[at] in seen)) {
                    seen[found[at]] = 1
                    walk(found[at])
                    print "below", found[at]
                }
        }
        { sub(/#.*/, ""); gsub(/,/, " ") }
        NF {
            colon = index($0 ":", ":")
            split(substr($0, 1, colon - 1), left)
            uses[left[1]] = substr($0, colon + 1)
        }
        END {
            if (!(of in uses)) exit 1
            walk(of)
            count = split(uses[of], named)
            for (at = 1; at <= count; at++) print (named[at] in uses ? "own" : "kit"), named[at]
        }' crates.txt
}

of_kind() {
    echo "$used" | awk -v kind="$1" '$1 == kind { print $2 }'
}

# Whether a source of a crate is newer than a file.
is_newer() {
    for part in src specs proofs; do
        if [ -d "crates/$1/$part" ]; then find "crates/$1/$part" -newer "$2"; fi
    done | grep . >/dev/null
}

used=$(uses) || fail "crates.txt has no line of $crate"
below=$(of_kind below)

is_made=yes
for it in $below $crate; do
    if [ ! -f "$made" ] || is_newer "$it" "$made"; then is_made=no; fi
done
if [ $is_made = yes ]; then exit 0; fi

missing='' old=''
for it in $below; do
    if [ ! -d "crates/$it/out/rlib/$it.rlib" ]; then missing="$missing $it"
    elif is_newer "$it" "crates/$it/out/rlib/$it.rlib"; then old="$old $it"
    fi
done
if [ -n "$missing" ]; then fail "run .ci/run (or rt ci) first: there is no library yet of$missing"; fi
if [ -n "$old" ]; then fail "run .ci/run (or rt ci) first: the sources are newer than the library of$old"; fi

kit=$(dirname -- "$(rt doc | awk 'NR == 1 { print $1 }')")
if [ ! -x "$kit/bin/rattle" ]; then fail "\`rt doc\` names no kit"; fi
jobs=${JOBS:-2}

set -- build --crate-name "$crate" src/lib.rt --crate-type staticlib --backend llvm
for it in std $(of_kind kit); do set -- "$@" --extern "$it=$kit/rlibs/$it.rlib"; done
set -- "$@" -L "dependency=$kit/rlibs"
for it in $(of_kind own); do set -- "$@" --extern "$it=$top/crates/$it/out/rlib/$it.rlib"; done
for it in $below; do set -- "$@" -L "dependency=$top/crates/$it/out/rlib"; done
set -- "$@" --antt-project "$kit/rattle/logic/antt-project.json" --logic-built "$kit/logic_built" --links "$crate="
set -- "$@" --jobs "$jobs" --toolchain "$kit/toolchain" -o "out/lib$crate.a"

mkdir -p "$out"
said=$out/lib$crate.log
: >"$out/start"
echo "libkernel.sh: proving $crate over the libraries that are there, and compiling it: a minute"
status=0
(cd "crates/$crate" && exec "$kit/bin/rattle" "$@") >"$said" 2>&1 </dev/null || status=$?
if [ $status -ne 0 ]; then
    rm -f "$out/start"
    tail -n 20 "$said" >&2
    if grep 'Run the lower steps again' "$said" >/dev/null; then
        fail "the libraries below are not of one run: remove crates/*/out/rlib, and run .ci/run (or rt ci)"
    fi
    fail "$crate was not built: all that was said is in $said"
fi
# what was written while it ran is newer than the library
touch -r "$out/start" "$made"
rm -f "$out/start"
echo "libkernel.sh: $made: $(grep '^logic=proved ' "$said" | tail -n 1)"
