#!/bin/sh
# Makes of what .ci/run built a Debian package and a tar file for who wants to use this, and not to prove it.
#
# usage: package.sh [-o FOLDER]
#
# In FOLDER, out without it, go weldozig_VERSION_ARCHITECTURE.deb, where there is dpkg-deb, and weldozig-VERSION-ARCHITECTURE.tar.gz, which
# may be unpacked anywhere: doord finds its library, and pkg-config its folders, from where they lie. Their names are written to the output.
# The same commit and programs make the same bytes. share/doc/weldozig/PROVED in it says what is proved.
#
# DOORS, DOORLAB and LIBKERNEL name other programs and another library of the kernel than the gate's, as tests do; then the package
# says that it is not proved.
#
# Status 1: something was not built, or is older than its sources, and a line on the error stream says what. 2: the words are wrong.
set -eu

fail() {
    echo "package.sh: $*" >&2
    exit 1
}

usage() {
    echo "usage: package.sh [-o FOLDER]" >&2
    exit 2
}

folder=out
while [ $# -gt 0 ]; do
    case $1 in
    -o)
        if [ $# -lt 2 ] || [ -z "$2" ]; then usage; fi
        folder=$2
        shift 2
        ;;
    *) usage ;;
    esac
done

LC_ALL=C
export LC_ALL
umask 022
case $folder in
/*) ;;
*) folder=$PWD/$folder ;;
esac
: "${DOORS:=}" "${DOORLAB:=}" "${LIBKERNEL:=}"
for it in "$DOORS" "$DOORLAB" "$LIBKERNEL"; do
    case $it in
    "" | /*) ;;
    *) fail "$it: a name that begins with a slash is wanted" ;;
    esac
done
CDPATH='' cd -- "$(dirname -- "$0")"
doors=${DOORS:-crates/doors/out/doors}
doorlab=${DOORLAB:-crates/doorlab/out/doorlab}
libkernel=${LIBKERNEL:-crates/kernel_c/out/libkernel_c.a}

# what there has to be

# below CRATE: it and every crate of the repository that it stands on, as crates.txt says.
below() {
    awk -v of="$1" '
        function walk(name,    count, at, found) {
            if (name in seen) return
            seen[name] = 1
            print name
            count = split(uses[name], found)
            for (at = 1; at <= count; at++) if (found[at] in uses) walk(found[at])
        }
        { sub(/#.*/, ""); gsub(/,/, " ") }
        NF {
            colon = index($0 ":", ":")
            split(substr($0, 1, colon - 1), left)
            uses[left[1]] = substr($0, colon + 1)
        }
        END { walk(of) }' crates.txt
}

# fresh FILE WHAT-MAKES-IT SOURCE ..: it is there, and no source is newer.
fresh() {
    file=$1
    made_by=$2
    shift 2
    [ -f "$file" ] || fail "$file was not built: run $made_by first"
    newer=$(find "$@" -type f -newer "$file" | head -n 1)
    [ -z "$newer" ] || fail "$file is older than $newer: run $made_by first"
}

# fresh_crate FILE CRATE: of a crate and those below it.
fresh_crate() {
    built=$1
    crates=$(below "$2")
    set --
    for it in $crates; do
        for part in src specs proofs; do
            if [ -d "crates/$it/$part" ]; then set -- "$@" "crates/$it/$part"; fi
        done
    done
    fresh "$built" .ci/run "$@"
}

if [ -n "$DOORS" ]; then fresh "$doors" DOORS /dev/null; else fresh_crate "$doors" doors; fi
if [ -n "$DOORLAB" ]; then fresh "$doorlab" DOORLAB /dev/null; else fresh_crate "$doorlab" doorlab; fi
if [ -n "$LIBKERNEL" ]; then fresh "$libkernel" LIBKERNEL /dev/null; else fresh_crate "$libkernel" kernel_c; fi
fresh c/out/doord "make -C c" c/src/doord*.c c/src/sha256.c c/src/*.h c/include "$libkernel"
# a doord may have been linked with another library than the one that is named
linked=$(cat c/out/doord.kernel 2>/dev/null) || fail "c/out/doord was built before its kernel was noted: run make -C c clean all first"
[ "$linked" = "$(sha256sum <"$libkernel")" ] ||
    fail "c/out/doord was linked with another kernel than $libkernel: run make -C c clean all first"
fresh c/out/libdoor.so.1 "make -C c" c/src/libdoor*.c c/src/*.h c/include
fresh c/out/doorwait "make -C c" c/src/doorwait.c c/include
commit=$(git rev-parse HEAD 2>/dev/null) || fail "this is no clone of git: which commit it is cannot be told"
date=$(git show -s --format=%ct HEAD)
changes=$(git status --porcelain --untracked-files=no && git status --porcelain -- crates c) || fail "git status failed"
version=1+$(TZ=UTC0 git show -s --date=format-local:%Y%m%d --format=%cd HEAD).$(git rev-parse --short=10 HEAD)
[ -z "$changes" ] || version=$version+changed
architecture=$(uname -m)
kit=$(rt version 2>/dev/null | head -n 1) || kit=
SOURCE_DATE_EPOCH=$date
export SOURCE_DATE_EPOCH

# the files

mkdir -p -- "$folder"
work=$(mktemp -d)
trap 'rm -rf "$work"' EXIT
trap 'exit 1' HUP INT TERM
tree=$work/weldozig-$version
share=$tree/share/doc/weldozig

# put FOLDER MODE FILE ..
put() {
    at=$tree/$1
    mode=$2
    shift 2
    mkdir -p "$at"
    install -m "$mode" "$@" "$at"
}

# put_tracked FROM TO: what git has below a folder, so that nothing goes along that was built there.
put_tracked() {
    git ls-files -- "$1" | while IFS= read -r file; do
        inner=${file#"$1"/}
        at=$2
        case $inner in */*) at=$2/${inner%/*} ;; esac
        mode=644
        if [ -x "$file" ]; then mode=755; fi
        put "$at" $mode "$file"
    done
}

put bin 755 "$doors" "$doorlab" c/out/doord c/out/doorwait
put lib 755 c/out/libdoor.so.1
ln -s libdoor.so.1 "$tree/lib/libdoor.so"
put_tracked c/include include/weldozig
put share/man/man1 644 docs/man/*.1
put share/man/man5 644 docs/man/*.5
put share/bash-completion/completions 644 completions/*
put_tracked tools share/weldozig/tools
put_tracked examples share/doc/weldozig/examples/scripts
put_tracked c/examples share/doc/weldozig/examples/c

mkdir -p "$tree/lib/pkgconfig"
cat >"$tree/lib/pkgconfig/libdoor.pc" <<END
prefix=\${pcfiledir}/../..
libdir=\${prefix}/lib
includedir=\${prefix}/include

Name: libdoor
Description: doors and event ports of illumos for programs that run under doord
Version: $version
Cflags: -I\${includedir}/weldozig -pthread
Libs: -L\${libdir} -ldoor -pthread
END

# what is said of it

# of NAME GIVEN: where a program came from.
of() {
    if [ -z "$2" ]; then
        echo "$1: of this commit's sources, as .ci/run left it, which proves them."
    else
        echo "$1: NOT PROVED AS FAR AS THIS PACKAGE KNOWS. Another one was named when the package was made."
    fi
}

tell_proved() {
    echo "Commit: $commit"
    if [ -n "$changes" ]; then echo "NOT THAT COMMIT ALONE: files were changed since, and nobody can tell what was proved."; fi
    echo "Kit: ${kit:-unknown, as there was no rt when the package was made}"
    echo
    of "bin/doors" "$DOORS"
    of "bin/doorlab" "$DOORLAB"
    of "The kernel in bin/doord" "$LIBKERNEL"
    cat <<'END'

Proved, where so said: that the traces of doors and the verdicts of doorlab are those of the written kernel, and that the kernel in doord
does what the written kernel says; clause by clause in docs/inside/PROVED.md of that commit.

Not proved, in any case: the C. That is doord but for the kernel in it, doorwait, libdoor.so.1 and the headers. They are tested only. What
they did stands in the history, which doorlab judges. The tools, the completions and the examples are not proved either.

Trusted: the toolchain, the system, and that the definitions are those of doors and event ports.
END
}

tell_use() {
    cat <<'END'
Doors and event ports of illumos, simulated by a proved kernel. PROVED, beside this file, says what is proved and what is not.

Where the tar file is unpacked, PREFIX, or after `dpkg -i`, where PREFIX is /usr:

    export PATH=PREFIX/bin:$PATH PKG_CONFIG_PATH=PREFIX/lib/pkgconfig MANPATH=PREFIX/share/man:
    doors play < PREFIX/share/doc/weldozig/examples/scripts/first.doors

A program in C is compiled with what pkg-config says, and runs under doord; doorlab judges what it did:

    for p in server client; do
        cc -o $p PREFIX/share/doc/weldozig/examples/c/$p.c $(pkg-config --cflags --libs libdoor)
    done
    doord -o run.history -- sh -c './server door & doorwait door; ./client door 9; kill $!'
    doorlab history run.history

In examples/c/nscd and examples/c/authd: make OUT=FOLDER DOORS="$(pkg-config --cflags --libs libdoor)"

`chart`, `again` and `hunt` are in PREFIX/share/weldozig/tools. The pages: doors(1), doorlab(1), doord(1), doors-tools(1), doors-script(5),
history(5). Words for bash: `. PREFIX/share/bash-completion/completions/doord`, where they are not loaded already. Pages that
these and the examples speak of, as docs/use/C_PROGRAMS.md, are in the clone.
END
}

mkdir -p "$share"
tell_proved >"$share/PROVED"
tell_use >"$share/README"
find "$tree" -exec touch -h -d "@$date" {} +

# the two packages

name=weldozig-$version-$architecture.tar.gz
(cd "$work" && tar --sort=name --owner=0 --group=0 --numeric-owner -cf - "weldozig-$version") | gzip -9n >"$work/$name"
mv "$work/$name" "$folder/$name"
echo "$folder/$name"

if ! command -v dpkg-deb >/dev/null; then
    echo "package.sh: there is no dpkg-deb, so no Debian package is made" >&2
    exit 0
fi
root=$work/root
mkdir -p "$root/DEBIAN"
mv "$tree" "$root/usr"
architecture=$(dpkg --print-architecture)
# the newest version of the C library that a program in it asks for
libc=$(grep -a -h -o 'GLIBC_2\.[0-9.]*' "$root/usr/bin/"* "$root/usr/lib/libdoor.so.1" | sed 's/GLIBC_//' | sort -t. -k2n -u | tail -n 1)
cat >"$root/DEBIAN/control" <<END
Package: weldozig
Version: $version
Architecture: $architecture
Maintainer: Weldozig maintainers <maintainers@users.noreply.weldozig.example>
Installed-Size: $(du -sk --apparent-size "$root/usr" | cut -f 1)
Depends: libc6 (>= $libc), libgcc-s1
Suggests: gcc, pkgconf
Section: devel
Priority: optional
Description: doors and event ports of illumos on a proved kernel
 doors plays scripts of processes that use doors and event ports; doord runs
 programs in C on the same kernel, and doorlab judges what they did. The kernel
 and the verdicts are proved, the C around them is not: see
 /usr/share/doc/weldozig/PROVED.
END
touch -d "@$date" "$root/DEBIAN/control" "$root/DEBIAN" "$root"
name=weldozig_${version}_$architecture.deb
dpkg-deb --root-owner-group -b "$root" "$work/$name" >"$work/said" 2>&1 || fail "dpkg-deb: $(tail -n 1 "$work/said")"
mv "$work/$name" "$folder/$name"
echo "$folder/$name"
