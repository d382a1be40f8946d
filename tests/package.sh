#!/bin/sh
# Makes the packages by package.sh, unpacks each into a folder of its own and uses what is there as somebody would who has no clone: the
# programs, an example that is compiled with what pkg-config says, its history; and the pages and the completions. What package.sh refuses
# is tried on copies.
#
# DOORS, DOORLAB and LIBKERNEL are handed on, and name other programs than the gate's. KEEP names a folder where the packages are left.
# Where there is no dpkg-deb, C compiler, pkg-config, man, groff or bash, what wants it is left out, and a line says so.
# The last line is `N passed, N failed`.

LC_ALL=C
export LC_ALL
top=$(cd "$(dirname "$0")/.." && pwd) || exit 1
cd "$top" || exit 1
passed=0
failed=0
work=$(mktemp -d) || exit 1
trap 'rm -rf "$work"' EXIT
trap 'exit 1' HUP INT TERM

# is NAME WANTED CAME
is() {
    if [ "$2" = "$3" ]; then
        passed=$((passed + 1))
        return
    fi
    failed=$((failed + 1))
    echo "$1:"
    printf '%s\n' "$2" | head -n 20 | sed 's/^/    wanted  /'
    printf '%s\n' "$3" | head -n 20 | sed 's/^/    came    /'
    return 1
}

end() {
    echo "$passed passed, $failed failed"
    [ "$failed" -eq 0 ] || exit 1
    exit 0
}

cc=
for compiler in ${CC-} cc gcc clang; do
    if [ -z "$cc" ] && command -v "$compiler" >/dev/null; then cc=$compiler; fi
done
if [ -z "$cc" ]; then
    echo "no C compiler, so nothing to make packages of: their tests are left out"
    end
fi
has() {
    command -v "$1" >/dev/null && return
    echo "no $1: $2"
    return 1
}

# what is refused

# A clone as far as package.sh looks before it asks git: the C as it was built, and stubs of crates, all older than what is built of them.
copy=$work/copy
mkdir "$copy"
cp -a c completions crates.txt docs examples package.sh tools .gitignore "$copy"
stub() {
    mkdir -p "$copy/crates/$1/src" "$copy/crates/$1/out"
    : >"$copy/crates/$1/src/lib.rt"
    touch -d @1000000 "$copy/crates/$1/src/lib.rt"
}
for it in doors doorlab kernel_c line_text; do stub $it; done
refused() {
    name=$1
    wanted=$2
    shift 2
    said=$(cd "$copy" && env -u DOORS -u DOORLAB -u LIBKERNEL "$@" sh package.sh -o "$work/none" 2>&1)
    is "$name" "1 package.sh: $wanted" "$? $said"
}
doors=crates/doors/out/doors
doorlab=crates/doorlab/out/doorlab
kernel=crates/kernel_c/out/libkernel_c.a

refused "without doors" "$doors was not built: run .ci/run first"
: >"$copy/$doors"
refused "without doorlab" "$doorlab was not built: run .ci/run first"
: >"$copy/$doorlab"
refused "without a kernel" "$kernel was not built: run .ci/run first"
: >"$copy/$kernel"
touch -d '1 hour' "$copy/crates/line_text/src/lib.rt"
refused "a crate below is newer" "$doors is older than crates/line_text/src/lib.rt: run .ci/run first"
touch -d @1000000 "$copy/crates/line_text/src/lib.rt" "$copy/$kernel"
refused "another kernel is in doord" \
    "c/out/doord was linked with another kernel than $kernel: run make -C c clean all first"
sha256sum <"$copy/$kernel" >"$copy/c/out/doord.kernel"
touch -d '1 hour' "$copy/c/src/libdoor_call.c"
refused "the library's sources are newer" "c/out/libdoor.so.1 is older than c/src/libdoor_call.c: run make -C c first"
touch -d @1000000 "$copy/c/src/libdoor_call.c"
touch -d '1 hour' "$copy/c/src/wire.h"
refused "a header is newer" "c/out/doord is older than c/src/wire.h: run make -C c first"
touch -d @1000000 "$copy/c/src/wire.h"
refused "a name that is not from the top" "out/doors: a name that begins with a slash is wanted" DOORS=out/doors
refused "no clone" "this is no clone of git: which commit it is cannot be told" GIT_CEILING_DIRECTORIES="$work"

# the same copy as a clone: what stands in it for the gate's programs is taken for them, until a file differs from the commit's
in_copy() { (cd "$copy" && env -u DOORS -u DOORLAB -u LIBKERNEL "$@") 2>&1; }
commit() {
    in_copy git init -q && in_copy git add -A &&
        in_copy git -c user.name=tests -c user.email=tests@localhost -c commit.gpgsign=false commit -q -m copy
}
told() {
    rm -rf "$work/copied"
    file=$(in_copy sh package.sh -o "$work/copied" | sed -n 1p)
    tar -xzOf "$file" --wildcards '*/doc/weldozig/PROVED' | grep -o -e ', as .ci/run left it' -e 'NOT [A-Z ]*' | sort | uniq -c | sed 's/^ *//; s/ *$//'
}
if is "a copy that is a clone" "" "$(commit)"; then
    is "what the gate built is called so" "3 , as .ci/run left it" "$(told)"
    echo >>"$copy/docs/inside/PROVED.md"
    is "a file was changed since" "3 , as .ci/run left it
1 NOT THAT COMMIT ALONE" "$(told)"
    in_copy git checkout -q docs
    : >"$copy/c/src/more.c"
    is "a source that git has not" "3 , as .ci/run left it
1 NOT THAT COMMIT ALONE" "$(told)"
    rm "$copy/c/src/more.c"
fi
rm "$copy/c/out/doord"
refused "without doord" "c/out/doord was not built: run make -C c first"
is "nothing is left of what is refused" none "$(ls -A "$work/none" 2>/dev/null || echo none)"
said=$(sh package.sh -x 2>&1)
is "words that are wrong" "2 usage: package.sh [-o FOLDER]" "$? $said"

# the packages

made=${KEEP:-$work/made}
said=$(sh package.sh -o "$made" 2>"$work/err")
is "package.sh" "0 " "$? $(grep -v 'no dpkg-deb' "$work/err")"
tar=$(echo "$said" | sed -n 1p)
deb=$(echo "$said" | sed -n 2p)
if [ ! -f "$tar" ]; then end; fi
(sh package.sh -o "$work/again") >/dev/null 2>&1
is "the same is made again" "$(cd "$made" && sha256sum "${tar##*/}" ${deb:+"${deb##*/}"})" \
    "$(cd "$work/again" && sha256sum "${tar##*/}" ${deb:+"${deb##*/}"})"

# a server that was not compiled is waited for by doorwait without an end
most=
if command -v timeout >/dev/null; then most="timeout -k 10 60"; fi

# with PREFIX COMMAND ..: as a user of this tree, of whose environment it has nothing of the clone.
with() {
    prefix=$1
    shift
    (
        unset LD_LIBRARY_PATH LD_PRELOAD DOORS DOORLAB LIBKERNEL
        PATH=$prefix/bin:$PATH PKG_CONFIG_PATH=$prefix/lib/pkgconfig
        export PATH PKG_CONFIG_PATH
        cd "$work/run" && $most "$@"
    ) 2>&1
}

# What a script of one line says in a tree.
saying() { with "$1" sh -c "$2"; }

pages() { (cd "$1" && find . -name "*.[15]" | sed 's!.*/!!' | sort); }

# everything NAME PREFIX
use() {
    name=$1
    prefix=$2
    doc=$prefix/share/doc/weldozig
    rm -rf "$work/run"
    mkdir "$work/run"
    is "$name: the headers" "$(cd c/include && find . -type f | sort)" "$(cd "$prefix/include/weldozig" && find . -type f | sort)"
    is "$name: the pages" "$(pages docs/man)" "$(pages "$prefix/share/man")"
    is "$name: the examples" "$(git ls-files examples c/examples | wc -l)" "$(find "$doc/examples" -type f | wc -l)"
    is "$name: a script" "$(cat examples/first.trace)" "$(saying "$prefix" "doors play <$doc/examples/scripts/first.doors")"
    is "$name: a chart" "$(tools/chart examples/first.doors examples/first.trace)" \
        "$(saying "$prefix" "cd $doc/examples/scripts; $prefix/share/weldozig/tools/chart first.doors first.trace")"
    is "$name: doord's library" "$(readlink -f "$prefix/lib/libdoor.so.1")" \
        "$(saying "$prefix" "doord -o run.history -- sh -c 'readlink -f \$LD_PRELOAD'")"
    is "$name: the commit" "Commit: $(git rev-parse HEAD)" "$(head -n 1 "$doc/PROVED")"
    given=0
    for it in "${DOORS-}" "${DOORLAB-}" "${LIBKERNEL-}"; do if [ -n "$it" ]; then given=$((given + 1)); fi; done
    is "$name: what another than the gate built is not called proved" $given "$(grep -c ': NOT PROVED' "$doc/PROVED")"
    compile
}

compile() {
    has pkg-config "no program is compiled with what it says" || return
    for it in server client; do
        is "$name: $it is compiled" "" \
            "$(saying "$prefix" "$cc -Wall -Wextra -Werror -o $it $doc/examples/c/$it.c \$(pkg-config --cflags --libs libdoor)")" || return
    done
    is "$name: server and client" "result: 81" \
        "$(saying "$prefix" "doord -o run.history -- sh -c './server door & doorwait door; ./client door 9; kill \$!'")"
    is "$name: their history" "legal N" "$(saying "$prefix" "doorlab history run.history" | sed 's/^legal [1-9][0-9]*$/legal N/')"
    is "$name: a daemon is compiled" "" "$(saying "$prefix" \
        "make -s -C $doc/examples/c/nscd CC=$cc OUT=$work/run DOORS=\"\$(pkg-config --cflags --libs libdoor)\" 2>&1
        test -x nscd || echo none")"
}

mkdir "$work/tar" "$work/deb"
tar -xzf "$tar" -C "$work/tar"
use tar "$(echo "$work"/tar/*)"
if has dpkg-deb "no Debian package is unpacked"; then
    dpkg-deb -x "$deb" "$work/deb"
    use deb "$work/deb/usr"
    is "deb: all is below usr" usr "$(ls "$work/deb")"
    is "deb: whose files they are" root/root "$(dpkg-deb -c "$deb" | awk '{ print $2 }' | sort -u)"
    is "deb: its name" "weldozig $(dpkg --print-architecture)" "$(dpkg-deb -f "$deb" Package) $(dpkg-deb -f "$deb" Architecture)"
fi

# the pages

# page FILE: what is complained of, and the first word of the page.
page() {
    if command -v groff >/dev/null; then
        groff -mandoc -ww -Tutf8 "$1" >"$work/page" 2>"$work/err"
    else
        man --warnings=w -l "$1" >"$work/page" 2>"$work/err"
    fi
    cat "$work/err"
    awk 'NF { print $1; exit }' "$work/page"
}
if command -v groff >/dev/null || has man "the pages are not looked at, as there is no groff either"; then
    for it in docs/man/*.[15]; do is "$it" "$(basename "$it" | sed 's/\.\(.\)$/(\1)/' | tr '[:lower:]' '[:upper:]')" "$(page "$it")"; done
fi

# the completions

# completed PROGRAM WORD ..: what may stand in place of the last one.
completed() {
    bash --norc -c '. "completions/$1"; COMP_WORDS=("$@"); COMP_CWORD=$(($# - 1)); "_$1"; echo "${COMPREPLY[*]-}"' bash "$@" 2>&1
}
completions() {
    for it in completions/*; do is "$it" "" "$(bash -n "$it" 2>&1)"; done
    is "doors: a command" play "$(completed doors pl)"
    is "doors: its commands" "$("${DOORS:-$top/crates/doors/out/doors}" 2>/dev/null | sed 's/usage: doors //; s/ N$//; y/|/ /')" \
        "$(completed doors "")"
    is "doors: no word after the command" "" "$(completed doors play p)"
    is "doorlab: its commands" "$("${DOORLAB:-$top/crates/doorlab/out/doorlab}" --help |
        awk '/^Commands:/ { of = 1; next } /^$/ { of = 0 } of { printf "%s%s", between, $1; between = " " }')" "$(completed doorlab "")"
    is "doorlab: an option" --help "$(completed doorlab --h)"
    is "doord: an option" --patience "$(completed doord --p)"
    is "doord: all its long options" "$(c/out/doord --help | grep -o -e '--[a-z][a-z-]*' | sort -u)" \
        "$(completed doord -- | tr ' ' '\n' | grep -v '^--$' | sort -u)"
    is "doord: a file after -o" completions "$(completed doord -o complet)"
    is "doord: a command after --" doord_for_tests "$(export PATH="$work/run:$PATH" && completed doord --stay -- doord_for)"
    is "doord: options after a shape" --eagain "$(completed doord -b sh = 1,1,0 --ea)"
    is "doord: no option of its own behind the command" "" "$(completed doord -- cat --ea)"
}
: >"$work/run/doord_for_tests"
chmod +x "$work/run/doord_for_tests"
if has bash "completions are not tried"; then completions; fi
end
