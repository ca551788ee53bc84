# library.sh: makes the library for C of the crate rtdvs_c, or installs it:
#     sh tools/library.sh
#     sh tools/library.sh PREFIX
# The first call writes librtdvs.a, and librtdvs.so.VERSION with its two other names, into crates/rtdvs_c/out/lib. If the
# crate isn't built since its sources changed, it is proved and built first, which needs rt. The second call installs what
# is there, and makes it only if nothing is: the library into PREFIX/lib, rtdvs.h into PREFIX/include, and rtdvs.pc for
# pkg-config into PREFIX/lib/pkgconfig. It puts DESTDIR before PREFIX, if that is set, but not into rtdvs.pc.
# VERSION is the first version of CHANGELOG.md; its first number is the one of the shared library's name. The shared
# library's public names are its calls; it takes memory by malloc, realloc and free. Each file is whole or as before,
# also if a signal ends this script.
set -eu
. "$(dirname "$0")/work.sh"
umask 022
refuse() { echo "library.sh: $1" >&2; exit 2; }
case ${1:-/} in
/*) prefix=${1-} ;;
*) prefix=$PWD/$1 ;;
esac
case $prefix in
*[!A-Za-z0-9/._+-]*) refuse "pkg-config can't name this folder in a command: $prefix" ;;
esac
here=$(cd "$(dirname "$0")/.." && pwd)
crate=$here/crates/rtdvs_c
top=$here/crates/rtdvs_top/out/rlib built=$crate/out/librtdvs_c.a lib=$crate/out/lib
version=$(sed -n 's/^## \([0-9.]*\) (.*/\1/p' "$here/CHANGELOG.md" | head -n 1)
name=librtdvs.so.${version%%.*}
full=librtdvs.so.$version

# FILE PATH..: whether the file is there, and nothing in these folders and files is newer
is_new() {
    file=$1
    shift
    [ -f "$file" ] && [ -z "$(find "$@" -newer "$file")" ]
}

# The crate over the libraries that rt ci leaves, which rt lib would prove again.
build() {
    kit=$(dirname "$(rt doc)")
    cd "$crate"
    mkdir -p out
    set --
    for below in $(sed -n 's/^rtdvs_c staticlib://p' ../../crates.txt); do
        set -- "$@" --extern "$below=../$below/out/rlib/$below.rlib"
    done
    for libraries in ../*/out/rlib; do set -- "$@" -L "dependency=$libraries"; done
    "$kit/bin/rattle" build --crate-name rtdvs_c src/lib.rt --crate-type staticlib --extern "std=$kit/rlibs/std.rlib" \
        -L "dependency=$kit/rlibs" "$@" --antt-project "$kit/rattle/logic/antt-project.json" \
        --logic-built "$kit/logic_built" --toolchain "$kit/toolchain" --backend llvm --jobs 2 -o "$built"
}

# The two libraries of the built crate, in the folder of this script's own files.
link() {
    for tool in cc ar ld objcopy; do [ -n "$(command -v $tool)" ] || refuse "needs $tool"; done
    printf '{ global: rtdvs_*; local: *; };\n' > "$work/names"
    kit=$(dirname "$(rt doc)")
    heap=$kit/c/liblibc_c.a
    # In the static library too the names of the heap are local, so that no program meets them.
    (mkdir "$work/parts" && cd "$work/parts" && ar x "$built" && ar x "$heap" && ld -r -o ../rtdvs.o *.o)
    objcopy --wildcard --keep-global-symbol='rtdvs_*' "$work/rtdvs.o"
    ar rcsD "$work/librtdvs.a" "$work/rtdvs.o"
    cc -shared -Wl,-z,defs -Wl,-z,now -Wl,--build-id=none -Wl,-soname,"$name" -Wl,--version-script="$work/names" \
        "$work/rtdvs.o" -o "$work/$full"
}

# COMMAND FROM TO: puts a copy of a file, or a link to it, in the place of another at once
put() {
    part=$(dirname "$3")/.rtdvs.$$
    $1 "$2" "$part"
    mv -f "$part" "$3"
    part=
}

# The crate built, if it isn't since its sources changed, and the library of it.
make() {
    [ -n "$(command -v rt)" ] || refuse "needs rt, to build the library in $lib"
    set -- "$crate/src" "$crate/specs" "$crate/proofs"
    [ ! -d "$top" ] || set -- "$@" "$top"
    if ! is_new "$built" "$@"; then
        if [ -d "$top" ] && [ ! -f "$top/stamp" ]; then (build); else (cd "$crate" && rt lib); fi >&2
    fi
    ! is_made || ! is_new "$lib/$full" "$built" "$here/tools/library.sh" || return 0
    link
    mkdir -p "$lib"
    put cp "$work/librtdvs.a" "$lib/librtdvs.a"
    put cp "$work/$full" "$lib/$full"
    # Hard links, since rt takes no other ones in a crate's out.
    put 'ln -f' "$lib/$full" "$lib/$name"
    put 'ln -f' "$lib/$full" "$lib/librtdvs.so"
}

is_made() { [ -f "$lib/librtdvs.a" ] && [ -f "$lib/$full" ]; }
[ -n "$prefix" ] && is_made || make
[ -n "$prefix" ] || exit 0

# A program finds a library that isn't the system's own by its path.
path=
[ "$prefix" = /usr ] || path=' -Wl,-rpath,${libdir}'
into=${DESTDIR-}$prefix
mkdir -p "$into/lib/pkgconfig" "$into/include"
put cp "$lib/librtdvs.a" "$into/lib/librtdvs.a"
put cp "$lib/$full" "$into/lib/$full"
put 'ln -sf' "$full" "$into/lib/$name"
put 'ln -sf' "$name" "$into/lib/librtdvs.so"
put cp "$here/library/rtdvs.h" "$into/include/rtdvs.h"
sed -e "s|@PREFIX@|$prefix|" -e "s|@VERSION@|$version|" -e "s|@PATH@|$path|" "$here/library/rtdvs.pc.in" > "$work/rtdvs.pc"
put cp "$work/rtdvs.pc" "$into/lib/pkgconfig/rtdvs.pc"
