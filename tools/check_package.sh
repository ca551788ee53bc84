# check_package.sh PROGRAM: makes the Debian package twice, unpacks it into a folder of its own and tries it from there:
# each call of the package's README runs in the folder of the examples and the first one leaves the stored trace; the man
# page, the completion, the Python module and the examples are those of the repository; the module finds the program and
# both scripts of the package run; each link of a page and each file of the man page leads to a file of the package; what
# is only in the repository stays out. It needs dpkg-deb; what needs Python 3.11, bash, cc, lintian or the library that
# library.sh makes is skipped without.
. "$(dirname "$0")/work.sh"
cd "$(dirname "$0")/.." || exit 2
[ -x "${1:?no program}" ] || { echo "no program: $1"; exit 2; }
[ -n "$(command -v dpkg-deb)" ] || { echo 'package: skipped, no dpkg-deb'; exit 0; }
unset PYTHONPATH RTDVS
python=${PYTHON:-/usr/bin/python3}
top=$PWD shell=$(command -v sh) cases=0 bad=0 skips=0 lacks=
mkdir "$work/first" "$work/second" "$work/root" || exit 2

# WHAT COMMAND..: counts a case, and says what doesn't hold; with ONLY it makes the cases in whose names that is
holds() {
    what=$1
    shift
    case $what in *"${ONLY-}"* | 'not unpacked') ;; *) return ;; esac
    cases=$((cases + 1))
    "$@" > "$work/out" 2>&1 || { echo "package: $what"; head -n 5 "$work/out"; differs; }
}
# CASES WHY: counts cases as skipped
skip() { skips=$((skips + $1)) lacks="${lacks:+$lacks, }$2"; }
field() { dpkg-deb -f "$package" "$1"; }
same() { [ "$1" = "$2" ] || { echo "found $1, wanted $2"; return 1; }; }
# The newest version of the C library whose symbols the program and the library name, and the Python of the wheel.
only_libc() {
    same "$(field Depends)" "libc6 (>= $(cat "$root/bin/rtdvs" "$root/lib"/librtdvs.so* 2>&- | tr -c 'A-Z_0-9.' '\n' | sed -n 's/^GLIBC_\(2\.[0-9.]*\)$/\1/p' | sort -V | tail -n 1))"
}
least_python() { sed -n 's/^requires-python = ">=\(.*\)"$/\1/p' python/pyproject.toml; }
recommends() { same "$(field Recommends)" "python3 (>= $(least_python))"; }
python_of_pages() { same "$(grep -oh 'Python 3\.[0-9]*' README.md docs/*.md examples/*.md tools/package/README.md tools/setup.sh | sort -u)" "Python $(least_python)"; }
# The stripped program.
program() {
    cp "$1" "$work/stripped" && { [ -z "$(command -v strip)" ] || strip --strip-unneeded -R .comment -R .note "$work/stripped"; } &&
        cmp "$root/bin/rtdvs" "$work/stripped"
}
# The calls of the package's README, made in the folder that it names; those by Python where there is one.
first_call() (
    cd "$data" && eval "$(sed -n 's/^    rtdvs /rtdvs /p' "$doc/README.md" | head -n 1)" > "$work/trace" &&
        cmp "$work/trace" "$top/crates/example_runs/data/paper/edf_cc_with_demands.trace"
)
calls_by_python() (
    cd "$data" && sed -n 's/^    \(rtdvs-tools .*\)/\1 || exit/p' "$doc/README.md" > "$work/calls" &&
        same "$(wc -l < "$work/calls")" 2 && PATH=$(dirname "$python"):$PATH PYTHONDONTWRITEBYTECODE=1 &&
        export PATH PYTHONDONTWRITEBYTECODE PYTHONPATH="$root/lib/python3/dist-packages" && . "$work/calls"
)
examples() {
    same "$(sed -n 's/^    cd //p' "$doc/README.md")" "${data#"$work/root"}" && diff -r "$data/crates/example_runs/stdout" crates/example_runs/stdout &&
        diff -r -x README.md "$data/crates/example_runs/data" crates/example_runs/data && diff -r -x README.md -x rtdvs.bash "$data/examples" examples
}
man_page() { gzip -dc "$root/share/man/man1/rtdvs.1.gz" | cmp - docs/rtdvs.1; }
# The files that the man page names; those without a path are in the folder of the pages.
man_files() {
    for file in $(sed -n 's/^\.Pa \([^ ]*\).*/\1/p' docs/rtdvs.1); do
        case $file in
        /usr/*) [ -e "$work/root$file" ] ;;
        *) [ -e "$doc/docs/$file" ] ;;
        esac || echo "$file"
    done > "$work/absent"
    same "$(cat "$work/absent")" ''
}
# What is only in the repository: no script, and no word of how the program is built.
only_repository() {
    [ ! -e "$doc/tools" ] && [ ! -e "$data/tools" ] && ! find "$work/root" -name '*.sh' | grep . &&
        ! grep -n -e '\.ci/run' -e 'rtdvs\.sh' -e '`rt ' "$doc/README.md"
}
papers() {
    gzip -dc "$doc/changelog.gz" | head -n 1 | grep -q -x "rtdvs ($version) unstable; urgency=medium" &&
        grep -q 'stated no licence yet' "$doc/copyright"
}
sums() { (cd "$work/root" && md5sum -c "$work/control/md5sums"); }
lintian_finds_nothing() { lintian --fail-on error,warning "$package"; }
completion() {
    for name in rtdvs rtdvs-tools; do
        same "$(bash -c '. "$1/$2" && complete -p "$2"' - "$1" $name)" "complete -F _rtdvs $name" || return
    done
}
module() { diff -r -x __pycache__ "$root/lib/python3/dist-packages/rtdvs" python/src/rtdvs; }
# The library: its header, and call.c over it.
library() {
    cmp "$root/include/rtdvs.h" library/rtdvs.h && cmp "$doc/library/call.c" library/call.c &&
        cc -I "$root/include" "$doc/library/call.c" -L "$root/lib" -lrtdvs -o "$work/call" &&
        (cd "$data/crates/example_runs/data/paper" && LD_LIBRARY_PATH=$root/lib "$work/call" run --tasks tasks.toml \
            --machine machine.toml --demands demands.csv --scheduler edf --governor cc --ticks 16 | cmp - edf_cc_with_demands.trace)
}
# The same trace by the module, which finds the program on the path.
call_from_python() (
    cd "$data/crates/example_runs/data/paper" || exit
    PYTHONPATH=$root/lib/python3/dist-packages "$python" -B -c 'from pathlib import Path
from rtdvs import find_engine
files = {name: Path(name + ending) for name, ending in (("tasks", ".toml"), ("machine", ".toml"), ("demands", ".csv"))}
print(find_engine().run(**files, scheduler="edf", governor="cc", ticks=16, version=1).text(), end="")' > "$work/trace" &&
        cmp "$work/trace" edf_cc_with_demands.trace
)
# rtdvs-tools: its version, a run by the program, and a second line below a refusal; its man page is that of rtdvs.
tools_of_package() (
    cd "$data/crates/example_runs/data/paper" && PATH=$(dirname "$python"):$PATH PYTHONDONTWRITEBYTECODE=1 &&
        export PATH PYTHONDONTWRITEBYTECODE PYTHONPATH="$root/lib/python3/dist-packages" &&
        cmp "$root/share/man/man1/rtdvs-tools.1.gz" "$root/share/man/man1/rtdvs.1.gz" &&
        same "$(rtdvs-tools --version)" "rtdvs $version" &&
        rtdvs-tools run --tasks tasks.toml --machine machine.toml --demands demands.csv --scheduler edf --governor cc \
            --ticks 16 | cmp - edf_cc_with_demands.trace &&
        same "$(rtdvs-tools least --units x 2>&1 | sed -n '2s/ .--units. .*//p')" '  The value of'
)
# The scripts that dpkg runs, with stand-ins for what compiles a package's modules, and without.
scripts() (
    dpkg-deb -e "$package" "$work/control" && mkdir "$work/stand-ins" || exit
    for name in py3compile py3clean; do
        printf '#!%s\necho %s "$@"\n' "$shell" $name > "$work/stand-ins/$name"
    done
    chmod +x "$work/stand-ins"/*
    same "$(PATH="$work/stand-ins:$PATH" "$work/control/postinst" configure)" 'py3compile -p rtdvs' &&
        same "$(PATH="$work/stand-ins:$PATH" "$work/control/prerm" remove)" 'py3clean -p rtdvs' &&
        same "$(PATH='' "$shell" "$work/control/postinst" configure)" '' && same "$(PATH='' "$shell" "$work/control/prerm" remove)" ''
)
# The pages are those of the repository; only links to what the package lacks are gone.
linkless() { sed 's/\[\([^]]*\)\]([^)]*)/\1/g' "$1"; }
pages() {
    for page in "$doc"/docs/*.md; do
        same "$(linkless "$page")" "$(linkless "docs/$(basename "$page")")" || return
    done
}
# The links of the pages, of which each leads to a file or a folder.
links() {
    find -L "$doc" -name '*.md' | while read -r page; do
        sed 's/`[^`]*`//g' "$page" | grep -o ']([^()#:]*[)#]' | sed 's/^](//; s/[)#]$//' | grep . | sort -u |
            while read -r link; do [ -e "$(dirname "$page")/$link" ] || echo "${page#"$doc/"}: $link"; done
    done > "$work/broken"
    same "$(cat "$work/broken")" ''
}

same_again() { again=$(sh tools/package.sh "$1" "$work/second") && cmp "$package" "$again"; }
package=$(sh tools/package.sh "$1" "$work/first" 2> "$work/notes") || { echo 'package: not made'; exit 1; }
root=$work/root/usr doc=$work/root/usr/share/doc/rtdvs data=$work/root/usr/share/rtdvs
holds 'not unpacked' dpkg-deb -x "$package" "$work/root"
PATH=$root/bin:$PATH
holds 'a second package differs' same_again "$1"
version=$(sed -n 's/^## \([0-9.]*\) (.*/\1/p' CHANGELOG.md | head -n 1)
holds 'its version' same "$(field Version)" "$version"
holds 'the version of the man page' same "$(sed -n 's/^This page is that of version \(.*\)\.$/\1/p' docs/rtdvs.1)" "$version"
holds 'needs more than the C library' only_libc
holds 'recommends another Python' recommends
holds 'another Python on a page' python_of_pages
holds 'the program' program "$1"
holds 'the first call' first_call
holds 'the examples' examples
holds 'the man page' man_page
holds 'the files of the man page' man_files
if [ -n "$(command -v bash)" ]; then
    holds 'the completion' completion "$root/share/bash-completion/completions"
else
    skip 1 'no bash'
fi
holds 'the Python module' module
if [ ! -f crates/rtdvs_c/out/lib/librtdvs.so ]; then
    skip 1 'no library'
elif [ -z "$(command -v cc)" ]; then
    skip 1 'no cc'
else
    holds 'the library for C' library
fi
if "$python" -c 'import tomllib' 2>&-; then
    holds 'a call by the Python module' call_from_python
    holds 'the calls by Python' calls_by_python
    holds 'rtdvs-tools' tools_of_package
else
    skip 3 'no Python 3.11'
fi
holds 'the scripts of the package' scripts
holds 'the sums of the files' sums
holds 'the pages' pages
holds 'links of pages' links
holds 'what is only in the repository' only_repository
holds 'the changelog or the copyright' papers
if [ -n "$(command -v lintian)" ]; then holds 'lintian' lintian_finds_nothing; else skip 1 'no lintian'; fi

echo "package: $cases cases, $bad differ$([ $skips = 0 ] || echo ", $skips skipped ($lacks)")"
[ $bad = 0 ]
