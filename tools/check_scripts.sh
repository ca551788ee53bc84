# check_scripts.sh PROGRAM: the scripts of the repository themselves. check.sh over stand-ins for the checks; .ci/run and
# setup.sh over stand-ins for what they call; library.sh over a stand-in for rt, which makes a library of
# python/tests/stand_in.c; package.sh over that library; what each of them says of what it lacks; and checks, some of them
# with only a few of their cases. The calls are made in a copy of the repository whose path has blanks and quotes, from
# another folder, and with a CDPATH that leads elsewhere.
. "$(dirname "$0")/work.sh"
case ${1:?no program} in
/*) program=$1 ;;
*) program=$PWD/$1 ;;
esac
[ -x "$program" ] || { echo "no program: $program"; exit 2; }
cd "$(dirname "$0")/.." || exit 2
for tool in cc ar ld objcopy dpkg-deb; do [ -n "$(command -v $tool)" ] || { echo "scripts: skipped, no $tool"; exit 0; }; done
top=$PWD cases=0 bad=0 skipped= python=${PYTHON:-/usr/bin/python3} shell=$(command -v sh) away="$work/a 'b' \"c\" \$d"
mkdir -p "$away/top/crates" "$work/stand-in" "$work/kit/c" "$work/decoy" "$work/less" "$work/packages" || exit 2
tar cf - --exclude out --exclude .git --exclude __pycache__ . | tar xf - -C "$away/top"
for folder in "$away"/top/*/; do mkdir -p "$work/decoy/$(basename "$folder")/out" "$work/decoy/top/$(basename "$folder")/out"; done

# WHAT COMMAND..: counts a case, and says what doesn't hold; with ONLY it makes the cases in whose names that is
holds() {
    what=$1
    shift
    case $what in *"${ONLY-}"*) ;; *) return ;; esac
    cases=$((cases + 1))
    "$@" > "$work/said" 2>&1 || { echo "scripts: $what"; head -n 5 "$work/said"; differs; }
}
same() { [ "$1" = "$2" ] || { printf 'found %s\nwanted %s\n' "$1" "$2"; return 1; }; }
# NAME: makes a program of the lines that it reads
stand_in() { { echo "#!$shell"; cat; } > "$1" && chmod +x "$1"; }
# STATUS TEXT COMMAND..: the command ends so, and all that it prints is this
prints() {
    wanted_status=$1 wanted=$2
    shift 2
    found=$("$@" 2>&1)
    status=$?
    same "$status: $found" "$wanted_status: $wanted"
}
# COMMAND..: makes the call in the folder above the copy, with a CDPATH that leads elsewhere
led_away() (
    cd "$away" && CDPATH="$work/decoy:." && export CDPATH && "$@"
)

# check.sh, over two checks: `one` with 3 cases and `two` with 5
gate=$work/gate
mkdir -p "$gate/tools"
cp tools/check.sh "$gate/tools"
# STATUS LAST ONE TWO: the gate ends so with these lines of its checks
ends() {
    printf 'echo "%s"\n' "$3" > "$gate/tools/check_one.sh"
    printf 'echo "%s"\n' "$4" > "$gate/tools/check_two.sh"
    last=$(cd "$gate" && sh tools/check.sh "$program")
    status=$?
    same "$status: $(printf '%s\n' "$last" | tail -n 1)" "$1: checks: $2"
}
printf '# names\none 3\ntwo 5\n' > "$gate/tools/cases.txt"
unset TOOLS
all='2 passed, 0 failed, 0 skipped; of 8 cases 0 skipped'
first='1 passed, 1 failed, 0 skipped; of 8 cases 0 skipped'
holds 'all pass' ends 0 "$all" 'one: 3 cases' 'two: 5 rows, 0 differ'
holds 'a case too few' ends 1 "$first" 'one: 2 cases' 'two: 5 cases'
holds 'a case too many' ends 1 "$first" 'one: 4 cases' 'two: 5 cases'
holds 'no number' ends 1 "$first" 'one: some cases' 'two: 5 cases'
holds 'no line' ends 1 "$first" '' 'two: 5 cases'
holds 'two lines' ends 1 "$first" 'one: 3 cases
one: 3 cases' 'two: 5 cases'
holds 'the line of another check' ends 1 "$first" 'two: 3 cases' 'two: 5 cases'
holds 'a check without its tool' ends 0 '1 passed, 0 failed, 1 skipped; of 8 cases 3 skipped' 'one: skipped, no cc' 'two: 5 cases'
holds 'a part without its tool' ends 0 '2 passed, 0 failed, 0 skipped; of 8 cases 2 skipped' 'one: 3 cases' 'two: 3 cases, 2 skipped (no cc)'
holds 'too many without their tool' ends 1 "$first" 'one: 3 cases' 'two: 3 cases, 3 skipped (no cc)'
holds 'nothing but skipped' ends 1 '0 passed, 0 failed, 2 skipped; of 8 cases 8 skipped' 'one: skipped, no cc' 'two: skipped, no cc'
TOOLS=all
export TOOLS
holds 'all pass with all tools' ends 0 "$all" 'one: 3 cases' 'two: 5 cases'
holds 'a check that finds no tool' ends 1 "$first" 'one: skipped, no cc' 'two: 5 cases'
holds 'a part that finds no tool' ends 1 "$first" 'one: 3 cases' 'two: 3 cases, 2 skipped (no cc)'
unset TOOLS
echo 'echo two: 5 cases; exit 1' > "$gate/tools/check_two.sh"
failing() (cd "$gate" && ! sh tools/check.sh "$program" > "$work/gate.said" && grep -q -x 'tools/check_two.sh: failed, status 1' "$work/gate.said")
holds 'a status' failing
echo 'cat > said; echo two: 5 cases' > "$gate/tools/check_two.sh"
echo 'echo one: 3 cases' > "$gate/tools/check_one.sh"
reading() { same "$(cd "$gate" && sh tools/check.sh "$program" < "$gate/tools/cases.txt" | tail -n 1)" "checks: $all"; }
holds 'a check that reads' reading
echo 'echo more: 1 case' > "$gate/tools/check_more.sh"
unlisted() (cd "$gate" && ! sh tools/check.sh "$program" > "$work/gate.said" && grep -q -x 'tools/check_more.sh: failed, not in tools/cases.txt' "$work/gate.said")
holds 'a check that no list has' unlisted
rm "$gate/tools/check_more.sh" "$gate/tools/check_two.sh"
absent() { ! sh "$gate/tools/check.sh" "$program"; }
holds 'a check that is gone' absent
holds 'no program' prints 2 "no program: $gate/none" sh "$gate/tools/check.sh" "$gate/none"

# A script of a user whose home can't be written, and of one whose home can
printf '. "$(dirname "$0")/work.sh"\n[ ! -d "$work/home" ] || HOME=${HOME#"$work"}\necho "$HOME"\n' > "$gate/tools/home.sh"
cp tools/work.sh "$gate/tools"
holds 'a home of its own' prints 0 /home env HOME="$gate/none" sh "$gate/tools/home.sh"
holds 'no home' prints 0 /home env -u HOME sh "$gate/tools/home.sh"
holds 'the home of a user' prints 0 "$gate" env HOME="$gate" sh "$gate/tools/home.sh"

# .ci/run, over stand-ins for rt, setup.sh, check.sh, plants.sh and what reads the gate's output
mkdir -p "$away/gate/.ci" "$away/gate/tools"
cp .ci/run "$away/gate/.ci"
echo 'echo "check: TOOLS=$TOOLS, $(basename "$PWD")"; exit ${CHECK:-0}' > "$away/gate/tools/check.sh"
echo 'echo "plants: TOOLS=$TOOLS, $*"; exit ${PLANTS:-0}' > "$away/gate/tools/plants.sh"
cat > "$away/gate/tools/gate_output.py" << 'END'
import os, pathlib, sys
print("read:", pathlib.Path(sys.argv[1]).read_text().strip())
sys.exit(int(os.environ.get("READ", 0)))
END
stand_in "$work/stand-in/rt" << 'END'
[ "$*" = ci ] || exit 2
echo "rt $* in $(basename "$PWD")"
exit ${RT:-0}
END
stand_in "$work/stand-in/id" << 'END'
echo "$USER_ID"
END
USER_ID=0
export USER_ID
# STATUS TEXT SETUP [RT]: the gate ends so with these statuses of setup.sh and of rt
runs() {
    echo "exit $3" > "$away/gate/tools/setup.sh"
    prints "$1" "$2" led_away env PATH="$work/stand-in:$PATH" RT="${4:-0}" sh gate/.ci/run
}
planted='plants: TOOLS=all, crates/rtdvs/out/rtdvs 3'
holds 'the gate with all tools' runs 0 "rt ci in gate
read: rt ci in gate
check: TOOLS=all, gate
$planted" 0
holds 'the gate with some tools' runs 0 "rt ci in gate
read: rt ci in gate
check: TOOLS=some, gate
plants: TOOLS=some, crates/rtdvs/out/rtdvs 3" 1
holds 'the gate after a failed proof' runs 3 'rt ci in gate' 0 3
READ=1
export READ
holds 'the gate with an edit that another goal refused' runs 1 'rt ci in gate
read: rt ci in gate' 0
unset READ
USER_ID=1000
holds 'the gate of another user' runs 0 "rt ci in gate
read: rt ci in gate
check: TOOLS=all, gate
$planted" 0
CHECK=1
export CHECK
holds 'the gate after a failed check' runs 1 'rt ci in gate
read: rt ci in gate
check: TOOLS=all, gate' 0
unset CHECK
PLANTS=1
export PLANTS
holds 'the gate with a fault that is not seen' runs 1 "rt ci in gate
read: rt ci in gate
check: TOOLS=all, gate
$planted" 0
unset PLANTS

# setup.sh, over stand-ins for what it calls: all but one package is there
stand_in "$work/stand-in/dpkg-query" << 'END'
shift 3
for package in "$@"; do [ "$package" = "$LACKS" ] || echo "$package ii "; done
END
stand_in "$work/stand-in/apt-get" << 'END'
[ "$1" != install ] || echo "$@" >> "$CALLED"
[ "$1" != "$REFUSES" ]
END
# STATUS TEXT CALLED USER LACKS REFUSES: what setup.sh leaves
sets_up() {
    : > "$work/called"
    prints "$1" "$2" led_away env PATH="$work/stand-in:$PATH" CALLED="$work/called" USER_ID="$4" LACKS="$5" REFUSES="$6" \
        sh top/tools/setup.sh &&
        same "$(cat "$work/called")" "$3"
}
install='install -q -y --no-install-recommends valgrind'
holds 'nothing to install' sets_up 0 '' '' 0 '' ''
holds 'nothing to install for a user' sets_up 0 '' '' 1000 '' ''
holds 'a package to install' sets_up 0 'setup: installed valgrind' "$install" 0 valgrind ''
holds 'a package for a user' sets_up 1 'setup: as root, apt-get install valgrind' '' 1000 valgrind ''
holds 'no list of packages' sets_up 1 'setup: not installed: valgrind' '' 0 valgrind update
holds 'a package that stays away' sets_up 1 'setup: not installed: valgrind' "$install" 0 valgrind install

# Scripts that lack something say so in one line.
for tool in sh dirname mktemp mkdir rm cat sed head basename uname; do ln -s "$(command -v $tool)" "$work/less/$tool"; done
with_less() { env PATH="$work/less" "$@"; }
holds 'package.sh without a program' prints 2 'package.sh: needs a built program: sh tools/package.sh PROGRAM [FOLDER]' sh tools/package.sh
holds 'package.sh of no program' prints 2 "package.sh: no program: $work/none" sh tools/package.sh "$work/none"
holds 'package.sh into no folder' prints 2 "package.sh: no folder: $work/none" sh tools/package.sh "$program" "$work/none"
holds 'package.sh without dpkg' prints 2 'package.sh: needs dpkg' with_less sh tools/package.sh "$program"
holds 'library.sh without a library' prints 2 "library.sh: needs rt, to build the library in $away/top/crates/rtdvs_c/out/lib" \
    with_less sh "$away/top/tools/library.sh"
holds 'library.sh into a folder with a blank' prints 2 "library.sh: pkg-config can't name this folder in a command: $work/a b" \
    sh tools/library.sh "$work/a b"

# The library, of a stand-in that rt makes
cc -fPIC -c python/tests/stand_in.c -o "$work/stand_in.o" && ar rcs "$work/kit/built.a" "$work/stand_in.o" && echo 'int heap;' > "$work/heap.c" &&
    cc -fPIC -c "$work/heap.c" -o "$work/heap.o" && ar rcs "$work/kit/c/liblibc_c.a" "$work/heap.o" || exit 2
stand_in "$work/stand-in/rt" << END
case \$1 in
doc) echo '$work/kit/page.md' ;;
lib) [ "\$(basename "\$PWD")" = rtdvs_c ] && mkdir -p out && cp '$work/kit/built.a' out/librtdvs_c.a && echo built >> '$work/built' ;;
*) exit 2 ;;
esac
END
version=$(sed -n 's/^## \([0-9.]*\) (.*/\1/p' CHANGELOG.md | head -n 1)
library=$away/top/crates/rtdvs_c/out/lib prefix=$work/prefix system=/usr
makes() {
    led_away env PATH="$work/stand-in:$PATH" sh top/tools/library.sh "$@" && same "$(cat "$work/built")" built &&
        same "$(cd "$library" && echo *)" "librtdvs.a librtdvs.so librtdvs.so.${version%%.*} librtdvs.so.$version"
}
holds 'library.sh' makes
holds 'library.sh again' makes
holds 'library.sh with a prefix' makes "$prefix"
installed() {
    same "$(cd "$prefix" && find . ! -type d | LC_ALL=C sort | tr '\n' ' ')" "./include/rtdvs.h ./lib/librtdvs.a \
./lib/librtdvs.so ./lib/librtdvs.so.${version%%.*} ./lib/librtdvs.so.$version ./lib/pkgconfig/rtdvs.pc " && cmp "$prefix/lib/librtdvs.so" "$library/librtdvs.so" && cmp "$prefix/include/rtdvs.h" library/rtdvs.h
}
holds 'what library.sh installs' installed
without_rt() { led_away with_less_but_copies sh top/tools/library.sh "$work/prefix.2" && diff -r "$prefix/include" "$work/prefix.2/include"; }
with_less_but_copies() { for tool in cp ln mv find; do ln -sf "$(command -v $tool)" "$work/less/$tool"; done && with_less "$@"; }
holds 'library.sh without rt' without_rt
staged() {
    led_away env DESTDIR="$work/a stage" sh top/tools/library.sh $system && [ -f "$work/a stage/usr/lib/librtdvs.so" ] &&
        same "$(sed -n 's/^prefix=//p; s/^Libs: //p' "$work/a stage/usr/lib/pkgconfig/rtdvs.pc" | tr '\n' ' ')" "$system "'-L${libdir} -lrtdvs '
}
holds 'library.sh for a package' staged

# The package, with that library
packs() {
    same "$(led_away sh top/tools/package.sh "$program" "$work/packages")" "$work/packages/rtdvs_${version}_$(dpkg --print-architecture).deb" &&
        same "$(cd "$work/packages" && ls -A)" "rtdvs_${version}_$(dpkg --print-architecture).deb" &&
        dpkg-deb -c "$work"/packages/*.deb | grep -q "$system/lib/librtdvs.so.$version\$"
}
holds 'package.sh' packs
bare_package() {
    rm -r "$library" "$work"/packages/* && led_away sh top/tools/package.sh "$program" "$work/packages" 2>&1 > "$work/name" |
        grep -x 'package.sh: the package is without the library for C, which sh tools/library.sh makes' &&
        ! dpkg-deb -c "$work"/packages/*.deb | grep -q librtdvs
}
holds 'package.sh without a library' bare_package

# The checks that need no tool but a shell, and the scripts beside them
for name in completion copies form gate links named reading; do
    line=$(sed -n "s/^$name //p" tools/cases.txt)
    passes() { led_away sh "top/tools/check_$name.sh" "$program" > "$work/line" && [ "$(wc -l < "$work/line")" -eq 1 ] && grep -q "^$name: $line " "$work/line"; }
    holds "check_$name.sh" passes
done
for name in main peer wrapper; do
    line=$(sed -n "s/^$name //p" tools/cases.txt)
    passes() { mkdir -p "$away/tmp" && led_away env TMPDIR="$away/tmp" sh "top/tools/check_$name.sh" "$program" > "$work/line" && grep -q "^$name: $line " "$work/line" && rmdir "$away/tmp"; }
    holds "check_$name.sh" passes
done

# Each script forgets an exported CDPATH before it looks for another folder.
forgets() {
    for script in tools/*.sh .ci/run rtdvs.sh; do
        case $script in */work.sh | */python_part.sh) continue ;; esac
        awk '/^unset CDPATH$/ || /^\. .*\/work\.sh"$/ { exit } /(^|[^a-z])cd / && !/^#/ { print FILENAME ": " $0 }' "$script"
    done > "$work/line"
    same "$(cat "$work/line")" ''
}
holds 'a CDPATH' forgets

# The other checks, with none of their cases but those that all need, over the library of the stand-in
for name in failing package python scripts signals; do
    only=none
    [ $name != python ] || only=collected
    sets_out() {
        mkdir -p "$away/tmp" && led_away env ONLY=$only TMPDIR="$away/tmp" PATH="$work/stand-in:$PATH" sh "top/tools/check_$name.sh" "$program" \
            > "$work/line" 2>&1 && grep "^$name: " "$work/line" && [ "$(wc -l < "$work/line")" -eq 1 ] && rmdir "$away/tmp" || { cat "$work/line"; return 1; }
    }
    holds "check_$name.sh" sets_out
done

# plants.sh, over one check and two faults, of which the check sees the first
mkdir -p "$work/plants/tools/planted"
for name in group.py plants.py plants.sh work.sh; do cp "tools/$name" "$work/plants/tools"; done
# TEXT: stores the two faults, of which the second changes this text
store() { printf '# the first\nfile: text\nold: one\nnew: another\n\n# the second\nfile: text\nold: %s\nnew: another\n' "$1" > "$work/plants/tools/planted/one.txt"; }
store two
# STATUS TEXT LINE [WORD]: plants.sh ends so over a check that prints this line and looks for the word
plants() {
    echo 'one two' > "$work/plants/text"
    printf 'echo "%s"\ngrep -q -w %s text\n' "$3" "${4:-one}" > "$work/plants/tools/check_one.sh"
    prints "$1" "$2" led_away sh "$work/plants/tools/plants.sh" "$program"
}
if "$python" -c 'import tomllib' 2>&-; then
    holds 'plants.sh of a fault that is not seen' plants 1 'one: not seen: the second
plants: 2 planted, 1 faults' 'one: 1 case'
    lacking='one: not seen, since the check lacks a tool: the second'
    holds 'plants.sh without a tool' plants 0 "$lacking
plants: 2 planted, 0 faults, 1 skipped" 'one: 1 case, 1 skipped (no cc)'
    TOOLS=all
    export TOOLS
    holds 'plants.sh with all tools' plants 1 "$lacking
plants: 2 planted, 1 faults" 'one: 1 case, 1 skipped (no cc)'
    unset TOOLS
    holds 'plants.sh of a check that fails' plants 1 'one: fails without a plant: all of it
plants: 2 planted, 1 faults' 'one: 1 case' three
    store three
    holds 'plants.sh of a fault without a place' plants 1 "one: can't be planted: the second: text has 0 times: three
plants: 2 planted, 1 faults" 'one: 1 case'
fi

# The table of the stored faults, and whether each can still be put in its place
table() { same "$(sed -n '/^| Check | Faults |$/,/^$/p' docs/TESTING.md | grep '^| `')" "$("$python" tools/plants.py)"; }
if "$python" -c 'import tomllib' 2>&-; then
    holds 'the table of TESTING.md' table
    holds 'the places of the stored faults' "$python" "$away/top/tools/plants.py" "$work"
else
    skipped=', 7 skipped (no Python 3.11)'
fi

echo "scripts: $cases cases, $bad differ$skipped"
[ $bad = 0 ]
