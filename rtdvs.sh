# rtdvs.sh: runs the program from any folder, also through a symbolic link, as `sh rtdvs.sh run --tasks tasks.toml ..`.
# It calls crates/rtdvs/out/rtdvs if that is built. Otherwise it calls `rt try`, which compiles for a minute, proves nothing
# and is hundreds of times slower. Both ways leave the program's own output, errors and exit status; `rt try` writes them
# when the program has ended. If it has no answer (as for more than 1 MiB) or is missing, the status is 125.
# With Python 3.11 it has the commands of the Python package too, and a second line below each refusal, which says in plain
# words what is wrong: python/src/rtdvs/hints has these.
unset CDPATH
script=$0
while [ -L "$script" ]; do
    folder=$(dirname -- "$script") link=$(readlink -- "$script") || exit 125
    case $link in
    /*) script=$link ;;
    *) script=$folder/$link ;;
    esac
done
here=$(cd -- "$(dirname -- "$script")" && pwd) || exit 125
program=$here/crates/rtdvs/out/rtdvs
package=$here/python/src
tools='explain, simulate, statistics, compare, sensitivity, generate, evaluate, paper-table, design, plot, convert, page, serve'

# CODE WORDS..: calls Python with the package, and without the modules of the folder of the call
with_package() { PYTHONPATH=$package${PYTHONPATH:+:$PYTHONPATH} python3 -P -c "$@"; }
has_package() { [ -d "$package/rtdvs" ] && [ -n "$(command -v python3)" ]; }
# STATUS LINES WORDS..: leaves the program's lines on standard error, a second line below a refusal, and the status
leave() {
    status=$1 notes=$2
    shift 2
    [ -z "$notes" ] || printf '%s\n' "$notes" >&2
    if has_package; then
        [ "$status" = 0 ] || with_package 'import sys
from rtdvs.hints import second_line
second = second_line(sys.argv[1], sys.argv[2:])
if second:
    print(" ", second)' "$notes" "$@" >&2 2>&-
    elif [ $# = 0 ]; then
        echo '  `sh rtdvs.sh --help` has the commands.' >&2
    fi
    exit "$status"
}

# `response` of a board is the package's.
case "$* " in
'response '*'--board'[\ =]* | 'response --help '* | 'response -h '*) door=--board ;;
*) door=${1-} ;;
esac
case $door in
-h | --help | help | --version | explain | simulate | statistics | compare | sensitivity | generate | evaluate | \
    paper-table | design | plot | convert | page | serve | --board)
    if has_package && with_package '' 2>&-; then
        [ "$1" != help ] || set -- --help
        PYTHONPATH=$package${PYTHONPATH:+:$PYTHONPATH}
        export PYTHONPATH
        exec python3 -P -c 'from rtdvs.cli.main import entry
entry("sh rtdvs.sh")' "$@"
    fi
    case $1 in
    --version) sed -n 's/^## \([0-9.]*\) (.*/rtdvs \1/p' "$here/CHANGELOG.md" | head -n 1 ;;
    -h | --help | help)
        echo 'usage: sh rtdvs.sh COMMAND OPTIONS..'
        echo 'commands: run, admit, response, constrain, poll, replay, migrate, workload, least'
        echo "with Python 3.11: $tools"
        echo 'README.md has the options, docs/COMMANDS.md an example of each command.'
        ;;
    *) echo "rtdvs.sh: $1 needs Python 3.11" >&2 && exit 125 ;;
    esac
    exit
    ;;
esac

if [ -f "$program" ] && [ -x "$program" ]; then
    { has_package || [ $# = 0 ]; } && (exec 3>&1) 2>&- || exec "$program" "$@"
    exec 3>&1
    notes=$("$program" "$@" 2>&1 >&3 3>&-)
    leave $? "$notes" "$@"
fi
[ -n "$(command -v rt)" ] || { echo "rtdvs.sh: no $program, and no rt on the path" >&2; exit 125; }
[ ! -t 2 ] || echo 'rtdvs.sh: no built program, so rt try compiles one; it takes a minute' >&2

# `rt try` runs the program in another folder, so the value of an option that names a file gets this folder's path.
left=$# reads='command'
while [ "$left" -gt 0 ]; do
    word=$1 left=$((left - 1))
    shift
    case $reads:$word in
    command:*) reads=option ;;
    option:--tasks | option:--machine | option:--demands | option:--deadlines | option:--requests | option:--trace)
        reads=file ;;
    option:--probes) ;;
    option:--*) reads=value ;;
    file:/* | file:) reads=option ;;
    file:*) reads=option word=$PWD/$word ;;
    value:*) reads=option ;;
    esac
    set -- "$@" "$word"
done

# Behind the program's own lines on standard error are those of `rt try`; the last one has the program's status.
notes=$(mktemp -u) || exit 125
trap 'rm -f "$notes"' EXIT
trap 'exit 125' HUP INT PIPE QUIT TERM
(umask 077 && set -C && : > "$notes") || exit 125
cd "$here/crates/rtdvs" && rt try --seconds 3600 -- "$@" 2> "$notes"
status=$(LC_ALL=C sed -n '$s/^run=ended status=\([0-9]*\) .*/\1/p' "$notes")
[ -n "$status" ] || { cat "$notes" >&2; exit 125; }
[ ! -t 2 ] || echo "rtdvs.sh: for faster calls build the program once: cd $here/crates/rtdvs && rt run -- workload --seed 1" >&2
leave "$status" "$(LC_ALL=C sed -e '/^checked: /d' -e '$d' "$notes")" "$@"
