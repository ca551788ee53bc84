# check_wrapper.sh PROGRAM [try]: whether rtdvs.sh leaves what the program leaves: its exit status, its standard output and
# its standard error. Each call is made by the built program, and by a stand-in for `rt try`, which as the kit's does
# calls the program in another folder and adds two lines on standard error. It is called through symbolic links too, and on
# a terminal where there is `script`. Where there is Python 3.11, a second line comes below each refusal, and the commands
# of the Python package are called. With `try` the kit's own makes README's call too, which takes a minute or two.
. "$(dirname "$0")/work.sh"
cd "$(dirname "$0")/.." || exit 2
[ -x "${1:?no program}" ] || { echo "no program: $1"; exit 2; }
program=$(cd "$(dirname "$1")" && pwd)/$(basename "$1")
top=$PWD devices=/dev cases=0 bad=0 skipped=

# Two trees: one with a built program, and one without. Beside them are the example and a folder with a blank.
mkdir -p "$work/built/crates/rtdvs/out" "$work/bare/crates/rtdvs" "$work/tools" "$work/stand-in" "$work/away" "$work/a b" || exit 2
for tree in built bare; do
    cp rtdvs.sh "$work/$tree"
    mkdir "$work/$tree/crates/example_runs"
    cp -R crates/example_runs/data "$work/$tree/crates/example_runs"
done
cp crates/example_runs/data/paper/*.* "$work/a b"
ln -s "$program" "$work/built/crates/rtdvs/out/rtdvs"
for tool in sh dirname readlink mktemp sed cat rm env; do ln -s "$(command -v $tool)" "$work/tools/$tool"; done
own=$program
export work own
{ echo "#!$(command -v sh)"; cat; } > "$work/stand-in/rt" << 'END'
[ "$1 $2 $3 $4" = 'try --seconds 3600 --' ] && [ -d ../../crates/rtdvs ] || exit 2
shift 4
cd "$work/away" || exit 2
env -i "$own" "$@"
status=$?
echo "checked: ended status=$status" >&2
echo "run=ended status=$status runners=1 proved=no" >&2
exit $status
END
chmod +x "$work/stand-in/rt"
first=$(sed -n 's/^    sh rtdvs\.sh //p' README.md | head -n 1)
example=crates/example_runs/data/paper

# what a call has left in the files NAME.status, NAME.out and NAME.err
left() { cat "$work/$1.status" "$work/$1.out" "$work/$1.err"; }
# NAME COMMAND..: makes a call
call() {
    name=$1
    shift
    "$@" < "$work/in" > "$work/$name.out" 2> "$work/$name.err"
    echo $? > "$work/$name.status"
}
# FOLDER WORDS..: the same call by the program, and by rtdvs.sh of each tree with the stand-in
compare() {
    folder=$1
    shift
    cd "$work/built/$folder" || exit 2
    call own "$program" "$@"
    PATH=$work/tools call built sh "$work/built/rtdvs.sh" "$@"
    cd "$work/bare/$folder" || exit 2
    PATH=$work/stand-in:$work/tools call bare sh "$work/bare/rtdvs.sh" "$@"
    for tree in built bare; do
        cases=$((cases + 1))
        [ "$(left $tree)" = "$(left own)" ] && continue
        echo "wrapper: $tree: $*" && left $tree | head -n 5
        differs
    done
}
# NAME STATUS OUT ERR: what a call has to leave, with a line of what is on standard error, or none
leaves() {
    cases=$((cases + 1))
    [ "$(cat "$work/$1.status")" = "$2" ] && [ "$(cat "$work/$1.out")" = "$3" ] &&
        [ "$(head -n 1 "$work/$1.err")" = "$4" ] && return
    echo "wrapper: $1" && left "$1" | head -n 5
    differs
}

cp "$example/tasks.toml" "$work/in"
eval "compare . $first"
cases=$((cases + 1))
cmp "$work/built.out" "$top/$example/edf_cc_with_demands.trace" || differs
compare $example run --probes --ticks 16 --governor cc --scheduler edf --machine ./machine.toml --tasks ../paper/tasks.toml
compare crates admit --tasks "$work/a b/tasks.toml" --machine "../../a b/machine.toml" --scheduler rm
compare "../a b" replay --tasks tasks.toml --machine machine.toml --trace edf_la_with_demands.trace
compare "../a b" replay --tasks tasks.toml --machine machine.toml --trace edf_none.trace
compare $example response --tasks $devices/stdin --machine machine.toml
compare $example constrain --tasks ../deadlines/tasks.toml --machine machine.toml --deadlines ../deadlines/deadlines.csv
compare crates/example_runs/data/server poll --tasks tasks.toml --machine machine.toml --requests requests.csv --server s \
    --scheduler edf --governor none --ticks 15
compare $example poll --tasks tasks.toml --machine machine.toml --requests tasks.toml --server tasks.toml --scheduler edf \
    --governor none --ticks 15
compare . least --machine $example/machine.toml --units 28 --ticks 16
compare . admit --tasks absent --machine $example/machine.toml --scheduler edf
compare . admit --tasks '' --machine '' --scheduler edf
compare . admit --tasks --machine --scheduler edf
compare . run --ticks 0
compare . run tasks.toml --tasks
compare . 'a "quoted" $word' '*'

# Without Python: no word, and what the script says itself.
for tree in built bare; do
    PATH=$work/stand-in:$work/tools call bare sh "$work/$tree/rtdvs.sh"
    leaves bare 2 '' 'words: no command'
done
PATH=$work/tools call help sh "$work/built/rtdvs.sh" --help
leaves help 0 "$(cat "$work/help.out")" ''
cases=$((cases + 1))
[ "$(sed -n 's/^usage: //p' "$work/help.out")" = 'sh rtdvs.sh COMMAND OPTIONS..' ] || { echo 'wrapper: no help'; bad=$((bad + 1)); }
PATH=$work/tools call tool sh "$work/built/rtdvs.sh" compare
leaves tool 125 '' 'rtdvs.sh: compare needs Python 3.11'

# With Python: what ends with 0 is as before, and what is refused has one line more, with two blanks before it.
# second WORDS..: the same call by the program, and by rtdvs.sh of each tree with Python
second() {
    cd "$work/a b" || exit 2
    call own "$program" "$@"
    for tree in built bare; do
        PATH=$work/stand-in:$work/with-python:$work/tools call $tree sh "$work/$tree/rtdvs.sh" "$@"
        grep '^  [^ ]' "$work/$tree.err" > "$work/seconds"
        sed -i '/^  [^ ]/d' "$work/$tree.err"
        cases=$((cases + 1))
        [ "$(left $tree)" = "$(left own)" ] && case $(cat "$work/own.status"):$(wc -l < "$work/seconds") in
        0:0 | [1-9]:1) ;;
        *) false ;;
        esac && continue
        echo "wrapper: $tree with Python: $*" && left $tree | cat - "$work/seconds" | head -n 5
        bad=$((bad + 1))
    done
}
if python3 -P -c 'import tomllib' 2>&-; then
    mkdir "$work/with-python" && ln -s "$(python3 -c 'import sys; print(sys.executable)')" "$work/with-python/python3" || exit 2
    for tree in built bare; do ln -s "$top/python" "$work/$tree/python"; done
    second admit --tasks tasks.toml --machine machine.toml --scheduler edf
    second admit --tasks task.toml --machine machine.toml --scheduler edf
    second admit --tasks machine.toml --machine machine.toml --scheduler edf
    second replay --tasks tasks.toml --machine machine.toml --trace demands.csv
    second run --ticks 16ms
    second
    PATH=$work/with-python:$work/tools call tool sh "$work/built/rtdvs.sh" explain --quiet --tasks tasks.toml --machine machine.toml \
        --trace edf_none.trace
    leaves tool 0 "$(cat "$work/tool.out")" ''
    PATH=$work/with-python:$work/tools call tool sh "$work/built/rtdvs.sh" --version
    leaves tool 0 "rtdvs $(sed -n 's/^## \([0-9.]*\) (.*/\1/p' "$top/CHANGELOG.md" | head -n 1)" ''
    PATH=$work/with-python:$work/tools call tool sh "$work/built/rtdvs.sh" --help
    leaves tool 0 "$(cat "$work/tool.out")" ''
    cases=$((cases + 1))
    grep -q '^usage: sh rtdvs.sh' "$work/tool.out" || { echo 'wrapper: no help by Python'; bad=$((bad + 1)); }
    printf '[[task]]\nname = "a"\nperiod_ms = 4\nworst_cycles = 1000\n[[point]]\nmhz = 1\nvolts = 1\n' > board.toml
    RTDVS=$program PATH=$work/with-python:$work/tools call tool sh "$work/built/rtdvs.sh" response --board board.toml --tick-ms 0.5
    leaves tool 0 "$(printf 'task  response_ms  ticks  period_ms  laxity_ms\na               1      2          4          3')" ''
    for tree in built bare; do rm "$work/$tree/python"; done
else
    skipped=", 17 skipped (no Python 3.11)"
fi

# Through links, by the run bit, as a shell calls a file that names none: one with the whole path, one to that with a relative one.
mkdir "$work/links" "$work/links/more" && cd "$work/a b" || exit 2
ln -s "$work/bare/rtdvs.sh" "$work/links/whole" && ln -s ../whole "$work/links/more/relative" || exit 2
call own "$program" admit --tasks tasks.toml --machine machine.toml --scheduler edf
for link in whole more/relative; do
    PATH=$work/stand-in:$work/tools call link "$work/links/$link" admit --tasks tasks.toml --machine machine.toml --scheduler edf
    leaves link 0 "$(cat "$work/own.out")" ''
done

# From above, with a CDPATH that leads to another tree; and in a folder whose name begins like an option.
mkdir -p "$work/decoy/built" "$work/decoy/bare" "$work/-n/crates/rtdvs/out" && cp "$top/rtdvs.sh" "$work/-n" && ln -s "$program" "$work/-n/crates/rtdvs/out/rtdvs" && cd "$work" || exit 2
for tree in built bare; do
    CDPATH=$work/decoy:. PATH=$work/stand-in:$work/tools call led sh $tree/rtdvs.sh admit --tasks 'a b/tasks.toml' \
        --machine 'a b/machine.toml' --scheduler edf
    leaves led 0 "$(cat "$work/own.out")" ''
done
PATH=$work/tools call option sh -- -n/rtdvs.sh admit --tasks 'a b/tasks.toml' --machine 'a b/machine.toml' --scheduler edf
leaves option 0 "$(cat "$work/own.out")" ''

# On a terminal a slow call says so before it, and after it how to get a faster program.
if script -qec true "$work/typescript" > "$work/script" 2>&1; then
    PATH=$work/stand-in:$work/tools:$PATH script -qec 'sh "$work/bare/rtdvs.sh" least --units 1' "$work/typescript" > "$work/script" 2>&1
    for said in 'no built program, so rt try compiles one; it takes a minute' \
        "for faster calls build the program once: cd $work/bare/crates/rtdvs && rt run -- workload --seed 1"; do
        cases=$((cases + 1))
        tr -d '\r' < "$work/script" | grep -q -x -F "rtdvs.sh: $said" && continue
        echo "wrapper: not said on a terminal: $said" && cat "$work/script"
        differs
    done
else
    skipped="$skipped, 2 skipped (no terminal by script)"
fi

# No program and no rt; then an rt that can't answer.
cd "$work/bare" || exit 2
PATH=$work/tools call none sh rtdvs.sh least --units 1
leaves none 125 '' "rtdvs.sh: no $work/bare/crates/rtdvs/out/rtdvs, and no rt on the path"
{ echo "#!$(command -v sh)"; echo 'echo run=no-answer proved=no >&2; exit 6'; } > "$work/stand-in/rt"
PATH=$work/stand-in:$work/tools call unanswered sh rtdvs.sh least --units 1
leaves unanswered 125 '' 'run=no-answer proved=no'

if [ "${2-}" = try ]; then
    cp -R "$top/crates.txt" "$top/HANDLES" "$work/bare"
    (cd "$top" && find crates -name out -prune -o -type f -print | tar cf - -T -) | tar xf - -C "$work/bare"
    cd "$work/bare" || exit 2
    eval "call try sh rtdvs.sh $first"
    leaves try 0 "$(cat "$top/$example/edf_cc_with_demands.trace")" ''
fi
echo "wrapper: $cases cases, $bad differ$skipped"
[ $bad = 0 ]
