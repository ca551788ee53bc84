# check_failing.sh PROGRAM: what a call leaves where the system fails. The library fails.c, loaded before the C library,
# lets the n-th allocation, opening, read or write fail: each one of a call of each command, in a run of its own.
# What has to be left is worked out from FORMATS.md; each line is one write, each file is opened once, and read once for
# each 4096 bytes that it begins and once for its end.
# With ONLY it makes the calls that have this text.
# The first allocations are those for the words and the probes, of which each takes at least one.
. "$(dirname "$0")/work.sh"
case ${1:?no program} in
/*) program=$1 ;;
*) program=$PWD/$1 ;;
esac
[ -x "$program" ] || { echo "no program: $program"; exit 2; }
cd "$(dirname "$0")/.." || exit 2
[ -n "$(command -v cc)" ] || { echo 'failing: skipped, no cc'; exit 0; }
[ "$(uname)" = Linux ] || { echo 'failing: skipped, no LD_PRELOAD'; exit 0; }
# The calls name their files, and the loader the library, without a path, in which there may be blanks.
cc -shared -fPIC -o "$work/fails.so" tools/fails.c && cp -R crates/example_runs/data/* "$work" && cd "$work" || exit 2
cases=0 bad=0

# STATUS OUT ERR: whether the run left this, of its streams so many lines of the whole ones
left() { [ $status = "$1" ] && head -n "$2" whole | cmp -s - out && head -n "$3" notes | cmp -s - err; }
# STATUS PATTERN: whether the run left this status, no answer, and one line of this kind
refused() { [ $status = "$1" ] && [ ! -s out ] && [ "$(wc -l < err)" -eq 1 ] && grep -qxE "$2" err; }
# whether it left status 9 alone, and so did each run before it
silent() {
    [ $status = 9 ] && [ ! -s out ] && [ ! -s err ] && [ $n = $((quiet + 1)) ] && quiet=$n
}

# whether the run left what it may, where call number n of this kind failed in this way
may() {
    case "$kind $how" in
    'alloc refused') refused 9 'no memory' || silent || left 0 $lines $notes ;;
    'open refused') refused 3 "load: $(echo $files | cut -d ' ' -f $n)" ;;
    'read short' | 'write short') left 0 $lines $notes ;;
    read*) refused 3 "load: ($(echo $files | tr ' ' '|'))" ;;
    *) if [ $n -gt $lines ]; then left 0 $lines $((n - lines - 1)); else unwritten; fi ;;
    esac
}
# whether the lines before line n are there, and the refusal
unwritten() { [ $status = 8 ] && [ "$(cat err)" = 'write: out failed' ] && head -n $((n - 1)) whole | cmp -s - out; }

# how many calls of this kind there have to be, as far as it is known: `some`, where there may be any number but 0
calls() {
    case $kind in
    open) echo $# ;;
    write) echo $((lines + notes)) ;;
    read) echo $reads ;;
    alloc) echo some ;;
    esac
}

# KIND HOW WORDS..: lets each call of a kind fail in one way
each() {
    kind=$1 how=$2 n=1 quiet=0
    shift 2
    while
        FAILS=$kind HOW=$how AT=$n LD_LIBRARY_PATH=$work LD_PRELOAD=fails.so "$program" "$@" > out 2> err 3> reached
        status=$?
        [ -s reached ]
    do
        cases=$((cases + 1))
        may || { echo "$1, $kind $n $how: status $status"; differs; }
        n=$((n + 1))
    done
    wanted=$(calls $files)
    [ "$wanted" = $((n - 1)) ] || { [ "$wanted" = some ] && [ $n -gt 1 ]; } ||
        { echo "$1, $kind $how: $((n - 1)) calls, wanted $wanted"; differs; }
    [ $kind != alloc ] || [ $quiet -ge $(($# + 3)) ] ||
        { echo "$1: $quiet allocations before the call, for $# words and 3 probes"; differs; }
}

# Lines of more than 64 bytes.
name=abcdefghijklmnopqrstuvwxyz_-6789
printf '[[task]]\nname = "%s"\nperiod = 1099511627776\nworst = 1000000000000000000\n' $name > tasks
printf 'idle = 1000\n[[point]]\nspeed = 1000000\nmillivolts = 20000\n' > machine

while read -r words; do
    case $words in *"${ONLY-}"*) ;; *) continue ;; esac
    files=$(echo "$words" | awk '{ for (i = 1; i < NF; i++) if ($i ~ /^--(tasks|machine|demands|trace|deadlines|requests)$/) print substr($i, 3) }')
    "$program" $words > whole 2> notes || { echo "$words: fails"; differs; continue; }
    lines=$(wc -l < whole) notes=$(wc -l < notes) reads=0
    for file in $words; do
        [ ! -f "$file" ] || reads=$((reads + ($(wc -c < "$file") + 4095) / 4096 + 1))
    done
    while read -r way; do each $way $words; done << WAYS
alloc refused
open refused
read refused
read interrupted
read short
write refused
write interrupted
write nothing
write short
WAYS
done << CALLS
run --tasks controller/tasks.toml --machine controller/machine.toml --demands controller/demands.csv --scheduler edf --governor cc --ticks 100 --probes
admit --tasks controller/tasks.toml --machine controller/machine.toml --scheduler rm
replay --tasks controller/tasks.toml --machine controller/machine.toml --trace controller/edf_cc_with_demands.trace
migrate --tasks controller/tasks.toml --machine controller/machine.toml --trace controller/edf_cc_with_demands.trace
response --tasks controller/tasks.toml --machine controller/machine.toml
constrain --tasks deadlines/tasks.toml --machine deadlines/machine.toml --deadlines deadlines/deadlines.csv
poll --tasks server/tasks.toml --machine server/machine.toml --requests server/requests.csv --server s --scheduler edf --governor none --ticks 15
workload --seed 1
least --machine controller/machine.toml --units 1000 --ticks 20
run --tasks tasks --machine machine --scheduler edf --governor none --ticks 1099511627776 --format 2
CALLS
echo "failing: $cases cases, $bad differ"
[ $bad = 0 ]
