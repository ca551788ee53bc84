# check_peer.sh PROGRAM: `run` prints the bytes that tools/peer.c prints, a C program written apart from the proofs, for each
# example with a task file and a machine file, under each pair that admits it, without demands and with its demand file.
. "$(dirname "$0")/work.sh"
case ${1:?no program} in
/*) program=$1 ;;
*) program=$PWD/$1 ;;
esac
[ -x "$program" ] || { echo "no program: $program"; exit 2; }
[ -n "$(command -v cc)" ] || { echo 'peer: skipped, no cc'; exit 0; }
top=$(cd "$(dirname "$0")/.." && pwd)
cc -O2 -o "$work/peer" "$top/tools/peer.c" || exit 1
runs=0 bad=0

# compare WORDS: one run of both programs, if the program makes it
compare() {
    "$program" run "$@" > "$work/wanted" 2> "$work/notes" || return
    runs=$((runs + 1))
    "$work/peer" run "$@" > "$work/found" 2>&1
    cmp -s "$work/wanted" "$work/found" && return
    echo "differs: run $*"
    differs
}

for folder in ahead controller deadlines offsets paper server templates; do
    cd "$top/crates/example_runs/data/$folder" || exit 1
    for pair in 'edf none' 'edf static' 'edf cc' 'edf la' 'rm none' 'rm static' 'rm cc'; do
        scheduler=${pair% *} governor=${pair#* }
        for ticks in 16 5000; do
            set -- --tasks tasks.toml --machine machine.toml --scheduler "$scheduler" --governor "$governor" --ticks $ticks
            compare "$@"
            [ ! -f demands.csv ] || compare "$@" --demands demands.csv
        done
    done
done
echo "peer: $runs runs, $bad differ"
[ $bad = 0 ]
