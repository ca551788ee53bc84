# check_cost.sh PROGRAM: what calls cost, in instructions by valgrind, which depend on nothing but the call. cost.txt has
# the most for each call of example_runs, for those of stored_calls whose searches could take long, and for some by the
# library. A call may not take more, nor so little that the most is more than 3 percent above it. What a call without words
# takes isn't counted, so that the numbers hold over another C library. With ONLY it makes the calls that have this text.
#     sh tools/check_cost.sh PROGRAM --write      makes cost.txt anew
# It needs valgrind. Calls by the library need cc, and rt or a library that library.sh has made; without they are skipped.
. "$(dirname "$0")/work.sh"
case ${1:?no program} in
/*) program=$1 ;;
*) program=$PWD/$1 ;;
esac
[ -x "$program" ] || { echo "no program: $program"; exit 2; }
cd "$(dirname "$0")/.." || exit 2
[ -n "$(command -v valgrind)" ] || { echo 'cost: skipped, no valgrind'; exit 0; }
top=$PWD lib=$PWD/crates/rtdvs_c/out/lib cases=0 bad=0 skipped=0 lacks=
for tool in cc ar ld objcopy; do [ -n "$(command -v $tool)" ] || lacks="no $tool"; done
[ -n "$lacks" ] || [ -z "$(command -v rt)" ] || sh tools/library.sh > "$work/made" 2>&1 ||
    { tail -n 5 "$work/made"; echo 'cost: library not made'; exit 1; }
[ -n "$lacks" ] || [ -f "$lib/librtdvs.so" ] || lacks='no library'
cp -R crates/example_runs/data "$work/data" && cd "$work/data" || exit 2

# NAME TITLE: the two files of the first case of stored_calls after this title
stored() {
    mkdir -p "sets/$1"
    awk -v folder="sets/$1" -v title="# $2" '
        $0 == title { on = 1 }
        on && /^file / { file = folder "/" $2; next }
        on && /^[|]/ { print substr($0, 2) > file }
        on && /^-/ { printf "%s", substr($0, 2) > file }
        on && /^call / { exit }' "$top/crates/stored_calls/data/calls.txt"
}
stored long 'exact: responses: a long response of 64 tasks'
stored search 'exact: responses: a set that takes the search long'
stored order 'exact: responses: a set built against the order of the search'
stored relaxed 'exact: responses: a set built against the relaxed searches'
stored none 'exact: responses: no response after a long search'

# PROGRAM WORD..: its instructions
count() {
    env -i LD_LIBRARY_PATH="$lib" PATH="$PATH" valgrind --tool=cachegrind --cache-sim=no --cachegrind-out-file="$work/counts" \
        --log-file="$work/log" "$@" > "$work/out" 2> "$work/err"
    sed -n 's/.* I *refs: *//p' "$work/log" | tr -d ,
}
# the calls, each after its way
calls() {
    sed 's/^/program /' calls.txt
    for set in long search order relaxed none; do echo "program response --tasks sets/$set/T --machine sets/$set/M"; done
    grep -e '^admit .*edf$' -e '--governor la' -e '^poll' calls.txt | sed 's/^/library /'
}
# WAY WORD..: what a call takes beside a call without words
takes() {
    case $1 in program) by=$program none=$program_none ;; library) by=$work/call none=$call_none ;; esac
    shift
    echo $(($(count "$by" "$@") - none))
}

program_none=$(count "$program") call_none=
if [ -z "$lacks" ]; then
    cc -O2 "$top/library/call.c" "$lib/librtdvs.so" -o "$work/call" || exit 2
    call_none=$(count "$work/call")
fi
if [ "${2-}" = --write ]; then
    calls | while read -r words; do echo "$(($(takes $words) * 1015 / 1000)) $words"; done > "$work/cost.txt"
    cp "$work/cost.txt" "$top/tools/cost.txt"
    exit
fi
[ "$(calls)" = "$(cut -d ' ' -f 2- "$top/tools/cost.txt")" ] || { echo 'cost: other calls than in tools/cost.txt'; bad=1; }
while read -r most words; do
    case $words in *"${ONLY-}"*) ;; *) continue ;; esac
    case $words in library*) [ -n "$call_none" ] || { skipped=$((skipped + 1)); continue; } ;; esac
    cases=$((cases + 1)) found=$(takes $words)
    [ "$found" -le "$most" ] && [ $((most * 100)) -le $((found * 103)) ] && continue
    echo "cost: $found, at most $most: $words"
    differs
done < "$top/tools/cost.txt"
echo "cost: $cases calls, $bad differ$([ $skipped = 0 ] || echo ", $skipped skipped ($lacks)")"
[ $bad = 0 ]
