# check.sh: what is checked beside the proofs, on the program that `rt ci` leaves, or on another:
#     sh tools/check.sh [PROGRAM]
# It runs each check that cases.txt names, also after one fails, at the top of the repository and with the program's
# absolute path. A check that passes ends with 0 and prints one line, which begins with its name and how many cases it had:
# exactly the number of cases.txt. If it lacks a tool, it says so at the end of that line, as `12 skipped (no valgrind)`,
# or after its name, as `skipped, no cc`. With TOOLS=all that fails, since tools/setup.sh installs what is lacking.
# The last line has the counts. The status is 1 if a check failed or none passed, and 2 if there is no program.
unset CDPATH
here=$(cd "$(dirname "$0")/.." && pwd) || exit 2
program=${1:-$here/crates/rtdvs/out/rtdvs}
case $program in
/*) ;;
*) program=$PWD/$program ;;
esac
[ -f "$program" ] && [ -x "$program" ] || { echo "no program: $program"; exit 2; }
cd "$here" || exit 2
passed=0 failed=0 skipped=0 cases=0 lacking=0

# WHAT: counts the check as failed, and says why
fails() {
    echo "tools/check_$name.sh: failed, $1"
    failed=$((failed + 1))
}

# how many cases the line of a check has skipped
skips() {
    case $said in
    "$name: skipped, "*) echo "$wanted" ;;
    *' skipped ('*) printf '%s\n' "$said" | sed 's/.*, \([0-9][0-9]*\) skipped (.*/\1/' ;;
    *) echo 0 ;;
    esac
}

# counts the line of a check that ended with 0
judge() {
    found=$(printf '%s\n' "$said" | sed -n "s/^$name: \\([0-9][0-9]*\\) .*/\\1/p")
    skips=$(skips)
    if [ "$skips" -gt 0 ] && [ "$TOOLS" = all ]; then
        fails 'skipped'
    elif [ $((${found:-0} + skips)) -ne "$wanted" ]; then
        fails "${found:-0} cases${skips:+ and $skips skipped}, and tools/cases.txt says $wanted"
    else
        lacking=$((lacking + skips))
        if [ "$skips" -eq "$wanted" ]; then skipped=$((skipped + 1)); else passed=$((passed + 1)); fi
    fi
}

# The names come by another stream, so that a check can't read them.
while read -r name wanted <&3; do
    case $name in '#' | '') continue ;; esac
    cases=$((cases + wanted))
    said=$(sh "tools/check_$name.sh" "$program")
    status=$?
    printf '%s\n' "$said"
    if [ $status != 0 ]; then
        fails "status $status"
    elif [ "$(printf '%s\n' "$said" | wc -l)" -ne 1 ] || [ -z "$said" ]; then
        fails 'not one line'
    else
        judge
    fi
done 3< tools/cases.txt

for check in tools/check_*.sh; do
    name=${check#tools/check_}
    name=${name%.sh}
    grep -q "^$name " tools/cases.txt || fails 'not in tools/cases.txt'
done

echo "checks: $passed passed, $failed failed, $skipped skipped; of $cases cases $lacking skipped"
[ $failed = 0 ] && [ $passed -gt 0 ]
