# check_gate.sh: gate_output.py over outputs of `rt ci` that are written here, in a tree of two crates and three edits.
. "$(dirname "$0")/work.sh"
top=$(cd "$(dirname "$0")/.." && pwd) || exit 2
[ -n "$(command -v python3)" ] || { echo 'gate: skipped, no python3'; exit 0; }
cases=0 bad=0
mkdir -p "$work/docs" "$work/crates/one/src" "$work/crates/one/must-fail" || exit 2
cd "$work" || exit 2
printf '%s\n' '| Proof | Functions |' '|---|---|' '| the program, `one` | 39 |' '| the library, `two` | 3 |' \
    > docs/PROVED.md
printf '%s\n' 'pub fn adds(a: u8) -> u8' '    ensures sum { result = a }' '{' '    a' '}' '' '#[tactic(auto)]' 'fn other() {' '}' \
    > crates/one/src/lib.rt
printf '# why: ensures sum of adds: the sum\nfile: src/lib.rt\nold: a\nnew: 0\n' > crates/one/must-fail/sum.edit
printf '# a sum that is another\n# why: ensures sum of adds\nfile: src/lib.rt\n# other\n' \
    > crates/one/must-fail/two_lines.edit
printf '# why: ensures of others\nfile: src/lib.rt\nold: a\nnew: 0\n' > crates/one/must-fail/others.edit

verdicts='== one
axioms libc: libc::close, libc::read, libc::write, ... (39 of the 393 declared)
logic=proved functions=2 axioms=39 sum=0
rt: one proved
== one: its tests
logic=proved tests=2 functions=2 axioms=41 sum=0
rt: one: its tests are proved
== two
logic=proved functions=2 axioms=3 sum=0
rt: two proved'
refused='refused, as it must be'
goal="rt: must-fail one/sum.edit: $refused: ./src/lib.rt:2:17: error: no proof of goal.sum"

differs() {
    printf 'gate: %s\nfound %s\nwanted %s\n' "$1" "$2" "$3"
    bad=$((bad + 1))
}
# WHAT STATUS LAST TEXT: of this output the script says this at last, and ends so; `said` has all that it says
holds() {
    cases=$((cases + 1))
    said=$(printf '%s\n' "$4" | python3 "$top/tools/gate_output.py" 2>&1)
    status=$?
    found="$status: $(printf '%s\n' "$said" | tail -n 1)"
    [ "$found" = "$2: gate: $3" ] || differs "$1" "$found" "$2: gate: $3"
}
# WHAT LINE: it also said this line
says() {
    cases=$((cases + 1))
    printf '%s\n' "$said" | grep -q -x -F -e "$2" || differs "$1" "$said" "$2"
}

holds 'all is as the page says' 0 '1 edits refused (1 goal), 0 faults' "$verdicts
$goal"
holds 'a function more' 1 '1 edits refused (1 goal), 1 faults' "$(printf '%s' "$verdicts" | sed 's/=3 sum/=4 sum/')
$goal"
says 'which number differs' 'docs/PROVED.md: two rests on 3 C functions there, and on 4 by its verdict'
holds 'no C function' 1 '1 edits refused (1 goal), 1 faults' "$(printf '%s' "$verdicts" | sed 's/ axioms=3 sum/ sum/')
$goal"
says 'a verdict without the word' 'docs/PROVED.md: two rests on 3 C functions there, and on 0 by its verdict'
holds 'another number of the tests' 0 '1 edits refused (1 goal), 0 faults' "$(printf '%s' "$verdicts" | sed s/=41/=50/)
$goal"
holds 'a proof that is kept' 0 '1 edits refused (1 goal), 0 faults' "$(printf '%s' "$verdicts" | sed '/^== two/,$d')
rt: two is kept: an earlier run on this machine proved the same files over the same libraries
$goal"
holds 'no verdict' 1 '1 edits refused (1 goal), 1 faults' "$(printf '%s' "$verdicts" | sed '/^== two/,$d')
$goal"
says 'which verdict' 'two: no verdict'
holds 'no edit' 1 '0 edits refused (none), 1 faults' "$verdicts"
says 'that there is none' 'one: no must-fail edit was refused'
holds 'all is kept' 0 '0 edits refused (none), 0 faults' 'rt: one is kept: an earlier run
rt: two is kept: an earlier run'
holds 'nothing' 1 '0 edits refused (none), 3 faults' ''

holds 'a goal of another function' 1 '1 edits refused (1 goal), 1 faults' "$verdicts
$(printf '%s' "$goal" | sed s/2:17/8:1/)"
says 'which function' \
    'one/sum.edit: refused in other, which its first lines don'\''t name: ./src/lib.rt:8:1: error: no proof of goal.sum'
holds 'the attribute of another function' 1 '1 edits refused (1 goal), 1 faults' "$verdicts
$(printf '%s' "$goal" | sed s/2:17/7:1/)"
holds 'a function whose name begins the same' 1 '1 edits refused (1 goal), 1 faults' "$verdicts
$(printf '%s' "$goal" | sed 's/sum.edit/others.edit/; s/2:17/8:1/')"
holds 'the second line names it, and a later one nothing' 1 '2 edits refused (2 goal), 1 faults' "$verdicts
$(printf '%s' "$goal" | sed s/sum.edit/two_lines.edit/)
$(printf '%s' "$goal" | sed 's/sum.edit/two_lines.edit/; s/2:17/8:1/')"
holds 'a proof by hand' 0 '1 edits refused (1 by hand), 0 faults' "$verdicts
rt: must-fail one/sum.edit: $refused: ./proofs/adds/Answers.antt:6:27: error: the two types differ"
says 'which edit' 'by hand: one/sum.edit: ./proofs/adds/Answers.antt:6:27: error: the two types differ'
holds 'a proof by hand of another' 1 '1 edits refused (1 by hand), 1 faults' "$verdicts
rt: must-fail one/sum.edit: $refused: note: proofs/part/Kind/other/Answers.antt:6:27: the two types differ"
holds 'a lemma' 0 '1 edits refused (1 lemma), 0 faults' "$verdicts
rt: must-fail one/sum.edit: $refused: ./proofs/Sums.antt:6:27: error: search: no proof"
holds 'a name that is gone' 0 '1 edits refused (1 name), 0 faults' "$verdicts
rt: must-fail one/sum.edit: $refused (only because a proof file names what the edit took away, so this says little of \
the contract: change a value and keep the names): proofs/adds/Answers.antt:6:27: error: has no field"
holds 'a limit' 0 '1 edits refused (1 limit), 0 faults' "$verdicts
rt: must-fail one/sum.edit: $refused (only by a limit of the prover, which gave no verdict, so this says less of the \
contract: choose a change that it refuses sooner): src/lib.rt:2:17: error: antt ran out of stack"
holds 'no place' 0 '1 edits refused (1 unplaced), 0 faults' "$verdicts
rt: must-fail one/sum.edit: $refused"
holds 'one of each' 0 '2 edits refused (1 goal, 1 lemma), 0 faults' "$verdicts
$goal
rt: must-fail one/two_lines.edit: $refused: ./proofs/Sums.antt:6:27: error: search: no proof"

echo "gate: $cases cases, $bad differ"
[ $bad = 0 ]
