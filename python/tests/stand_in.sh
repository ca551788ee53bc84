# A stand-in for rt: `rt try --cases` prints the last argument of each case, refuses an admit, and stops at seven.
[ "$1 $2 $3 $4" = 'try --seconds 3600 --cases' ] && [ "$(basename "$PWD")" = crate ] || exit 2
echo "$@" >> "$0.log"
for case in "$5"/*[0-9]; do
    echo "== $(basename "$case")"
    if grep -q seven "$case.args"; then
        echo 'checked: no-answer: too much' >&2
        echo "case=$(basename "$case") run=no-answer proved=no" >&2
    elif grep -q admit "$case.args"; then
        echo 'denied edf 248 240' >&2
        echo "case=$(basename "$case") run=ended status=1 runners=1 proved=no" >&2
    else
        tail -n 1 "$case.args"
        echo "case=$(basename "$case") run=ended status=0 runners=1 proved=no" >&2
    fi
done
echo cases=3 proved=no >&2
