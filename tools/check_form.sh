# sh tools/check_form.sh: the counts of the code's form are within their limits; form.py says what it counts.
set -u
unset CDPATH
top=$(cd "$(dirname "$0")/.." && pwd)
[ -n "$(command -v python3)" ] || { echo 'form: skipped, no python3'; exit 0; }
cd "$top" || exit 1
if counts=$(python3 tools/form.py); then
    echo "form: $(echo "$counts" | wc -l) counts within their limits"
else
    echo "$counts"
    echo 'form: a count above its limit'
    exit 1
fi
