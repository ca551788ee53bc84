# plants.sh: whether the checks see what they are there to see:
#     sh tools/plants.sh PROGRAM [CHECK | NUMBER [SEED]]
# Each plant of tools/planted is a small fault with the check that has to fail. One by one they are put into a copy of the
# repository, and that check, or a part of it, is run there. It says which plants were not seen, and ends with 1 if there
# is one, or if a check fails without a plant. CHECK takes the plants of one check, NUMBER as many of all at random, by
# the SEED, or by the time without one; the seed is printed. As many checks run at a time as there are processors.
# plants.py has the form of a plant, and says what a lacking tool does.
. "$(dirname "$0")/work.sh"
case ${1:?no program} in
/*) program=$1 ;;
*) program=$PWD/$1 ;;
esac
[ -x "$program" ] || { echo "no program: $program"; exit 2; }
cd "$(dirname "$0")/.." || exit 2
python=${PYTHON:-/usr/bin/python3}
"$python" -c 'import tomllib' 2>&- || { echo 'plants: skipped, no Python 3.11'; exit 0; }
shift
PYTHONDONTWRITEBYTECODE=1 "$python" tools/group.py "$python" tools/plants.py "$work" "$program" "$@" &
jobs=$!
wait $jobs
status=$?
jobs=
exit $status
