# check_reading.sh: whether the lists of READING.md are what reading.py prints, and the names of PROVED.md those of the code.
unset CDPATH
cd "$(dirname "$0")/.." || exit 2
[ -n "$(command -v python3)" ] || { echo 'reading: skipped, no python3'; exit 0; }
PYTHONDONTWRITEBYTECODE=1 python3 tools/reading.py --check
