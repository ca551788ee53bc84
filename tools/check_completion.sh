# check_completion.sh: the completion for bash, and the options of the man page, against the table of README.md.
unset CDPATH
cd "$(dirname "$0")/.." || exit 2
[ -n "$(command -v bash)" ] || { echo 'completion: skipped, no bash'; exit 0; }
bash tools/check_completion.bash
