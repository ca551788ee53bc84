# check_named.sh: whether the numbers of MAP.md, how many files name what, are those of what named.sh prints.
unset CDPATH
cd "$(dirname "$0")/.." || exit 2
sh tools/named.sh --check
