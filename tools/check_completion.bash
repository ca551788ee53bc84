# Compares the completion of rtdvs.bash, and the options of the man page, with the table of README.md. It is run at the
# top of the repository, by check_completion.sh.
source examples/rtdvs.bash
cases=0 bad=0

# What is offered for the last of the words, against the words behind the --.
offers() {
    local found wanted
    COMP_WORDS=("${called-rtdvs}")
    while [ "$1" != -- ]; do COMP_WORDS+=("$1"); shift; done
    shift
    COMP_CWORD=$((${#COMP_WORDS[@]} - 1))
    _rtdvs
    cases=$((cases + 1))
    found=$(printf '%s\n' "${COMPREPLY[@]}" | sort)
    wanted=$(printf '%s\n' "$@" | sort)
    [ "$found" = "$wanted" ] || { echo "${COMP_WORDS[*]}: found" $found "wanted" $wanted; bad=$((bad + 1)); }
}

# The options of a command in the synopsis of the man page, sorted, and whether each one is explained there.
synopsis() {
    awk -v command="$1" '/^[.]Sh DESCRIPTION/ { exit }
        /^[.]Nm/ { on = 0 }
        /^[.]Cm / { on = index(" " $0 " ", " " command " ") }
        on && match($0, /Fl -[a-z]+/) { print "-" substr($0, RSTART + 3, RLENGTH - 3) }' docs/rtdvs.1 | sort
}
in_man_page() {
    cases=$((cases + 1))
    local found
    found=$(synopsis "$1")
    shift
    [ "$found" = "$(printf '%s\n' "$@" | sort)" ] || { echo "docs/rtdvs.1: found" $found "wanted $*"; bad=$((bad + 1)); }
}

[ "$(complete -p rtdvs)" = 'complete -F _rtdvs rtdvs' ] || { echo 'rtdvs has no completion'; bad=$((bad + 1)); }
rows=$(sed -n '/^| Command | Options/,/^$/p' README.md | grep '^| `')
[ "$(wc -l <<< "$rows")" -eq 9 ] || { echo 'README.md: not nine commands'; bad=$((bad + 1)); }
offers '' -- $(cut -d '`' -f 2 <<< "$rows")
while read -r row; do
    command=$(cut -d '`' -f 2 <<< "$row")
    options=$(grep -o -e '--[a-z]*' <<< "$row")
    offers $command '' -- $options
    in_man_page $command $options
    for option in $options; do
        case $option in --probes) before=($option) ;; *) before=($option 1) ;; esac
        offers $command "${before[@]}" '' -- $(grep -v -x -e $option <<< "$options")
        offers $command "${option%?}" -- $(grep -e "^${option%?}" <<< "$options")
        grep -q -E "^[.]It Fl -${option#--}( |\$)" docs/rtdvs.1 || { echo "docs/rtdvs.1: no $option"; bad=$((bad + 1)); }
    done
done <<< "$rows"

cd crates/example_runs/data/templates || exit 1
offers r -- run replay response
offers run --scheduler '' -- edf rm
offers run --governor '' -- none static cc la
offers run --scheduler rm --governor '' -- none static cc
offers run --governor la --scheduler '' -- edf
offers run --format '' -- 1 2
offers run --probes --format '' -- 1 2
offers run --ticks '' --
offers admit --governor '' --
offers run --tasks '' -- machine.toml tasks.toml
offers run --demands d -- deadlines.csv demands.csv
offers replay --trace e -- edf_cc_with_demands.trace
offers run --tasks README -- README.md
offers poll --tasks tasks.toml --server '' -- control logger
offers poll --tasks tasks.toml --server c -- control
offers run --tasks ../te -- ../templates
offers run --tasks --scheduler '' -- --machine --scheduler --governor --ticks --demands --probes --format
folders=(../*/)
offers run --tasks ../ -- "${folders[@]%/}"
offers walk '' --

# The commands and options of rtdvs-tools are those of its help.
rtdvs-tools() {
    case $1 in
    --help) printf '%s\n' 'usage: rtdvs-tools' '    simulate    a run' '    paper-table' '               energies' ;;
    simulate) printf '%s\n' 'usage: rtdvs-tools simulate [--help] --tasks FILE' '  --trace-to FILE  as --tasks' '  --any' ;;
    esac
}
called=rtdvs-tools
offers '' -- $(cut -d '`' -f 2 <<< "$rows") simulate paper-table
offers s -- simulate
offers simulate '' -- --tasks --trace-to --any
offers simulate --any --t -- --tasks --trace-to
offers simulate --tasks '' -- machine.toml tasks.toml
offers admit --scheduler '' -- edf rm
offers walk '' --
[ "$(complete -p rtdvs-tools)" = 'complete -F _rtdvs rtdvs-tools' ] || { echo 'rtdvs-tools has no completion'; bad=$((bad + 1)); }
echo "completion: $cases cases, $bad differ"
[ $bad = 0 ]
