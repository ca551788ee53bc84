# Completion of the commands, options and values of rtdvs and rtdvs-tools in bash: source examples/rtdvs.bash
# Checked by tools/check_completion.sh, which compares it with the table of README.md.

_rtdvs_options() {
    case $1 in
        run) echo --tasks --machine --scheduler --governor --ticks --demands --probes --format ;;
        admit) echo --tasks --machine --scheduler ;;
        replay | migrate) echo --tasks --machine --trace ;;
        workload) echo --seed ;;
        response) [ "${COMP_WORDS[0]##*/}" != rtdvs ] || echo --tasks --machine; _rtdvs_more "$1" ;;
        constrain) echo --tasks --machine --deadlines ;;
        poll) echo --tasks --machine --requests --server --scheduler --governor --ticks ;;
        least) echo --machine --units --ticks ;;
        *) _rtdvs_more "$1" ;;
    esac
}

# The options of a command of rtdvs-tools.
_rtdvs_more() {
    [ "${COMP_WORDS[0]##*/}" = rtdvs ] ||
        echo $(_rtdvs_help "$1" | grep -o -e '--[a-z][a-z-]*' | grep -v -x -e --help | sort -u)
}

# The help of a command of rtdvs-tools, or of all.
_rtdvs_help() { "${COMP_WORDS[0]}" ${1:+"$1"} --help 2>&-; }

# The commands: the program's, and for rtdvs-tools those of its help, which begin after four blanks.
_rtdvs_commands() {
    echo run admit replay migrate workload response constrain poll least
    [ "${COMP_WORDS[0]##*/}" = rtdvs ] || _rtdvs_help | sed -n 's/^    \([a-z][a-z-]*\).*/\1/p' | grep -v -x response
}

# Files with an ending, and folders; any file where there are none.
_rtdvs_files() {
    compopt -o filenames 2> /dev/null
    mapfile -t COMPREPLY < <(compgen -f -X "!*.$1" -- "$2"; compgen -d -- "$2")
    [ ${#COMPREPLY[@]} -gt 0 ] || mapfile -t COMPREPLY < <(compgen -f -- "$2")
}

# The names of a task file, for --server.
_rtdvs_tasks() { sed -n 's/^[[:space:]]*name[[:space:]]*=[[:space:]]*"\([A-Za-z0-9_-]*\)".*/\1/p' "$1" 2> /dev/null; }

# Reads the words before the cursor: an option takes the next word as its value, a flag none.
_rtdvs() {
    local word=${COMP_WORDS[COMP_CWORD]} command=${COMP_WORDS[1]} option='' offered place=2
    local -A given=()
    COMPREPLY=()
    if [ "$COMP_CWORD" -eq 1 ]; then
        mapfile -t COMPREPLY < <(compgen -W "$(_rtdvs_commands)" -- "$word")
        return
    fi
    while [ "$place" -lt "$COMP_CWORD" ]; do
        option=${COMP_WORDS[place]}
        given[$option]=${COMP_WORDS[place + 1]}
        case $option in
            --probes | --any | --quiet | --report | --turbo) option='' place=$((place + 1)) ;;
            *) place=$((place + 2)) ;;
        esac
    done
    if [ "$place" -eq "$COMP_CWORD" ]; then
        for offered in $(_rtdvs_options "$command"); do
            [ -n "${given[$offered]+given}" ] || _rtdvs_add "$offered" "$word"
        done
        return
    fi
    case " $(_rtdvs_options "$command") " in *" $option "*) _rtdvs_value "$option" "$word" ;; esac
}

_rtdvs_add() { case $1 in "$2"*) COMPREPLY+=("$1") ;; esac; }

# The pair of rm and la is no choice.
_rtdvs_value() {
    local values=''
    case $1 in
        --tasks | --machine) _rtdvs_files toml "$2"; return ;;
        --demands | --deadlines | --requests) _rtdvs_files csv "$2"; return ;;
        --trace) _rtdvs_files trace "$2"; return ;;
        --server) values=$(_rtdvs_tasks "${given[--tasks]}") ;;
        --scheduler) values='edf rm'; [ "${given[--governor]}" = la ] && values=edf ;;
        --governor) values='none static cc la'; [ "${given[--scheduler]}" = rm ] && values='none static cc' ;;
        --format) values='1 2' ;;
        --output | --folder | --program | --board | --device-tree | --table) mapfile -t COMPREPLY < <(compgen -f -- "$2"); return ;;
    esac
    mapfile -t COMPREPLY < <(compgen -W "$values" -- "$2")
}

complete -F _rtdvs rtdvs rtdvs-tools
