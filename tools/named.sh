# named.sh: which files name a command, a governor's kind or a version of the trace, outside its own files.
#   sh tools/named.sh           prints a table: names that are in the same files share a row
#   sh tools/named.sh --check   ends with 1 where MAP.md has other names or numbers of files
# A file names a command by its variant, its words or its module. Looked at are `src` and `specs` of `words`, of
# `command_files` and of `rtdvs_top`; a command's own files are those that have its name, `generated` those of `workload`
# and `planned` those of `run`.
# `replay` and `migrate` have the same two, `trace`, and one record of words. A file names a kind or a version by its
# variant. Looked at are `src` and `specs` of all crates but those of tests and of examples; for kinds, of all but those
# of governors too. Comments and imports don't count; exports and lists of modules do. A pattern that no file has is a
# fault, since it would count nothing.
. "$(dirname "$0")/work.sh"
cd "$(dirname "$0")/.." || exit 2
export LC_ALL=C
mode=$1

# What each file says beside its comments and imports, in a file of its name.
for crate in crates/*/src crates/*/specs; do
    find "$crate" -type d -exec mkdir -p "$work/{}" \;
    for file in $(find "$crate" -type f); do
        sed -e '/^ *\/\//d' -e '/^ *--/d' -e '/^ *\(ghost \)*use .*{$/,/};$/d' -e '/^ *\(ghost \)*use /d' "$file" > "$work/$file"
    done
done

# every PATTERN..: notes each pattern that no word of a file is like
every() {
    for pattern; do
        (cd "$work" && grep -rqE "(^|[^A-Za-z0-9_])($pattern)([^A-Za-z0-9_]|\$)" crates) ||
            echo "named.sh: no file has $pattern" >> "$work/dead"
    done
}

# row NAME PATTERN FILES: the name, and those of the files in which a word is like the pattern
row() {
    echo "$1" $(cd "$work" && grep -El "(^|[^A-Za-z0-9_])($2)([^A-Za-z0-9_]|\$)" $3 | sed 's/^crates\///')
}

# command_row NAME VARIANTS RECORDS WORD MODULE [CODE SPECS]: the row of a command; WORD begins what specs say of its words,
# as in (run r); CODE and SPECS are two more files of its own
command_row() {
    module=$(echo "$5" | tr '[:upper:]' '[:lower:]')
    for variant in $(echo "$2" | tr '|' ' '); do
        every "(Command|CommandWords|Verb)::$variant|(command|words|verb)[.]$variant"
    done
    every $(echo "$3" | tr '|' ' ') "[(]$4 [a-z]+" "mod $module" "mod $5"
    row "$1" "(Command|CommandWords|Verb)::($2)|(command|words|verb)[.]($2)|($3)|[(]$4 [a-z]+|mod ($module|$5)" \
        "$(echo "$words" | grep -v -e "/$module.rt\$" -e "/specs/$5.antt\$" -e "/${6:-$module}.rt\$" -e "/specs/${7:-$5}.antt\$")"
}

rows() {
    words=$(for crate in words command_files rtdvs_top; do find crates/$crate/src crates/$crate/specs -type f; done | sort)
    command_row run Run 'RunView|RunWords' run Run planned PlannedRuns
    command_row admit Admit 'AdmitView|AdmitWords' admit Admit
    command_row replay 'Replay|Traced' 'TracedView|TraceWords|TraceUse' traced Trace
    command_row migrate 'Migrate|Traced' 'TracedView|TraceWords|TraceUse' traced Trace
    command_row workload Workload 'workload_answer' workload Generated
    command_row response Response 'ResponseView|ResponseWords' response Response
    command_row constrain Constrain 'ConstrainView|ConstrainWords' constrain Constrain
    command_row poll Poll 'PollView|PollWords' poll Poll
    command_row least Least 'LeastView|LeastWords' least Least

    files=$(find crates/*/src crates/*/specs -type f | sort |
        grep -v -e '^crates/[a-z_]*_tests/' -e '^crates/stored_calls/' -e '^crates/example_runs/' \
            -e '^crates/test_inputs/' -e '^crates/reserve_gov/')
    others=$(echo "$files" | grep -v -e '^crates/static_gov/' -e '^crates/cc_edf' -e '^crates/cc_rm' -e '^crates/look_ahead')
    every Plain Fixed Cycle Ahead One Two
    for kind in Plain Fixed Cycle Ahead; do
        row "$kind" "$kind" "$others"
    done
    for version in One Two; do
        row "$version" "$version" "$files"
    done
}

# a row of the table for each list of files: the names, how many files, and the files of each crate
table() {
    printf '| Named | Files | Which |\n|---|---|---|\n'
    rows | awk '
    {
        list = ""; last = ""
        for (i = 2; i <= NF; i++) {
            crate = $i; sub(/\/.*/, "", crate)
            file = substr($i, length(crate) + 2)
            list = list (crate == last ? ", `" : (last == "" ? "`" : "; `") crate "`: `") file "`"
            last = crate
        }
        if (!(list in names)) { order[++lists] = list; names[list] = "`" $1 "`" } else names[list] = names[list] ", `" $1 "`"
        number[list] = NF - 1
    }
    END { for (i = 1; i <= lists; i++) print "| " names[order[i]] " | " number[order[i]] " | " order[i] " |" }'
}

case $mode in
--check)
    table | cut -d '|' -f 1-3 | sed 's/$/|/' | {
        lacks=0 count=0
        while read -r line; do
            count=$((count + 1))
            grep -qxF -e "$line" docs/MAP.md || { echo "docs/MAP.md lacks: $line"; lacks=$((lacks + 1)); }
        done
        [ ! -f "$work/dead" ] || { cat "$work/dead"; lacks=$((lacks + $(wc -l < "$work/dead"))); }
        echo "named: $count lines, $lacks differ"
        [ $lacks = 0 ]
    } ;;
*) table ;;
esac
