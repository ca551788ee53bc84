# check_signals.sh PROGRAM: what scripts leave that a signal ends. package.sh and library.sh are called with stand-ins for
# the tools that they call; one of these calls signals the script, or its whole group of processes, before the tool does its
# work or when a part is written. The calls are spread over all; those that write the file, and give it its name, signal in
# each way. Then no file of the script's own is left, no process of it runs, the status isn't 0, and each file that it was
# to write is whole or as before. Each other script that has files of its own is signalled when it makes their folder.
# group.py, which runs the parts of check_python.sh, ends what they started.
# It needs setsid, which makes a group, an env that knows --default-signal, and a compiler. A script takes no signal that
# its caller lets it ignore, as `nohup` and a shell in the background do, so each call gets the signals back.
. "$(dirname "$0")/work.sh"
case ${1:?no program} in
/*) program=$1 ;;
*) program=$PWD/$1 ;;
esac
[ -x "$program" ] || { echo "no program: $program"; exit 2; }
cd "$(dirname "$0")/.." || exit 2
for tool in setsid cc ar ld objcopy dpkg-deb; do [ -n "$(command -v $tool)" ] || { echo "signals: skipped, no $tool"; exit 0; }; done
env --default-signal true 2>&- || { echo 'signals: skipped, no env --default-signal'; exit 0; }
python=${PYTHON:-/usr/bin/python3} shell=$(command -v sh) path=$PATH processes=/proc cases=0 bad=0 skipped=
mkdir "$work/tools" "$work/plain" "$work/into" "$work/temp" "$work/top" "$work/kit" "$work/kit/c" || exit 2
tar cf - --exclude out --exclude .git --exclude __pycache__ --exclude crates . | tar xf - -C "$work/top"
mkdir -p "$work/top/crates/rtdvs_c/src" "$work/top/crates/rtdvs_c/specs" "$work/top/crates/rtdvs_c/proofs" "$work/top/crates/rtdvs_c/out"
for folder in ahead controller deadlines offsets paper server templates; do mkdir -p "$work/top/crates/example_runs/data/$folder"; done
cp -R crates/example_runs/data crates/example_runs/stdout "$work/top/crates/example_runs"
built=$work/top/crates/rtdvs_c/out/librtdvs_c.a
cc -fPIC -c python/tests/stand_in.c -o "$work/kit/a.o" && ar rcs "$built" "$work/kit/a.o" &&
    ar rcs "$work/kit/c/liblibc_c.a" || exit 2

# A tool's stand-in: it counts and names the calls, and signals at one.
for tool in ar cc chmod cp dpkg-deb find gzip ld ln mkdir mv objcopy rm sed strip; do
    real=$(command -v $tool) || continue
    {
        echo "#!$shell"
        echo "real=$real"
        cat << 'END'
n=$(($(cat "$SIGNALS/count") + 1))
echo $n > "$SIGNALS/count"
echo "${real##*/}" >> "$SIGNALS/calls"
to=0
[ "$TO" = group ] || to=$(cat "$SIGNALS/script")
[ "$n" != "$AT" ] || [ "$WHEN" = midway ] || kill -s "$SIGNAL" "$to"
"$real" "$@"
status=$?
[ "$n" = "$AT" ] && [ "$WHEN" = midway ] || exit $status
# The file that the tool has written, of which only the first bytes were there when the signal came.
for file in "$@"; do :; done
case $real in */cp | */dpkg-deb) [ ! -f "$file" ] || echo part > "$file" ;; esac
kill -s "$SIGNAL" "$to"
END
    } > "$work/tools/$tool"
    chmod +x "$work/tools/$tool"
done
printf '#!%s\n[ "$1" != doc ] || echo "%s/kit/page.md"\n' "$shell" "$work" > "$work/tools/rt"
chmod +x "$work/tools/rt"
SIGNALS=$work/plain
export SIGNALS

# SIGNAL TO WHEN AT SCRIPT WORD..: calls the script in a group of its own. The status is left in `status`. The library is
# older than the crate, so that library.sh makes it anew.
call() {
    touch "$built"
    SIGNAL=$1 TO=$2 WHEN=$3 AT=$4
    export SIGNAL TO WHEN AT
    shift 4
    echo 0 > "$work/plain/count"
    : > "$work/plain/calls"
    PATH=$work/tools:$path TMPDIR=$work/temp env --default-signal setsid -w "$shell" -c 'echo $$ > "$SIGNALS/script"; exec sh "$@"' sh "$@" > "$work/out" 2>&1
    status=$?
}
# how many processes of the last call run; one that has ended may still have its number
running() {
    cat $processes/[0-9]*/stat 2>&- | sed 's/.*) //' | awk -v group="$(cat "$work/plain/script")" '$3 == group && $1 != "Z" { n++ } END { print n + 0 }'
}
# whether none does, after two seconds at most
ended() {
    for attempt in 1 2 3 4 5 6 7 8 9 10; do
        [ "$(running)" != 0 ] || return 0
        sleep 0.2
    done
    return 1
}
# FOLDER: the files of a folder, with their sums
sums() { (cd "$1" && find . | sort && find . -type f | sort | tr '\n' '\0' | xargs -0 cksum); }
# TOOL: the number of its last call
last() { grep -n -x "$1" "$work/plain/calls" | tail -n 1 | cut -d : -f 1; }
# FOLDER SCRIPT WORD..: each signal, at 16 of the calls of a script that writes into this folder, and in
# each way at the last ones that write a file there, and give it its name
signals() {
    into=$1
    shift
    case $1 in *"${ONLY-}") ;; *) return ;; esac
    rm -rf "$work/into" && mkdir "$work/into"
    call TERM group before 0 "$@"
    [ $status = 0 ] && [ -n "$(ls "$into")" ] || { echo "signals: $1 fails: $(tail -n 3 "$work/out")"; differs; return; }
    most=$(cat "$work/plain/count")
    wanted=$(sums "$into")
    # The last call takes the script's own files away.
    places=
    for share in 0 1 2 3 4 5 6 7 8 9 10 11 12 13 14 15; do places="$places $((1 + (most - 1) * share / 16))"; done
    writes=$(last dpkg-deb)
    writes=${writes:-$(last cp)} names=$(last mv)
    for n in $places $writes $writes $writes $writes $names $names $names $names; do
        case $((cases % 4)) in
        0) set -- HUP group before "$@" ;;
        1) set -- INT group midway "$@" ;;
        2) set -- TERM script midway "$@" ;;
        3) set -- TERM group midway "$@" ;;
        esac
        signal=$1 to=$2 when=$3
        shift 3
        cases=$((cases + 1))
        call $signal $to $when $n "$@"
        [ $status != 0 ] && [ "$(sums "$into")" = "$wanted" ] && [ -z "$(ls -A "$work/temp")" ] && ended || {
            echo "signals: ${1##*/}, $signal to the $to $when call $n: status $status, running: $(running), left: $(ls -A "$work/temp") $(sums "$into" | tr '\n' ' ')"
            differs
            rm -rf "$work/temp" && mkdir "$work/temp"
        }
    done
}
signals "$work/top/crates/rtdvs_c/out/lib" "$work/top/tools/library.sh"
signals "$work/into" "$work/top/tools/library.sh" "$work/into"
signals "$work/into" "$work/top/tools/package.sh" "$program" "$work/into"

# SCRIPT SIGNAL TO WHEN: a signal at the first call of a tool, which makes the folder of the script's own files
begins() {
    cases=$((cases + 1))
    call "$2" "$3" "$4" 1 "$work/top/$1" "$program"
    calls=$(tr '\n' ' ' < "$work/plain/calls")
    [ $status != 0 ] && [ "$calls" = 'mkdir rm ' ] && [ -z "$(ls -A "$work/temp")" ] && ended && return
    echo "signals: $1, $2 to the $3 $4 its first call: status $status, running: $(running), calls: $calls, left: $(ls -A "$work/temp")"
    differs
    rm -rf "$work/temp" && mkdir "$work/temp"
}
for script in $(grep -l '[$]work' tools/*.sh); do
    case $script in */library.sh | */package.sh | */python_part.sh | */work.sh) continue ;; *"${ONLY-}") ;; *) continue ;; esac
    begins $script HUP group before
    begins $script INT group midway
    begins $script TERM script midway
done

# group.py: what a command has started ends with the command, and with group.py itself.
# WORD..: calls it over a command that starts another one
group() {
    cases=$((cases + 1))
    env --default-signal "$python" tools/group.py "$shell" -c "echo \$\$ > '$work/plain/script'; sleep 60 & $1" > "$work/out" 2>&1 &
    if [ "$1" = 'sleep 60' ]; then
        until [ "$(running)" = 3 ]; do sleep 0.1; done
        kill -TERM $!
    fi
    wait $!
    status=$?
    [ $status = "$2" ] && ended && return
    echo "signals: group.py, $1: status $status, running: $(running)"
    differs
}
case group.py in *"${ONLY-}") ;; *) echo "signals: $cases cases, $bad differ"; [ $bad = 0 ]; exit ;; esac
if "$python" -c 'import tomllib' 2>&-; then
    : > "$work/plain/script"
    group 'exit 3' 3
    : > "$work/plain/script"
    group 'sleep 60' 143
else
    skipped=", 2 skipped (no Python 3.11)"
fi
echo "signals: $cases cases, $bad differ$skipped"
[ $bad = 0 ]
