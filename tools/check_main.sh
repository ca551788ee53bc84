# check_main.sh PROGRAM: what the built program alone shows, and no contract and no stored run. These are its exit
# status, what it writes to which of the two streams, its three probes and their limit, words that are empty, no text or
# too many, names of files, files of the most bytes and of many rows, streams that are full or closed, and memory that
# runs out. What each case has to leave is worked out from FORMATS.md.
# Cases over a full device, or under a limit of memory, are skipped where there is none.
. "$(dirname "$0")/work.sh"
case ${1:?no program} in
/*) program=$1 ;;
*) program=$PWD/$1 ;;
esac
[ -x "$program" ] || { echo "no program: $program"; exit 2; }
devices=/dev cases=0 bad=0 skips=0 lacks=
cd "$work" || exit 2

# the lines of a text, none where it is empty
lines() { [ -z "$1" ] || printf '%s\n' "$1"; }

# NAME STATUS OUT ERR: whether the last call, whose status is in `found`, left this
check() {
    lines "$3" > wanted.out
    lines "$4" > wanted.err
    cases=$((cases + 1)) same=yes
    [ "$found" = "$2" ] || same=no
    cmp -s out wanted.out || same=no
    cmp -s err wanted.err || same=no
    [ $same = no ] || return 0
    echo "$1: status $found, wanted $2"
    diff wanted.out out | sed 's/^/    out /'
    diff wanted.err err | sed 's/^/    err /'
    differs
}

# NAME STATUS OUT ERR: whether `check` sees that the last call didn't leave this
sees() {
    cases=$((cases + 1))
    (FIRST= bad=0; check "$@" > said; [ $bad = 1 ]) && return
    echo "$1: the check doesn't see it"
    differs
}

# WORDS..: calls the program
call() {
    "$program" "$@" > out 2> err
    found=$?
}

# NAME BYTES: makes a file of so many bytes: a line feed, and before it zeros that take no room
zeros() {
    rm -f "$1"
    echo | dd of="$1" bs=1 seek=$(($2 - 1)) 2> err
}

# A task with a unit in every second tick; one with a unit in each; one that asks for too much; one speed.
printf '[[task]]\nname = "a"\nperiod = 2\nworst = 1\n' > tasks
printf '[[task]]\nname = "a"\nperiod = 1\nworst = 1\n' > each
printf '[[task]]\nname = "a"\nperiod = 2\nworst = 3\n' > much
printf '[[point]]\nspeed = 1\nmillivolts = 1000\n' > machine
printf 'task,job,units\n' > demands
printf 'task,job,units\na,1,2\n' > over
: > empty
two='--tasks tasks --machine machine'
trace='trace 1
plan edf none 2
release 0 a 1
speed 0 1 1/1
run 0:0 1:0 a 1 1 1000000000
done 1:0 a 1 1
speed 1 1 1/1
idle 1:0 2:0 1 0
end 2 1000000000 0'
run="run $two --scheduler edf --governor none --ticks 2"
lines "$trace" > right
sed 's/^speed 0 1 .*/speed 0 1 2\/2/' right > wrong

call $run
check 'a run' 0 "$trace" ''
sees 'another status' 1 "$trace" ''
sees 'another answer' 0 "${trace%0}1" ''
sees 'another note' 0 "$trace" 'no memory'
call $run --probes
check 'a run with probes' 0 "$trace" 'probe 1 speeds all 2
probe 2 units all 1
probe 3 dones all 1'
call admit $two --scheduler edf
check 'admitted' 0 'admitted edf 1/2 1' ''
call replay $two --trace right
check 'replayed' 0 'replayed 1 1 1000000000 0' ''

call admit --tasks much --machine machine --scheduler edf
check 'denied' 1 '' 'denied edf 3 2'
call
check 'no words' 2 '' 'words: no command'
call --
check 'a word of two dashes' 2 '' 'words: 1: unknown command --'
call $run --
check 'two dashes behind the last word' 2 '' 'words: 12: unexpected --'
set -- $run --demands demands --format 1 --probes
call "$@"
check 'as many words as a command can have' 0 "$trace" 'probe 1 speeds all 2
probe 2 units all 1
probe 3 dones all 1'
call "$@" more
check 'a word more' 2 '' 'words: 17: unexpected more'
call run --ticks 0
check 'a word with a bad value' 2 '' 'words: 3: bad value 0'
call admit --tasks '' --machine machine --scheduler edf
check 'an empty word' 2 '' 'words: 3: bad value '
call ''
check 'an empty command' 2 '' 'words: 1: unknown command '
call admit $two --scheduler
check 'no last word' 2 '' 'words: 6: no value for --scheduler'
call é
check 'a word that no name has' 2 '' 'words: 1: unknown command ??'
call admit --tasks absent --machine machine --scheduler edf
check 'an absent file' 3 '' 'load: tasks'
for name in absent.toml Absent 'absent ' ' absent' absen rtdvs.toml tasks.toml; do cp tasks "$name"; done
call admit --tasks absent --machine machine --scheduler edf
check 'an absent file beside others' 3 '' 'load: tasks'
call admit --tasks ' tasks' --machine machine --scheduler edf
check 'a name that begins with a blank' 3 '' 'load: tasks'
call admit --tasks 'tasks ' --machine machine --scheduler edf
check 'a name that ends with a blank' 3 '' 'load: tasks'
for name in ' tasks ' --; do
    cp much "./$name"
    call admit --tasks "$name" --machine machine --scheduler edf
    check "a file of the name '$name'" 1 '' 'denied edf 3 2'
done
call admit --tasks tasks --machine . --scheduler edf
check 'a folder' 3 '' 'load: machine'
call admit --tasks empty --machine machine --scheduler edf
check 'a file that is refused' 4 '' 'tasks: no tasks'
zeros large 16777216
call admit --tasks large --machine machine --scheduler edf
check 'a file of the most bytes' 4 '' 'tasks: not TOML'
zeros larger 16777217
call admit --tasks larger --machine machine --scheduler edf
check 'a file of one byte more' 4 '' 'tasks: too long'
# Without its last byte the trace would have no line feed, and so no end.
zeros longest 268435456
call replay $two --trace longest
check 'a trace of the most bytes' 4 '' 'trace: line 1: too long'
zeros longest 268435457
call replay $two --trace longest
check 'a trace of one byte more' 4 '' 'trace: too long'
call run --tasks each --machine machine --scheduler edf --governor none --ticks 100001
check 'too many jobs' 5 '' 'limit: 100001 jobs, at most 100000'
call $run --demands over
check 'a demand over the worst case' 6 '' 'over worst: a 1 2 1'
call replay $two --trace wrong
check 'a trace that differs' 7 '' 'differs: line 4
wanted: speed 0 1 1/1
found: speed 0 1 2/2'

: > out
"$program" $run >&- 2> err
found=$?
check 'standard output is closed' 8 '' 'write: out failed'
"$program" $run --probes > out 2>&-
found=$?
: > err
check 'standard error is closed, with probes' 0 "$trace" ''
# More lines than a pipe holds, for a reader that takes one.
{ "$program" run --tasks each --machine machine --scheduler edf --governor none --ticks 100000 2> err; echo $? > status; } |
    head -n 1 > out
read -r found < status
check 'a reader that stops early' 8 'trace 1' 'write: out failed'

# CASES WHY: counts cases as skipped
skip() { skips=$((skips + $1)) lacks="${lacks:+$lacks, }$2"; }
if [ -c $devices/full ]; then
    : > out
    "$program" $run --probes > $devices/full 2> err
    found=$?
    check 'standard output is full' 8 '' 'write: out failed'
    : > err
    "$program" $run --probes > out 2> $devices/full
    found=$?
    check 'standard error is full, with probes' 0 "$trace" ''
    "$program" admit --tasks much --machine machine --scheduler edf > out 2> $devices/full
    found=$?
    check 'standard error is full, denied' 1 '' ''
else
    skip 3 'no full device'
fi

# KILOBYTES WORDS..: calls the program with at most so much memory
call_within() {
    most=$1
    shift
    (ulimit -v "$most" && exec "$program" "$@" > out 2> err)
    found=$?
}
# 12000 kilobytes are enough for a run of two ticks, and less than the largest file. The other limits are enough for the
# most bytes of a file and of a trace, and less than 2^30 bytes.
if (ulimit -v 12000) 2> err; then
    zeros endless 1073741824
    call_within 12000 $run
    check 'little memory, small files' 0 "$trace" ''
    call_within 12000 admit --tasks large --machine machine --scheduler edf
    check 'little memory, a large file' 9 '' 'no memory'
    call_within 200000 admit --tasks endless --machine machine --scheduler edf
    check 'a file larger than the memory' 4 '' 'tasks: too long'
    call_within 900000 replay $two --trace endless
    check 'a trace larger than the memory' 4 '' 'trace: too long'
else
    skip 4 'no limit of memory'
fi

# A byte that no UTF-8 text has, in a word of its own, in a value, and in the last word.
byte=$(printf '\377')
call "$byte"
check 'a command that is not text' 10 '' ''
call admit --tasks "tasks$byte" --machine machine --scheduler edf
check 'a file name that is not text' 10 '' ''
call admit $two --scheduler "edf$byte"
check 'a last word that is not text' 10 '' ''

# The probe of completions leaves at 50000. Of the trace the number of lines and the last one are compared: four lines
# for each tick, two before them and one behind.
for ticks in 49999 50000 100000; do
    call run --tasks each --machine machine --scheduler edf --governor none --ticks $ticks --probes
    { wc -l < out | tr -d ' ' && tail -n 1 out; } > ends
    mv ends out
    probes="probe 1 speeds all $ticks
probe 2 units all $ticks"
    [ $ticks -ge 50000 ] || probes="$probes
probe 3 dones all $ticks"
    check "$ticks completions" 0 "$((4 * ticks + 3))
end $ticks ${ticks}000000000 0" "$probes"
done

# As many rows as a request file may have. Each job takes the one unit that arrives at its tick.
awk 'BEGIN { print "arrival,units"; for (n = 1; n <= 100000; n++) print n - 1 ",1" }' > rows
call poll --tasks each --machine machine --requests rows --server a --scheduler edf --governor none --ticks 100000
check '100000 requests' 0 "$(awk 'BEGIN { for (n = 1; n <= 100000; n++) print "served", n, n - 1, 1, n, n ":0" }')
polled 100000 100000000000000 0" ''
# As many rows of demands, the last job first: each second job needs nothing, and a run of four ticks has two jobs.
awk 'BEGIN { print "task,job,units"; for (n = 100000; n > 0; n--) print "a," n "," n % 2 }' > rows
call run $two --demands rows --scheduler edf --governor none --ticks 4
check '100000 demands' 0 'trace 1
plan edf none 4
release 0 a 1
speed 0 1 1/1
run 0:0 1:0 a 1 1 1000000000
done 1:0 a 1 1
speed 1 1 1/1
idle 1:0 2:0 1 0
release 2 a 2
done 2:0 a 2 0
speed 2 1 1/1
idle 2:0 4:0 2 0
end 4 1000000000 0' ''

echo "main: $cases cases, $bad differ$([ $skips = 0 ] || echo ", $skips skipped ($lacks)")"
[ $bad = 0 ]
