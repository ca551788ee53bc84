# check_library.sh PROGRAM: the library for C (tools/library.sh). It has the public names of its header and needs only the
# C library; the example in the header's head compiles as C11 and as C++ and prints what it says, also by the lines of
# LIBRARY.md; the statuses of the header are those of FORMATS.md. The program call.c over the library answers each call of
# example_runs as is stored, also with the sanitizers; and refused words, absent files, files that are too long and a full
# standard output as the program does; and the longest run, also with too little room for its answer. The end of an answer
# is that of the whole one, and that of the longest run takes little memory. 1,000 calls in a process leave no memory and
# touch none outside, by the sanitizers and by valgrind; four threads get the same answers; each command does with the
# stack that the header asks for.
# It needs cc, and rt or a library that library.sh has made; without pkg-config, c++ or valgrind their cases are skipped.
. "$(dirname "$0")/work.sh"
case ${1:?no program} in
/*) program=$1 ;;
*) program=$PWD/$1 ;;
esac
[ -x "$program" ] || { echo "no program: $program"; exit 2; }
cd "$(dirname "$0")/.." || exit 2
devices=/dev top=$PWD data=$PWD/crates/example_runs/data lib=$PWD/crates/rtdvs_c/out/lib cases=0 bad=0 skips=0 lacks=
for tool in cc nm ld objcopy; do [ -n "$(command -v $tool)" ] || { echo "library: skipped, no $tool"; exit 0; }; done
[ -n "$(command -v rt)" ] || [ -f "$lib/librtdvs.so" ] || { echo 'library: skipped, no rt'; exit 0; }
[ -z "$(command -v rt)" ] || sh tools/library.sh > "$work/made" 2>&1 || { tail -n 5 "$work/made"; echo 'library: not made'; exit 1; }
LD_LIBRARY_PATH=$lib
export LD_LIBRARY_PATH

# WHAT COMMAND..: counts a case, and says what doesn't hold; with ONLY it makes the cases in whose names that is
holds() {
    what=$1
    shift
    case $what in *"${ONLY-}"* | call*.c* | numbers.c*) ;; *) return ;; esac
    cases=$((cases + 1))
    "$@" > "$work/said" 2>&1 || { echo "library: $what"; head -n 5 "$work/said"; differs; }
}
# TOOL CASES: counts cases as skipped
skip() { lacks="$lacks no $1" skips=$((skips + $2)); }
same() { [ "$1" = "$2" ] || { echo "found $1, wanted $2"; return 1; }; }
compiles() { cc -O2 -Wall -Wextra -Werror -I "$top/library" "$@"; }

# The names
calls='rtdvs_admit rtdvs_call rtdvs_constrain rtdvs_end rtdvs_least rtdvs_response '
public() { same "$(nm -D --defined-only "$lib/librtdvs.so" | awk '$2 != "A" { print $3 }' | sort | tr '\n' ' ')" "$calls"; }
public_of_static() { same "$(nm -g --defined-only "$lib/librtdvs.a" | awk 'NF == 3 { print $3 }' | sort | tr '\n' ' ')" "$calls"; }
needed() {
    same "$(nm -D --undefined-only "$lib/librtdvs.so" | awk '$1 == "U" { sub("@.*", "", $2); print $2 }' |
        grep -v -x -e malloc -e realloc -e free -e memcpy -e memmove -e memset -e memcmp -e bcmp)" ''
}
numbered() {
    objdump -p "$lib/librtdvs.so.$version" | grep -q "SONAME *librtdvs.so.${version%%.*}$" &&
        cmp "$lib/librtdvs.so" "$lib/librtdvs.so.$version" && cmp "$lib/librtdvs.so.${version%%.*}" "$lib/librtdvs.so.$version"
}
version=$(sed -n 's/^## \([0-9.]*\) (.*/\1/p' CHANGELOG.md | head -n 1)
holds 'public names of the shared library' public
holds 'public names of the static library' public_of_static
holds 'what the shared library needs' needed
at_once() { objdump -p "$lib/librtdvs.so" | grep -q 'FLAGS .*0x0*8$'; }
on_the_page() {
    same "$(grep -o 'librtdvs\.so[.0-9]*[0-9]' docs/LIBRARY.md | sort -u | tr '\n' ' ')" "librtdvs.so.${version%%.*} librtdvs.so.$version " &&
        stack=$(($(sed -n 's/^#define RTDVS_STACK //p' library/rtdvs.h) >> 10)) &&
        grep -q "stack of at least $stack KiB (\`RTDVS_STACK\`)" docs/LIBRARY.md && grep -q "a call has $stack KiB of stack" README.md &&
        grep -q "no answer is longer than $((1 << $(sed -n 's/^pub const LONGEST_TRACE: u64 = 1 << \(.*\);$/\1/p' crates/dvs_base/src/limits.rt) >> 20)) MiB" docs/LIBRARY.md
}
holds 'the number of the shared library' numbered
holds 'names that are found when the library is loaded' at_once
holds 'the numbers of LIBRARY.md' on_the_page

# The header
sed -n '/^ \*     #include/,/^ \* What/p' library/rtdvs.h | sed -n 's/^ \*     //p; s/^ \*$//p' > "$work/example.c"
example() {
    compiles -std=c11 -pedantic "$work/example.c" "$lib/librtdvs.$1" -o "$work/example" && same "$("$work/example")" 'admitted edf 1/2 1'
}
# The lines of LIBRARY.md that install the library and compile the example. A folder with a blank is refused.
installs() (
    unset LD_LIBRARY_PATH
    HOME=$work
    case $work in *[!A-Za-z0-9/._+-]*) ! sh tools/library.sh "$HOME/.local"; exit ;; esac
    sed -n '/^    sh tools\/library.sh "/,/^    cc /s/^    //p' docs/LIBRARY.md > "$work/lines"
    same "$(wc -l < "$work/lines")" 3 && eval "$(sed -n 1,2p "$work/lines")" && cd "$work" && eval "$(sed -n 3p lines)" &&
        same "$(./example)" 'admitted edf 1/2 1' && same "$(pkg-config --modversion rtdvs)" "$version"
)
# The statuses of the header are those of the table in FORMATS.md.
statuses() {
    sed -n 's/^| \([0-9]*\) | `\(RTDVS_[A-Z_]*\)` |.*/\2 \1/p' docs/FORMATS.md > "$work/rows"
    { echo '#include <rtdvs.h>'; sed 's/\(.*\) \(.*\)/_Static_assert(\1 == \2, "\1");/' "$work/rows"; } > "$work/rows.c"
    same "$(sed -n '/^enum rtdvs_status/,/^};/s/^ *\(RTDVS_[A-Z_]*\) = .*/\1/p' library/rtdvs.h)" "$(cut -d ' ' -f 1 "$work/rows")" &&
        same "$(wc -l < "$work/rows")" 11 && compiles -std=c11 -fsyntax-only "$work/rows.c"
}
as_cpp() {
    echo '#include <rtdvs.h>
int main()
{
    rtdvs_lengths lengths = { 0, 0 };
    return rtdvs_call(nullptr, 0, nullptr, 0, nullptr, 0, nullptr, 0, nullptr, 0, nullptr, 0, &lengths) != RTDVS_WORDS;
}' > "$work/cpp.cc" && c++ -std=c++17 -pedantic -Wall -Wextra -Werror -I "$top/library" "$work/cpp.cc" "$lib/librtdvs.so" -o "$work/cpp" && "$work/cpp"
}
holds 'the example of the header' example so
holds 'the example with the static library' example a
holds 'the statuses of FORMATS.md' statuses
if [ -n "$(command -v pkg-config)" ]; then holds 'the lines of LIBRARY.md' installs; else skip pkg-config 1; fi
if [ -n "$(command -v c++)" ]; then holds 'the header as C++' as_cpp; else skip c++ 1; fi

# The calls of the examples, each by call.c
checked='-fsanitize=address,undefined -fno-sanitize-recover=all'
holds 'call.c' compiles -std=c11 -pedantic library/call.c "$lib/librtdvs.so" -o "$work/call"
holds 'call.c with the sanitizers' compiles -g $checked -std=c11 library/call.c "$lib/librtdvs.a" -o "$work/call_checked"
by() {
    while read -r line; do
        echo "rtdvs $line"
        "$@" $line 2>&1
        echo "status $?"
    done < calls.txt
}
cd "$data" || exit 2
for name in call call_checked; do
    case "the stored calls by $name" in *"${ONLY-}"*) ;; *) continue ;; esac
    by "$work/$name" > "$work/found"
    cases=$((cases + $(wc -l < calls.txt)))
    cmp -s "$work/found" ../stdout || { echo "library: $name:"; diff "$work/found" ../stdout | head -n 5; differs; }
done

# WORD..: the call leaves what the program leaves, on both streams
as_program() {
    "$program" "$@" > "$work/wanted.out" 2> "$work/wanted.err"
    wanted=$?
    "$work/call_checked" "$@" > "$work/found.out" 2> "$work/found.err"
    same $? $wanted && cmp "$work/found.out" "$work/wanted.out" && cmp "$work/found.err" "$work/wanted.err"
}
files='--tasks paper/tasks.toml --machine paper/machine.toml'
pair='--scheduler edf --governor cc --ticks 16'
no_text=$(printf 'a\377')
holds 'no word' as_program
holds 'an empty word' as_program ''
holds 'a command that is none' as_program tasks
holds 'a word that is not UTF-8' as_program admit "$no_text"
holds 'a name that is not UTF-8' as_program admit --tasks "$no_text" --machine paper/machine.toml --scheduler edf
holds 'an empty name' as_program admit --tasks '' --machine paper/machine.toml
holds 'a name in the place of an option' as_program run paper/tasks.toml $files
holds 'an option in the place of a name' as_program run --tasks --machine paper/machine.toml
holds 'an option in the place of a value' as_program poll --server --tasks paper/tasks.toml
holds 'a repeated option' as_program run $files --tasks paper/tasks.toml $pair
holds 'an option of another command' as_program admit $files --demands paper/demands.csv
holds 'an option without its value' as_program run $files $pair --demands
holds 'no tasks' as_program run --tasks absent --machine paper/machine.toml $pair
holds 'no machine' as_program run --tasks paper/tasks.toml --machine tasks $pair
holds 'no demands' as_program run $files --demands paper $pair
holds 'an empty file' as_program run --tasks $devices/null --machine paper/machine.toml $pair
holds 'empty demands' as_program run $files --demands $devices/null $pair
holds 'another file as tasks' as_program run --tasks paper/demands.csv --machine paper/machine.toml $pair
holds 'probes' as_program run --probes $files $pair
holds 'version 2 and demands' as_program run $files --format 2 --demands paper/demands.csv $pair
holds 'demands above the worst case' as_program run --tasks paper/tasks.toml --machine paper/machine.toml --demands server/demands.csv $pair
holds 'the trace of other tasks' as_program replay $files --trace offsets/edf_la.trace
# A file without an end: only the most bytes of one, and one more, are read, so that this much memory is enough.
endless() { (ulimit -v 1500000 && "$work/call" "$@" > "$work/found.out" 2> "$work/found.err"); same "$? $(cat "$work/found.out" "$work/found.err")" "$wanted"; }
wanted='4 tasks: too long'
holds 'tasks without an end' endless admit --tasks $devices/zero --machine paper/machine.toml --scheduler edf
wanted='4 trace: too long'
holds 'a trace without an end' endless replay $files --trace $devices/zero
full() {
    "$work/call_checked" run $files $pair > $devices/full 2> "$work/found.err"
    same $? 8 && same "$(cat "$work/found.err")" 'write: out failed'
}
if [ -e $devices/full ]; then holds 'a full standard output' full; else skip 'full device' 1; fi

# Each allocation fails, one by one: the call ends with 9, or answers as it does otherwise.
fails() {
    cc -O2 -shared -fPIC "$top/tools/fails.c" -o "$work/fails.so" && "$work/call" run $files $pair > "$work/wanted.out" || return
    n=1
    while : > "$work/hit" && FAILS=alloc AT=$n LD_LIBRARY_PATH="$lib:$work" LD_PRELOAD=fails.so "$work/call" run $files $pair > "$work/found.out" 2> "$work/found.err" 3> "$work/hit"; s=$?; [ -s "$work/hit" ]; do
        case $s in
        0) cmp "$work/found.out" "$work/wanted.out" || return ;;
        *) same "$s$(cat "$work/found.out" "$work/found.err")" '9no memory' || return ;;
        esac
        n=$((n + 1))
    done
    [ $n -gt 30 ] || { echo "only $n allocations"; return 1; }
}
holds 'an allocation that fails' fails

# Many calls in a process
named='tasks paper/tasks.toml machine paper/machine.toml list paper/demands.csv'
words='--tasks tasks --machine machine'
calls() {
    tool=$1 wanted=$2
    shift 2
    found=$($tool "$@") && same "$found" "$wanted"
}
posix='-std=c11 -pthread'
holds 'calls.c' compiles $posix "$top/tools/calls.c" "$lib/librtdvs.so" -o "$work/calls"
holds 'calls.c with the sanitizers' compiles -g $checked $posix "$top/tools/calls.c" "$lib/librtdvs.a" -o "$work/calls_checked"
# WORD..: what calls.c has to print of the program's answer
left() {
    "$program" "$@" > "$work/wanted.out" 2> "$work/wanted.err"
    echo "status $?, $(wc -c < "$work/wanted.out") and $(wc -c < "$work/wanted.err") bytes"
}
grown=$(left run $files --demands paper/demands.csv $pair)
refused=$(left admit --tasks paper/machine.toml --machine paper/machine.toml --scheduler edf)
empty=$(left admit --tasks $devices/null --machine $devices/null --scheduler edf)
no_words=$(left)
valgrind='valgrind -q --error-exitcode=9 --leak-check=full --show-leak-kinds=all --errors-for-leak-kinds=all'
tools=run
if [ -n "$(command -v valgrind)" ]; then tools='run valgrind'; else skip valgrind 6; fi
for tool in $tools; do
    case $tool in
    run) with='' of=calls_checked ;;
    valgrind) with=$valgrind of=calls ;;
    esac
    holds "runs, $tool" calls "$with" "$grown" "$work/$of" 1 1000 $named -- run $words --demands demands $pair
    holds "refusals, $tool" calls "$with" "$refused" "$work/$of" 1 1000 tasks paper/machine.toml machine paper/machine.toml -- admit $words --scheduler edf
    holds "NULL for all files, $tool" calls "$with" "$empty" "$work/$of" 1 20 -- admit $words --scheduler edf
    holds "NULL for the words, $tool" calls "$with" "$no_words" "$work/$of" 1 20 --
    holds "ends, $tool" calls "$with" "$grown" "$work/$of" 1 60 ends $named -- run $words --demands demands $pair
    holds "ends of refusals, $tool" calls "$with" "$refused" "$work/$of" 1 60 ends tasks paper/machine.toml machine paper/machine.toml -- admit $words --scheduler edf
done
# The longest answer: 99489 jobs of five tasks with the longest names, by the governor that changes its speed the most.
mkdir "$work/longest" || exit 2
for row in 'a 5 900000 0' 'b 7 1200000 1' 'c 9 1500000 2' 'd 11 1700000 3' 'e 13 2000000 4'; do
    set -- $row
    printf '[[task]]\nname = "%s"\nperiod = %s\nworst = %s\noffset = %s\n' "$(printf '%32s' | tr ' ' "$1")" "$2" "$3" "$4"
done > "$work/longest/tasks"
printf 'idle = 1000\n' > "$work/longest/machine"
for row in '250000 16000' '500000 17000' '750000 18000' '1000000 19000'; do
    set -- $row
    printf '[[point]]\nspeed = %s\nmillivolts = %s\n' "$1" "$2"
done >> "$work/longest/machine"
longest='--scheduler edf --governor la --ticks 160000'
# call.c has room for the longest trace at once. calls.c has no room, room for all but a byte, and room for all.
by_call() (
    cd "$work/longest" && wanted=$(left run $words $longest) && same "${wanted%%,*}" 'status 0' || exit
    [ "$(wc -c < "$work/wanted.out")" -gt $((1 << 25)) ] || { echo 'no more than 32 MiB'; exit 1; }
    "$work/call" run $words $longest > "$work/found.out" 2> "$work/found.err" && cmp "$work/found.out" "$work/wanted.out" &&
        cmp "$work/found.err" "$work/wanted.err"
)
by_calls() (
    cd "$work/longest" && wanted=$(left run $words $longest) &&
        calls '' "$wanted" "$work/calls" 1 3 tasks tasks machine machine -- run $words $longest
)
# The end of the longest run takes no memory for the rest of it.
by_ends() (
    cd "$work/longest" && wanted=$(left run $words $longest) &&
        calls '' "$wanted" "$work/calls" 1 6 ends tasks tasks machine machine -- run $words $longest
)
holds 'the longest run' by_call
holds 'the longest run with too little room' by_calls
holds 'the end of the longest run' by_ends
holds 'four threads' calls '' "$grown" "$work/calls_checked" 4 250 $named -- run $words --demands demands $pair
holds 'ends in four threads' calls '' "$grown" "$work/calls_checked" 4 60 ends $named -- run $words --demands demands $pair

# Each command with the stack that the header asks for. calls.c refuses one that takes more than three quarters of it.
# FOLDER LIST COMMAND WORD..: the list is a file, which is named as the words name it
fits() (
    mkdir -p "$work/named" && cp "$1/tasks.toml" "$work/named/tasks" && cp "$1/machine.toml" "$work/named/machine" || exit
    for kind in demands trace deadlines requests; do cp "$2" "$work/named/$kind"; done
    shift 2
    cd "$work/named" && wanted=$(left "$@") && same "${wanted%%,*}" 'status 0' &&
        calls '' "$wanted" "$work/calls" 1 4 tasks tasks machine machine list trace -- "$@"
)
holds 'the stack of run' fits long long/demands.csv run $words --demands demands --scheduler edf --governor cc --ticks 16 --probes
holds 'the stack of admit' fits long $devices/null admit $words --scheduler edf
holds 'the stack of replay' fits controller controller/edf_cc_with_demands.trace replay $words --trace trace
holds 'the stack of migrate' fits controller controller/edf_cc_with_demands.trace migrate $words --trace trace
holds 'the stack of response' fits paper $devices/null response $words
holds 'the stack of constrain' fits deadlines long/deadlines.csv constrain $words --deadlines deadlines
holds 'the stack of poll' fits server long/requests.csv poll $words --requests requests --server s --scheduler edf --governor none --ticks 15
holds 'the stack of workload' fits paper $devices/null workload --seed 1
holds 'the stack of least' fits paper $devices/null least --machine machine --units 28 --ticks 16

# The calls that take numbers. numbers.c compares each answer and each refusal with the program's text for files of the
# same numbers, some of which are outside the limits; of a call that gets no memory the answer is empty.
numbered_fails() {
    n=1
    while : > "$work/hit" && FAILS=alloc AT=$n LD_LIBRARY_PATH="$lib:$work" LD_PRELOAD=fails.so "$work/numbers" "$1" 1 3> "$work/hit"; s=$?; [ -s "$work/hit" ]; do
        case $s in 0 | 9) ;; *) same $s 9; return ;; esac
        n=$((n + 1))
    done
    same $s 0 && { [ $n -gt $2 ] || { echo "only $n allocations"; return 1; }; }
}
# CALL MOST: of a call of this kind each allocation fails, of which there are more than that
fails_by_numbers() { cc -O2 -shared -fPIC "$top/tools/fails.c" -o "$work/fails.so" && numbered_fails "$1" "$2"; }
# The numbers of the sweep are those of the tests' definitions, by a program of their own.
swept() {
    compiles -std=c11 -pedantic "$top/library/sweep.c" "$lib/librtdvs.so" -o "$work/sweep" &&
        same "$("$work/sweep" 1000)" 'of 1000 sets: EDF 512, RM 384, RM by response times 441'
}
holds 'numbers.c' compiles -std=c11 "$top/tools/numbers.c" "$lib/librtdvs.so" -o "$work/numbers"
holds 'numbers.c with the sanitizers' compiles -g $checked -std=c11 "$top/tools/numbers.c" "$lib/librtdvs.a" -o "$work/numbers_checked"
holds 'random numbers, run' calls '' '20000 sets' "$work/numbers_checked" compare 1 20000
if [ -n "$(command -v valgrind)" ]; then
    holds 'random numbers, valgrind' calls "$valgrind" '300 sets' "$work/numbers" compare 2 300
else
    skip valgrind 1
fi
holds 'an allocation that fails, rtdvs_admit' fails_by_numbers admit 5
holds 'an allocation that fails, rtdvs_response' fails_by_numbers response 5
holds 'an allocation that fails, rtdvs_constrain' fails_by_numbers constrain 5
holds 'an allocation that fails, rtdvs_least' fails_by_numbers least 2
holds 'an allocation that fails, rtdvs_end' fails_by_numbers end 30
holds 'sweep.c' swept

echo "library: $cases cases, $bad differ$([ $skips = 0 ] || echo ", $skips skipped (${lacks# })")"
[ $bad = 0 ]
