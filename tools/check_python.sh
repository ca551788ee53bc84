# check_python.sh PROGRAM: the Python package in python/: its types by mypy --strict, and its tests and the examples of
# its pages by pytest, once in a UTF-8 locale and once in one with a decimal comma. Then a wheel is built without a network,
# installed into a fresh virtual environment and used there. PYTHON is the interpreter, the system's without it;
# tools/setup.sh installs what this needs. With rt it makes the shared library first; without rt and without one in
# crates/rtdvs_c/out/lib the tests of it are skipped, and counted so.
. "$(dirname "$0")/work.sh"
cd "$(dirname "$0")/.." || exit 2
[ -x "${1:?no program}" ] || { echo "no program: $1"; exit 2; }
RTDVS=$(cd "$(dirname "$1")" && pwd)/$(basename "$1") python=${PYTHON:-/usr/bin/python3} bad=0
library=yes
[ -z "$(command -v rt)" ] || sh tools/library.sh > "$work/made" 2>&1 || { tail -n 5 "$work/made"; echo 'python: no library'; exit 1; }
[ -f crates/rtdvs_c/out/lib/librtdvs.so ] || library=
export RTDVS PYTHONDONTWRITEBYTECODE=1
unset PYTHONPATH
skip() { echo "python: skipped, no $1"; exit 0; }
"$python" -c 'import tomllib' 2>/dev/null || skip 'Python 3.11 or later'
for module in pytest hypothesis mypy matplotlib pandas hatchling ensurepip; do
    "$python" -c "import $module" 2>/dev/null || skip "$module for $python"
done
[ -n "$(command -v localedef)" ] || skip localedef
mkdir "$work/locales"
localedef -i de_DE -f UTF-8 "$work/locales/de_DE.UTF-8" > "$work/localedef" 2>&1 || skip 'source of the locale de_DE'
comma=$(LOCPATH=$work/locales LC_ALL=de_DE.UTF-8 "$python" -c "import locale; locale.setlocale(locale.LC_ALL, ''); print(f'{0.5:n}')")
[ "$comma" = 0,5 ] || { echo "python: no decimal comma in the locale made, but $comma"; exit 1; }

# All at a time, or the one in ONLY; what failed is shown to its end.
parts=${ONLY:-collected types plain decimal_comma wheel}
export work python library
for part in $parts; do
    "$python" tools/group.py sh tools/python_part.sh $part > "$work/$part" 2>&1 &
    jobs="$jobs $!"
done
set -- $jobs
for part in $parts; do
    wait "$1" || { echo "python: $part failed"; tail -n 40 "$work/$part"; bad=1; }
    shift
done
jobs=
[ $bad = 0 ] || exit 1
[ -z "${ONLY-}" ] || { echo "python: $ONLY"; exit 0; }

# RUN: its tests that passed, together with those that no package of setup.sh lets run: the tools for fst files aren't
# installed, and the locale with a comma is the other run's. Then those skipped for another reason, and the reasons.
counts() {
    awk '/^SKIPPED / {
        number = substr($2, 2) + 0
        reason = $0
        sub(/^[^ ]* [^ ]* [^ ]*: /, "", reason)
        if (reason ~ /vcd2fst|decimal comma/) free += number
        else { lacks += number; if (!(reason in seen)) reasons = reasons (lacks > number ? "; " : " ") reason; seen[reason] = 1 }
    }
    { last = $0 }
    END {
        sub(/ in [0-9.]*s.*/, "", last)
        n = split(last, parts, ", ")
        for (i = 1; i <= n; i++) {
            if (parts[i] ~ / passed$/) passed = parts[i] + 0
            else if (parts[i] !~ /^[0-9]+ (skipped|warnings?)$/) { print "none", parts[i]; exit }
        }
        print passed + free, lacks + 0 reasons
    }' "$work/$1"
}
found=$(counts plain)
[ "${found#none}" = "$found" ] || { echo "python: $found"; exit 1; }
[ "$found" = "$(counts decimal_comma)" ] || { echo "python: $found, with a decimal comma $(counts decimal_comma)"; exit 1; }
lacks=${found#* } more=
[ "${lacks%% *}" = 0 ] || more=", ${lacks%% *} skipped (${lacks#* })"
echo "python: ${found%% *} tests, the same with a decimal comma; types and a wheel${library:+ with the shared library} are right$more"
