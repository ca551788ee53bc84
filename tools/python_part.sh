# python_part.sh PART: one of the five parts of check_python.sh, which sets the variables that are used here.
# The folder $work is for files; of a wheel the library is one more part, if $library says yes.
types() { cd python && "$python" -m mypy --cache-dir "$work/mypy"; }
# As many tests as cases.txt says.
collected() {
    wanted=$(sed -n 's/^python //p' tools/cases.txt)
    cd python && "$python" -m pytest -q --collect-only | tail -n 1 | grep "^$wanted tests collected" || { echo "wanted: $wanted tests"; return 1; }
}
tests() { cd python && "$python" -m pytest -q -r s; }
plain() { export LC_ALL=C.UTF-8 && tests; }
decimal_comma() { export LOCPATH="$work/locales" LC_ALL=de_DE.UTF-8 && tests; }
# The example of the package's first lines, by the package that is installed, away from the repository: by the program, and
# by the shared library that the wheel carries. The wheel has each file of the package, and needs no other one.
wheel() {
    (cd python && "$python" -m hatchling build -t wheel -d "$work/dist") && "$python" -m venv "$work/venv" &&
        "$work/venv/bin/pip" install -q --no-index --disable-pip-version-check "$work"/dist/*.whl || return
    installed=$("$work/venv/bin/python" -c 'import sysconfig; print(sysconfig.get_path("purelib"))')
    diff -r -x __pycache__ -x librtdvs.so python/src/rtdvs "$installed/rtdvs" &&
        needs=$(sed -n '/; extra ==/d; s/^Requires-[A-Z][a-z]*: //p' "$installed"/rtdvs-*/METADATA) &&
        [ "$needs" = "$(sed -n 's/^requires-python = "\(.*\)"$/\1/p' python/pyproject.toml)" ] || { echo "needs: $needs"; return 1; }
    cp crates/example_runs/data/paper/*.* "$work/dist" && cd "$work/dist" || return
    answers Engine && "$work/venv/bin/python" -m rtdvs --help && "$work/venv/bin/rtdvs-tools" --version &&
        [ "$("$work/venv/bin/rtdvs-tools" admit --tasks tasks.toml --machine machine.toml --scheduler edf)" = 'admitted edf 836/280 3' ] &&
        "$work/venv/bin/python" -m rtdvs page edf_none.trace --tasks tasks.toml --machine machine.toml --output page.html || return
    [ -z "$library" ] || { unset RTDVS && answers LibraryEngine; }
}
# ENGINE: the class that the installed package takes
answers() {
    "$work/venv/bin/python" -c 'import pathlib, sys, rtdvs
assert rtdvs.__file__.startswith(sys.prefix), rtdvs.__file__
tasks, machine = (kind.read(pathlib.Path(name)) for kind, name in
                  ((rtdvs.TaskSet, "tasks.toml"), (rtdvs.Machine, "machine.toml")))
engine = rtdvs.find_engine()
assert sys.argv[1] == "Engine" or str(engine.program).startswith(sys.prefix), engine
print(type(engine).__name__, engine.admit(tasks, machine, "edf"))' "$1" > used &&
        grep -q -x "$1 Admitted(scheduler='edf', num=836, den=280, speed=3)" used
}
"$1"
