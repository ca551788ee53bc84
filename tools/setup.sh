# setup.sh: installs what the checks need beside the kit:
#     sh tools/setup.sh
# On Debian and its relatives it calls apt-get, as root, for what isn't installed; where all is, it does nothing. Elsewhere
# it says what to take. The status is 1 if something stays missing: the checks that need it then say `skipped`.
. "$(dirname "$0")/work.sh"
python='python3 python3-pytest python3-hypothesis python3-matplotlib python3-pandas python3-distributed python3-mpi4py
    python3-hatchling python3-venv python3-selenium python3-nbconvert python3-ipykernel python3-libfdt mypy'
others='bash chromium chromium-driver device-tree-compiler g++ gcc libc6-dev lintian locales openmpi-bin pkgconf
    poppler-utils valgrind'

if [ -z "$(command -v dpkg-query)" ] || [ -z "$(command -v apt-get)" ]; then
    echo 'setup: no apt-get here. Take Python 3.11 or later, which the variable PYTHON names, with pytest,'
    echo 'hypothesis, matplotlib, pandas, distributed, mpi4py, hatchling, selenium, nbconvert, ipykernel, libfdt, venv'
    echo 'and mypy; and bash, a C compiler as cc, a C++ compiler as c++, dtc, valgrind, pkg-config, pdftotext, chromium'
    echo 'with chromedriver, localedef with the sources of de_DE, mpiexec, and for a Debian package dpkg-deb and lintian.'
    exit 1
fi
installed=$(dpkg-query -W -f '${Package} ${db:Status-Abbrev}\n' $python $others 2>/dev/null | sed -n 's/ ii.*//p')
missing=
for package in $python $others; do
    printf '%s\n' "$installed" | grep -q -x "$package" || missing="$missing $package"
done
[ -n "$missing" ] || exit 0
[ "$(id -u)" = 0 ] || { echo "setup: as root, apt-get install$missing"; exit 1; }

export DEBIAN_FRONTEND=noninteractive
{ apt-get update -q && apt-get install -q -y --no-install-recommends $missing; } > "$work/notes" 2>&1 ||
    { tail -n 5 "$work/notes"; echo "setup: not installed:$missing"; exit 1; }
echo "setup: installed$missing"
