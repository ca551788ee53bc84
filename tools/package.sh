# package.sh: makes a Debian package of the built program, its man page, completion, Python module with the command
# rtdvs-tools, pages and examples, and of the library for C, if library.sh has made it:
#     sh tools/package.sh PROGRAM [FOLDER]
# It writes rtdvs_VERSION_ARCHITECTURE.deb into FOLDER, or here without one, and prints its name. VERSION and the date of
# all files are those of the first version of CHANGELOG.md, so the same files give the same package. DEBFULLNAME and
# DEBEMAIL name the maintainer, who otherwise has an address at example.org. The program is stripped where there is
# `strip`. The examples are in share/rtdvs, in folders of the repository's names. In share/doc/rtdvs are the pages for
# those who use the program; what they link to and the package lacks is named there without a link.
pages='COMMANDS CONVERTERS EVALUATION EXERCISES FORMATS GLOSSARY LEAST LIBRARY MESSAGES PROVED PYTHON RULES SERVERS SPEED SWEEPS TRACE UNITS'
set -eu
. "$(dirname "$0")/work.sh"
refuse() { echo "package.sh: $1" >&2; exit 2; }
[ $# -ge 1 ] || refuse 'needs a built program: sh tools/package.sh PROGRAM [FOLDER]'
[ -f "$1" ] && [ -x "$1" ] || refuse "no program: $1"
[ -d "${2:-.}" ] || refuse "no folder: $2"
for tool in dpkg dpkg-deb ldd gzip md5sum; do [ -n "$(command -v $tool)" ] || refuse "needs $tool"; done
program=$(cd "$(dirname "$1")" && pwd)/$(basename "$1")
folder=$(cd "${2:-.}" && pwd)
cd "$(dirname "$0")/.."

# The heading `## 1.1 (2026-11-30)`.
version=$(sed -n 's/^## \([0-9.]*\) (.*/\1/p' CHANGELOG.md | head -n 1)
date=$(sed -n 's/^## [0-9.]* (\([0-9-]*\))$/\1/p' CHANGELOG.md | head -n 1)
SOURCE_DATE_EPOCH=$(date -u -d "$date" +%s)
export SOURCE_DATE_EPOCH

# The program may need only the C library.
libraries=$(ldd "$program" | awk '$1 !~ /^linux-vdso|^libc\.so\.6$|ld-linux/ { print $1 }')
[ -z "$libraries" ] || refuse "the program needs more than the C library: $(echo $libraries)"

root=$work/root
share=$root/usr/share doc=$root/usr/share/doc/rtdvs data=$root/usr/share/rtdvs
module=$root/usr/lib/python3/dist-packages/rtdvs maintainer="${DEBFULLNAME:-rtdvs} <${DEBEMAIL:-rtdvs@example.org}>"
umask 022
mkdir -p "$root/DEBIAN" "$module" "$root/usr/bin" "$share/man/man1" "$share/bash-completion/completions" "$doc/docs" \
    "$data/crates/example_runs"
cp "$program" "$root/usr/bin/rtdvs"
if [ -f "crates/rtdvs_c/out/lib/librtdvs.so.$version" ]; then
    DESTDIR=$root sh tools/library.sh /usr
    mkdir -p "$share/pkgconfig" "$share/lintian/overrides" "$doc/library"
    mv "$root/usr/lib/pkgconfig/rtdvs.pc" "$share/pkgconfig"
    rmdir "$root/usr/lib/pkgconfig"
    [ -z "$(command -v strip)" ] || strip --strip-unneeded -R .comment -R .note "$root/usr/lib/librtdvs.so.$version"
    [ -z "$(command -v strip)" ] || strip --strip-debug --enable-deterministic-archives -R .comment -R .note "$root/usr/lib/librtdvs.a"
    cp library/call.c "$doc/library"
    # One package has the program, the library and its header.
    printf 'rtdvs: %s\n' 'package-name-doesnt-match-sonames librtdvs*' 'link-to-shared-library-in-wrong-package *' \
        > "$share/lintian/overrides/rtdvs"
    echo "librtdvs ${version%%.*} rtdvs (>= $version)" > "$root/DEBIAN/shlibs"
    echo 'activate-noawait ldconfig' > "$root/DEBIAN/triggers"
else
    echo 'package.sh: the package is without the library for C, which sh tools/library.sh makes' >&2
fi
[ -z "$(command -v strip)" ] || strip --strip-unneeded -R .comment -R .note "$root/usr/bin/rtdvs"
printf '#!/%s\n%s\n' bin/sh "$(cat tools/package/rtdvs-tools)" > "$root/usr/bin/rtdvs-tools"
gzip -9n < docs/rtdvs.1 > "$share/man/man1/rtdvs.1.gz"
ln -s rtdvs.1.gz "$share/man/man1/rtdvs-tools.1.gz"
cp examples/rtdvs.bash "$share/bash-completion/completions/rtdvs"
ln -s rtdvs "$share/bash-completion/completions/rtdvs-tools"
cp -R python/src/rtdvs/. "$module"
find "$module" -name __pycache__ -prune -exec rm -r {} +
cp -R crates/example_runs/data crates/example_runs/stdout "$data/crates/example_runs"
cp -R examples "$data"
rm "$data/examples/rtdvs.bash"
for folder_of in crates examples; do ln -s "../../rtdvs/$folder_of" "$doc/$folder_of"; done
cp tools/package/copyright "$doc"
sed -e "s|@EXAMPLES@|${data#"$root"}|g" -e "s|@PAGES@|${doc#"$root"}/docs|g" tools/package/README.md > "$doc/README.md"
for page in $pages; do cp "docs/$page.md" "$doc/docs"; done

# The changelog in Debian's form: a stanza for each version.
signed() { printf '\n -- %s  %s\n' "$maintainer" "$(LC_ALL=C date -u -R -d "$1")"; }
signed_at=
sed -n 's/^## \([0-9.]*\) (\(.*\))$/version \1 \2/p; s/^- /change /p' CHANGELOG.md | while read -r kind words; do
    case $kind in
    version)
        [ -z "$signed_at" ] || { signed "$signed_at" && echo; }
        signed_at=${words#* }
        printf 'rtdvs (%s) unstable; urgency=medium\n\n' "${words% *}"
        ;;
    change) echo "$words" | fold -s -w 74 | sed '1s/^/  * /; 1!s/^/    /; s/ $//' ;;
    esac
    echo "$signed_at" > "$work/signed"
done > "$work/changes"
signed "$(cat "$work/signed")" >> "$work/changes"
gzip -9n < "$work/changes" > "$doc/changelog.gz"

# A link to what isn't in the package becomes its text.
for page in "$doc/README.md" "$doc"/docs/*.md "$data/examples/README.md" "$data/crates/example_runs/data/templates/README.md"; do
    grep -o '](\([^()#:]*\)' "$page" | sed 's/^](//' | grep . | sort -u | while read -r link; do
        [ -e "$(dirname "$page")/$link" ] || printf '%s\n' "s|\[\([^]]*\)\]($link\(#[^)]*\)*)|\1|g"
    done > "$work/links"
    sed -f "$work/links" "$page" > "$work/page"
    cat "$work/page" > "$page"
done
find "$root" -type f -exec chmod 644 {} +
find "$root" -type d -exec chmod 755 {} +
chmod 755 "$root/usr/bin/rtdvs" "$root/usr/bin/rtdvs-tools"

# Where Python is installed, it compiles the module, and takes what it compiled away again.
for step in 'postinst compile' 'prerm clean'; do
    script=$root/DEBIAN/${step% *} command=py3${step#* }
    printf '#!/%s\nset -e\n! command -v %s >/dev/null || %s -p rtdvs\n' bin/sh $command $command > "$script"
    chmod 755 "$script"
done

# The C library has to be at least of the version whose symbols are named.
libc=$(cd "$root/usr" && cat bin/rtdvs lib/*.so* 2>&- | grep -ao 'GLIBC_[0-9.]*' | sed 's/GLIBC_//' | sort -V | tail -n 1)
architecture=$(dpkg --print-architecture)
cat > "$root/DEBIAN/control" << END
Package: rtdvs
Version: $version
Architecture: $architecture
Depends: libc6 (>= $libc)
Recommends: python3 (>= 3.11)
Suggests: python3-matplotlib, python3-pandas, jupyter-notebook
Maintainer: $maintainer
Installed-Size: $(find "$root/usr" -type f -printf '%s\n' | awk '{ sum += $1 } END { print int(sum / 1024) + 1 }')
Section: science
Priority: optional
Description: exact schedules and energies of periodic tasks with voltage scaling
 It decides whether a scheduler (EDF or RM) admits a set of periodic tasks on a
 processor whose speed and voltage can be changed, and prints the schedule,
 speeds and energy of a run under one of four governors, in whole numbers.
 .
 The Python module rtdvs calls it, and explains, compares, draws and converts
 what it prints.
END
(cd "$root" && find usr -type f | LC_ALL=C sort | xargs -d '\n' md5sum) > "$root/DEBIAN/md5sums"
chmod 644 "$root/DEBIAN/md5sums"
find "$root" -exec touch -h -d "@$SOURCE_DATE_EPOCH" {} +
package=$folder/rtdvs_${version}_$architecture.deb
part=$folder/.rtdvs.$$.deb
dpkg-deb --root-owner-group -Zxz -b "$root" "$part" > "$work/log" || { cat "$work/log" >&2; exit 1; }
mv -f "$part" "$package"
echo "$package"
