# work.sh: what a script beside it begins with, if it writes files for a time:
#     . "$(dirname "$0")/work.sh"
# It makes the folder $work, and lets the calls of the script take it for their own files. When the script ends, also by a
# signal, the folder goes, and so do the file $part, if one is named, and the processes $jobs, which are ended.
# An exported CDPATH would lead `cd` elsewhere. A user whose HOME can't be written gets one in $work.
unset CDPATH
part= jobs=

# ends what is left; a second signal doesn't stop it
leave() {
    trap '' HUP INT PIPE QUIT TERM
    [ -z "$jobs" ] || { kill -TERM $jobs 2>&- || :; wait; }
    # What a signal has ended besides may still write for a moment.
    attempt=0
    until rm -rf "$work" ${part:+"$part"} 2>&- || [ $attempt = 50 ]; do
        attempt=$((attempt + 1))
        sleep 0.1
    done
}

# counts a case of a check that differs; with FIRST, which plants.py sets, the check ends there
differs() {
    bad=$((bad + 1))
    [ -z "${FIRST-}" ] || exit 1
}

# The name is known before the folder is, so that a signal finds one or none.
work=$(mktemp -d -u) || exit 2
trap 'exit 2' HUP INT PIPE QUIT TERM
trap leave EXIT
mkdir -m 700 "$work" || { work=; exit 2; }
TMPDIR=$work
export TMPDIR
[ -w "${HOME:-none}" ] || { HOME=$work/home && mkdir "$HOME" && export HOME; }
