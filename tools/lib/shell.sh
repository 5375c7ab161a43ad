# What programs in the shell share, which source this file.
top=$(cd -- "$(dirname -- "${BASH_SOURCE[0]}")/../.." && pwd)
cache=${XDG_CACHE_HOME:-~/.cache}/naqshuve
program=$(readlink -f -- "$0")

# show_usage WORD: prints the comment at the front of the program, and ends it.
show_usage() {
    sed '1d; /^#/!Q; s/^# \{0,1\}//' "$program"
    [[ $1 == -h || $1 == --help ]] || exit 2
    exit 0
}

# miss WHAT..: says what is missing, and succeeds if that is allowed.
miss() {
    echo "missing: $*"
    [[ ${NAQSHUVE_ALLOW_MISSING-} == 1 ]]
}

# is_at_least LEAST VERSION
is_at_least() { printf '%s\n' "$@" | sort -CV; }

# find_python CODE: sets `python` to one that runs this, or to nothing.
find_python() {
    for python in python3 /usr/bin/python3 ''; do
        ! "${python:-true}" -c "$1" 2>/dev/null || break
    done
}

# Lets cargo and pip find packages of Debian's next release.
use_next_release() {
    local words
    words=$("$top/tools/next_release" "$cache" "$@")
    eval "$words"
}
