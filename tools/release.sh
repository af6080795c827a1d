# shellcheck shell=bash
# The program that release/ carries: whether it was built from the sources as they are, and where
# it is unpacked. For ./anyk and tools/release.py. release/manifest has a line for each of
# `version`, `sources` (their digest), `program` (its SHA-256) and `kit`.

# digest_of_sources TOP: prints the digest of crates.txt and of each file of the crates' src, specs
# and proofs: the SHA-256 of the sorted lines that sha256sum prints of them.
digest_of_sources() (
    shopt -s nullglob
    set -o pipefail
    CDPATH='' cd -- "$1" || exit 1
    digest=$(find crates.txt crates/*/src crates/*/specs crates/*/proofs ! -type d -print0 |
        LC_ALL=C sort -z | xargs -0 sha256sum | sha256sum) || exit 1
    echo "${digest%% *}"
)

# said_in MANIFEST NAME: prints what the line of this name says.
said_in() {
    local name said
    while read -r name said; do
        [ "$name" != "$2" ] || { echo "$said"; return 0; }
    done < "$1"
    return 1
}

# sum_of [FILE]: prints the SHA-256 of the file, or of the input.
sum_of() {
    local sum
    sum=$(if [ $# -gt 0 ]; then sha256sum < "$1"; else sha256sum; fi) && echo "${sum%% *}"
}

# take_release TOP: sets program to that of TOP/release, if that was built from the sources as they
# are, and is_unpacked if it was unpacked now. If it was built from them and cannot be run, it
# returns 1 and sets why_not. It says nothing.
# shellcheck disable=SC2034
take_release() {
    local top=$1 release=$1/release began wanted
    is_unpacked='' why_not=''
    [ "$(uname -sm)" = 'Linux x86_64' ] || return 1
    [ -f "$release/manifest" ] && [ -f "$release/anyk.gz" ] || return 1
    # Before the time is taken, since it may change a folder of the sources.
    (umask 022 && mkdir -p -- "$top/crates/anyk_cli/out/release")
    printf -v began '%(%s)T' -1
    [ "$(digest_of_sources "$top")" = "$(said_in "$release/manifest" sources)" ] || return 1
    wanted=$(said_in "$release/manifest" program) || return 1
    if keep_in_checkout || keep_in_cache || keep_open; then
        return 0
    fi
    if [ "$(gzip -dc < "$release/anyk.gz" | sum_of)" = "$wanted" ]; then
        why_not="it does not run here (an older C library), or in no folder that can be written"
    else
        why_not="its bytes are not those that release/manifest names"
    fi
    return 1
}

# What follows is for take_release, and uses its variables.

# keep_in_checkout: the program among what is built. It is marked there, so that later calls need
# only look at times.
keep_in_checkout() {
    local place=$top/crates/anyk_cli/out/release/anyk_cli
    is_kept "$place" || unpack "$place" || return 1
    program=$place
    # Another user's cannot be marked.
    mark "$place" || true
}

# keep_in_cache: the program in a folder of the caller's own, below one that is there.
keep_in_cache() {
    local cache=${XDG_CACHE_HOME:-${HOME:+$HOME/.cache}}
    case $cache in
        /*) ;;
        *) return 1 ;;
    esac
    [ -d "${cache%/*}/" ] && (umask 077 && mkdir -p -- "$cache/anyk") || return 1
    [ -O "$cache/anyk" ] || return 1
    program=$cache/anyk/$wanted
    if [ ! -O "$program" ] || ! is_kept "$program"; then
        unpack "$program"
    fi
}

# keep_open: the program in a file that only this process has open, so that nothing is left of it.
keep_open() {
    local folder room opened
    for folder in "${TMPDIR:-/tmp}" /tmp; do
        room=$(mktemp -d "$folder/anyk.XXXXXX") || continue
        trap 'rm -rf -- "$room"' EXIT
        if unpack "$room/anyk_cli" && { exec {opened}< "$room/anyk_cli"; }; then
            program=/proc/$$/fd/$opened
        else
            program=
        fi
        rm -rf -- "$room"
        trap - EXIT
        [ -z "$program" ] || ! runs "$program" || return 0
    done
    return 1
}

# is_kept PLACE: whether the program is there, and runs.
is_kept() {
    [ -f "$1" ] && [ "$(sum_of "$1")" = "$wanted" ] && runs "$1"
}

# runs PLACE: whether a small call ends well: programs may be run from that place, and the C
# library is new enough.
runs() {
    "$1" load --number 1 --rows 1 < /dev/null > /dev/null
}

# unpack PLACE: unpacks the program beside its place, and puts it there in one step, so that calls
# at the same time meet all of it or nothing. Its time is one at which no source was as it is.
unpack() {
    local made
    made=$(mktemp "$1.XXXXXX") || return 1
    if gzip -dc < "$release/anyk.gz" > "$made" && chmod 755 "$made" && is_kept "$made" &&
        touch -d @0 "$made" && mv -fT -- "$made" "$1"; then
        # shellcheck disable=SC2034
        is_unpacked=1
        return 0
    fi
    rm -f -- "$made"
    return 1
}

# mark PLACE: lets tools/current.pl see that the program there is that of the sources as they were
# at the time that was taken.
mark() {
    local made
    made=$(mktemp "$1.files.XXXXXX") || return 1
    if files_of_sources "$top" > "$made" && chmod 644 "$made" && mv -fT -- "$made" "$1.files"; then
        touch -d "@$((began - 1))" "$1"
    else
        rm -f -- "$made"
        return 1
    fi
}

# files_of_sources TOP: prints the names of what has to change if the program of release/ is no
# longer that of the sources.
files_of_sources() (
    shopt -s nullglob
    CDPATH='' cd -- "$1" || exit 1
    printf '%s\n' release/manifest crates crates/*
    find crates.txt crates/*/src crates/*/specs crates/*/proofs
)
