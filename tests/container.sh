#!/usr/bin/env bash
# Unpacks what ./anyk release packs on two small systems, and has the first example answered there:
# one that has only bash and the C library of this one, and an empty Debian. Neither has Python.
#
# usage: tests/container.sh [SUITE [MIRROR]]
#
# SUITE is stable if it is not given, and MIRROR is debootstrap's. It needs root, and for the
# second system debootstrap and a network; what is not there is SKIPPED. It takes up to ten
# minutes, so neither tests/all nor .ci/run calls it.
set -u

cd "$(dirname -- "${BASH_SOURCE[0]}")/.." || exit 2
export LC_ALL=C ANYK_NO_BUILD=1
suite=${1-stable}
mirror=${2-}
failed=0

# skip WHAT WHY
skip() {
    echo "container: $1: SKIPPED, $2"
}

# bare_system ROOT: bash, the libraries that it needs, and the folder of pipes, under ROOT.
bare_system() {
    local file
    for file in /bin/bash $(ldd /bin/bash | grep -o '/[^ ]*'); do
        install -D -m 755 -- "$file" "$1$file" || return 1
    done
}

# debian ROOT: an empty Debian under ROOT.
debian() {
    timeout -k 10 600 debootstrap --variant=minbase "$suite" "$1" ${mirror:+"$mirror"} \
        > "$1.log" 2>&1
}

# answer ROOT WHAT: unpacks the release there, and compares its answer with the expected one.
answer() {
    local words anyk got=0
    anyk=/anyk-$(< VERSION)/bin/anyk
    mapfile -t words < examples/flights/words
    tar -C "$1" -xzf "$room/anyk.tar.gz" || exit 2
    mkdir -p "$1/examples" && cp -R examples/flights "$1/examples/" || exit 2
    timeout -k 10 60 env -i PATH=/usr/sbin:/usr/bin:/sbin:/bin \
        chroot "$1" /bin/bash "$anyk" "${words[@]}" > "$room/output" || got=$?
    if [ "$got" -eq 0 ] && cmp "$room/output" examples/flights/expected.csv; then
        echo "container: $2: passed"
    else
        echo "container: $2: FAILED, status $got"
        failed=1
    fi
}

case ${1-} in
    -*)
        sed -n '2,/^set/s/^# \{0,1\}//p' "${BASH_SOURCE[0]}"
        exit
        ;;
esac
if [ "$(id -u)" -ne 0 ]; then
    skip "all" "only root can change the root folder"
    exit
fi
room=$(mktemp -d "${TMPDIR:-/tmp}/anyk-container.XXXXXX" 2> /dev/null) ||
    room=$(mktemp -d /tmp/anyk-container.XXXXXX) || exit 2
trap 'rm -rf --one-file-system -- "$room"' EXIT
./anyk release "$room/anyk.tar.gz" > /dev/null || exit 2

bare="bash and the C library alone"
mkdir "$room/bare" "$room/debian" || exit 2
if ! bare_system "$room/bare" || ! chroot "$room/bare" /bin/bash -c :; then
    skip "$bare" "the root folder cannot be changed here"
    exit
fi
answer "$room/bare" "$bare"

debian="an empty Debian ($suite)"
if ! command -v debootstrap > /dev/null; then
    skip "$debian" "there is no debootstrap here"
elif ! debian "$room/debian"; then
    skip "$debian" "debootstrap failed: $(tail -n 1 "$room/debian.log")"
else
    answer "$room/debian" "$debian"
fi
exit "$failed"
