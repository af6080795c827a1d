#!/usr/bin/env bash
# The installed command: runs the installed program with the arguments of the call, and ends with
# its status.
if [ -z "${BASH_VERSION:-}" ]; then
    exec bash "$0" "$@"
fi
set +o posix -u

self=${BASH_SOURCE[0]}
[ ! -L "$self" ] || self=$(readlink -f -- "$self") || exit 1
case $self in
    */*) bin=${self%/*} ;;
    *) bin=. ;;
esac
top=${bin:-}/..
program=$top/libexec/anyk/anyk_cli

# shellcheck source=/dev/null
. "$top/share/anyk/call.sh" || exit 1
answer_help "$top/share/anyk/help" "$@"
case $#:$1 in
    1:version | 1:--version | 1:-V)
        show "$top/share/anyk/VERSION" && tell_place "$program"
        exit
        ;;
esac
if [ "$1" = uninstall ]; then
    uninstall "$top/share/anyk" "${@:2}"
    exit
fi
call "$program" "$top/share/anyk" "$@"
