# shellcheck shell=bash
# What ./anyk and the installed command share: the pages of help, the call of the program or of a
# tool, and what follows it.

# answer_help FOLDER ARGUMENT..: ends with a page of help if the arguments ask for one, or if there
# are none. A page is FOLDER/COMMAND.txt.
answer_help() {
    local folder=$1 page=
    shift
    case $#:${1-}:${2-} in
        0::) refuse_usage "$folder/anyk.txt" ;;
        1:help: | 1:--help: | 1:-h:) page=anyk ;;
        2:help:*) page=$2 ;;
        2:*:--help | 2:*:-h) page=$1 ;;
    esac
    case $page in
        '' | *[!a-z-]*) return 0 ;;
    esac
    [ -f "$folder/$page.txt" ] || return 0
    show "$folder/$page.txt" || exit 1
    exit 0
}

# show FILE: prints its text. (There may be no other command than bash.)
show() {
    local text
    text=$(< "$1") && printf '%s\n' "$text"
}

# refuse_usage PAGE: ends as the program does if the arguments are not a command, without the
# program. On a terminal the page follows.
refuse_usage() {
    echo "anyk: usage" >&2
    [ ! -t 2 ] || show "$1" >&2
    exit 2
}

# uninstall TOOLS ARGUMENT..: removes what ./anyk install has put under a folder.
uninstall() {
    # What looks like an option is no folder.
    case $#:${2-} in
        2:[!-]*) ;;
        *) refuse_usage "$1/help/uninstall.txt" ;;
    esac
    # shellcheck source=/dev/null
    . "$1/install.sh" && uninstall_from "$2"
}

# tell_place PROGRAM: prints where the program is.
tell_place() {
    case $1 in
        /proc/*) echo "program of release/, in no folder that can be written" ;;
        /*) echo "program $1" ;;
        *) echo "program $PWD/${1#./}" ;;
    esac
}

# set_tool TOOLS COMMAND: sets tool to the script of a command that is not the program's, and
# returns 1 if there is none.
set_tool() {
    case $2 in
        query | check | weights | merge | pairs | seal | check-proof) tool=$1/${2//-/_}.py ;;
        *) return 1 ;;
    esac
    [ -f "$tool" ]
}

# calls_program COMMAND: whether the tool of this command calls the program.
calls_program() {
    case $1 in
        query | check) ;;
        *) return 1 ;;
    esac
}

# call PROGRAM TOOLS ARGUMENT..: runs the program, or the tool that the first argument names, and
# ends with its status. PROGRAM is empty for a tool that does not call it.
call() {
    local tool
    # The C library takes its large blocks in huge pages if the machine gives them, and keeps what
    # is freed, so that it is used again. That saves page faults, and time for reads at random.
    # Another value of the variable stays, also an empty one.
    local m=glibc.malloc keeps
    keeps=$m.mmap_threshold=1073741824:$m.trim_threshold=4294967296:$m.top_pad=16777216
    export GLIBC_TUNABLES=${GLIBC_TUNABLES-$m.hugetlb=1:$keeps}
    [ -z "$1" ] || can_be_run "$1" || exit 1
    if set_tool "$2" "$3"; then
        call_tool "$1" "$tool" "${@:3}"
    fi
    tell_no_text "${@:3}"
    case $3 in
        picture) draw "$@" ;;
        *) run_program "$@" ;;
    esac
}

# can_be_run PROGRAM: whether it is there, and may be run.
can_be_run() {
    if [ ! -e "$1" ]; then
        echo "anyk: $1, which is the program, is not there: install it again" >&2
        return 1
    fi
    if [ ! -x "$1" ]; then
        printf 'anyk: %s is built, but it may not be run: %s\n' "$1" \
            "its file system is mounted noexec, or its permissions forbid it" >&2
        return 1
    fi
}

# call_tool PROGRAM TOOL COMMAND ARGUMENT..: runs the tool in place of this process.
call_tool() {
    if ! command -v python3 > /dev/null; then
        echo "anyk: python3, which $3 needs, is not found" >&2
        exit 1
    fi
    case $1 in
        '') ;;
        /*) export ANYK_PROGRAM=$1 ;;
        *) export ANYK_PROGRAM=$PWD/$1 ;;
    esac
    exec python3 -X utf8 -ISB "$2" "${@:4}"
}

# tell_no_text ARGUMENT..: says which argument is not text, if one is. The program then says
# nothing, and ends with status 16.
tell_no_text() {
    [[ $* == *[![:ascii:]]* ]] || return 0
    (LC_ALL=C && name_no_text "$@")
}

# name_no_text ARGUMENT..: the same, where signs are bytes.
name_no_text() {
    local number=0 word more=$'[\x80-\xbf]' sign
    # The signs of UTF-8, by their first bytes.
    sign=$'[\x01-\x7f]|[\xc2-\xdf]'$more
    sign+=$'|\xe0[\xa0-\xbf]'$more$'|[\xe1-\xec\xee\xef]'$more$more$'|\xed[\x80-\x9f]'$more
    sign+=$'|\xf0[\x90-\xbf]'$more$more$'|[\xf1-\xf3]'$more$more$more
    sign+=$'|\xf4[\x80-\x8f]'$more$more
    for word in "$@"; do
        number=$((number + 1))
        if [[ ! $word =~ ^($sign)*$ ]]; then
            echo "anyk: argument $number is not UTF-8" >&2
            return 0
        fi
    done
}

# draw PROGRAM TOOLS picture ARGUMENT..: draws the join tree that `plan` reports. If `plan`
# refuses, it ends with its status.
draw() {
    local ends
    if ! command -v python3 > /dev/null; then
        echo "anyk: python3, which picture needs, is not found" >&2
        exit 1
    fi
    run_program "$@" | python3 -ISB "$2/picture.py" "${@:3}"
    ends=("${PIPESTATUS[@]}")
    [ "${ends[0]}" -eq 0 ] || exit "${ends[0]}"
    exit "${ends[1]}"
}

# run_program PROGRAM TOOLS ARGUMENT..: the same as call, for an argument `picture` with the report
# of `plan`.
run_program() {
    local program=$1 tools=$2 words output line status
    shift 2
    words=("$@")
    [ "$1" != picture ] || set_words_of_plan "$@"
    if ! may_hint || ! { exec {output}>&1; } 2> /dev/null; then
        exec "$program" "${words[@]}"
    fi
    watch_program
    exec {output}>&-
    [ -z "$line" ] || printf '%s\n' "$line" >&2
    case $status in
        0) [ ! -f "$tools/notes.py" ] || tell "$tools/notes.py" "$@" ;;
        [2-9] | 1[012456]) tell "$tools/hints.py" "$status" "$line" "$@" ;;
    esac
    exit "$status"
}

# tell SCRIPT ARGUMENT..: prints what a script says on the error output, and nothing of its own faults.
# Names are taken as the program takes them, whatever the locale is.
tell() {
    python3 -X utf8 -ISB "$@" >&2 2> /dev/null
}

# may_hint: whether hints and notes are wanted, and can be had.
may_hint() {
    { [ -t 2 ] || [ "${ANYK_HINTS-}" = 1 ]; } && command -v python3 > /dev/null
}

# watch_program: runs the program of run_program, and sets line to its line on the error output and
# status to its status. A signal that ends this process ends the program too.
watch_program() {
    local child=() pid='' caught='' signal
    # By perl it also ends if this process is killed.
    ! command -v perl > /dev/null || child=(perl "$tools/child.pl" "$BASHPID")
    for signal in TERM HUP INT; do
        # shellcheck disable=SC2064
        trap "pass_on $signal" "$signal"
    done
    shopt -s lastpipe
    # (perl would say so if it lacks the caller's locale.)
    {
        echo "$BASHPID" >&2
        PERL_BADLANG=0 exec "${child[@]}" "$program" "${words[@]}" {output}>&-
    } 2>&1 >&"$output" | read_error
    status=${PIPESTATUS[0]}
    trap - TERM HUP INT
    if [ -n "$caught" ]; then
        kill -s "$caught" "$BASHPID"
    fi
}

# read_error: reads the number of the program's process, and then what it says.
read_error() {
    read -r pid
    [ -z "$caught" ] || pass_on "$caught"
    IFS= read -r -d '' line
    line=${line%$'\n'}
}

# pass_on SIGNAL: ends the program, and lets this process end by the same signal after it.
pass_on() {
    caught=$1
    [ -z "$pid" ] || kill -s TERM "$pid" 2> /dev/null
}

# set_words_of_plan picture ARGUMENT..: sets words to the call of `plan` in place of that of
# picture. A second --dot stays, so that `plan` refuses it.
set_words_of_plan() {
    local word may_be_option=1
    words=(plan)
    for word in "${@:2}"; do
        if [ -n "$may_be_option" ] && [ "$word" = --dot ]; then
            may_be_option=
        else
            [ "$word" != -- ] || may_be_option=
            words+=("$word")
        fi
    done
}
