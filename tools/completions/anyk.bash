# shellcheck shell=bash
# Completion of anyk for bash.
_anyk() {
    local word=${COMP_WORDS[COMP_CWORD]} before=${COMP_WORDS[COMP_CWORD - 1]} command=${COMP_WORDS[1]-} options=
    local commands='run session plan picture prove verify load query check weights merge pairs seal check-proof'
    commands+=' build install uninstall release'
    COMPREPLY=()
    compopt -o filenames 2> /dev/null
    if [ "$COMP_CWORD" -eq 1 ]; then
        mapfile -t COMPREPLY < <(compgen -W "$commands help version" -- "$word")
        return
    fi
    # A word with = in it comes in up to three parts.
    local option=${COMP_WORDS[COMP_CWORD - 2]-}
    if [ "$word" = '=' ]; then
        option=$before before='=' word=
    fi
    case $before in
        --engine)
            mapfile -t COMPREPLY < <(compgen -W 'part rec' -- "$word")
            return
            ;;
        --script | --proof | '=')
            case $option in
                --engine) mapfile -t COMPREPLY < <(compgen -W 'part rec' -- "$word") ;;
                --best-of | --number | --rows) ;;
                *) mapfile -t COMPREPLY < <(compgen -f -- "$word") ;;
            esac
            return
            ;;
        --best-of | --number) return ;;
        --rows) [ "$command" != load ] || return ;;
    esac
    case $command in
        run) options='--engine --ranks --rows --best-of' ;;
        session) options='--engine --ranks --rows --best-of --script' ;;
        picture) options='--dot' ;;
        prove) options='--engine' ;;
        verify) options='--ranks --rows --proof' ;;
        load) options='--engine --number --rows' ;;
        query)
            options='--ranks --rows --engine --best-of --limit --json --table --delimiter --tsv'
            ;;
        weights)
            options='--scale --round --drop --fill --drop-empty --empty --delimiter --decimal-comma'
            ;;
        merge) options='--limit --descending' ;;
        pairs) options='--by --from --to --least --most' ;;
        seal) options='--proof' ;;
        check-proof) options='--ranks --rows --seal --proof' ;;
        help)
            mapfile -t COMPREPLY < <(compgen -W "$commands" -- "$word")
            return
            ;;
        install | uninstall)
            mapfile -t COMPREPLY < <(compgen -d -- "$word")
            return
            ;;
        build | version) return ;;
    esac
    case $command:$word in
        *:-*) mapfile -t COMPREPLY < <(compgen -W "$options" -- "$word") ;;
        run:* | session:* | plan:* | picture:* | prove:* | verify:*) mapfile -t COMPREPLY < <(compgen -f -- "$word") ;;
        query:* | check:* | weights:* | merge:* | pairs:* | seal:* | check-proof:* | release:*)
            mapfile -t COMPREPLY < <(compgen -f -- "$word")
            ;;
        load:*) mapfile -t COMPREPLY < <(compgen -W "$options" -- "$word") ;;
    esac
}
complete -F _anyk anyk ./anyk
