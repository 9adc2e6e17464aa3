# Completion of groupdesign in bash.
_groupdesign() {
    local word=${COMP_WORDS[COMP_CWORD]} before=${COMP_WORDS[COMP_CWORD - 1]} options
    COMPREPLY=()
    if [ "$COMP_CWORD" -eq 1 ]; then
        options='draw node rehearse churn replay upgrade snapshot view board help --help --version'
        mapfile -t COMPREPLY < <(compgen -W "$options" -- "$word")
        return
    fi
    case $before in
        --journal | --program | --ca | --account | --cert | --key)
            compopt -o filenames
            mapfile -t COMPREPLY < <(compgen -f -- "$word")
            return
            ;;
        --format)
            mapfile -t COMPREPLY < <(compgen -W 'text json events' -- "$word")
            return
            ;;
        --session | --site | --sites | --seed | --steps | --demo | --port) return ;;
        --found | --listen | --broker | --join | --keep | --retire | --host | --at) return ;;
        '<' | '>')
            compopt -o filenames
            mapfile -t COMPREPLY < <(compgen -f -- "$word")
            return
            ;;
    esac
    case ${COMP_WORDS[1]} in
        draw)
            options='--session --site --journal --demo --port --open --program --help'
            options+=' --found --listen --broker --ca --account --invite --join --keep --watch --retire --host --at --cert --key'
            ;;
        node) options='--resume --session --site --journal --help' ;;
        rehearse) options='--sites --help' ;;
        churn) options='--seed --steps --help' ;;
        replay) options='--format --counts --upto-fault --help' ;;
        board) options='--counts --help' ;;
        upgrade | snapshot | view) options='--help' ;;
        help) options='draw node rehearse churn replay upgrade snapshot view board' ;;
        *) return ;;
    esac
    mapfile -t COMPREPLY < <(compgen -W "$options" -- "$word")
}
complete -F _groupdesign groupdesign
