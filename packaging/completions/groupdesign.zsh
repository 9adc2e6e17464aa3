#compdef groupdesign
# Completion of groupdesign in zsh.

_groupdesign() {
    local -a commands asked
    commands=(
        'draw:draw together on a page in the browser'
        'node:be one site of a session, by typed lines'
        'rehearse:play all sites of a session and the network between them'
        'churn:play a session of four sites from a number'
        'replay:print the drawing of a log, or its events'
        'upgrade:write a log in the newest version'
        'snapshot:write the drawing of a log without its history'
        'view:print the drawing of a snapshot and of the frames behind it'
        'board:print the cards of a log of cards'
        'help:say how a command is called'
    )
    asked=('(- *)'{-h,--help}'[say how it is called]')
    if (( CURRENT == 2 )); then
        _describe -t commands command commands
        _arguments $asked '(- *)'{-V,--version}'[print the version]'
        return
    fi
    local command=$words[2]
    (( CURRENT-- ))
    shift words
    case $command in
        draw)
            _arguments $asked '--session[number of the session]:number' '--site[own number]:number' \
                '--journal[file of the log]:file:_files' '--demo[people on this machine]:number:(1 2 3 4)' \
                '--port[port of the page]:port' '--open[open the page in a browser]' \
                '--program[another build of the program]:file:_files' '--found[found a session over a broker]:name' \
                '--listen[start a broker here]:address' '--broker[the broker]:address' '--ca[its authority]:file:_files' \
                '--invite[print a link for one person]' '--join[sit down at the seat of a link]:link' \
                '--keep[keep a copy at the seat of a link]:link' '--retire[end a seat]:seat' \
                '--account[user and password of all members]:file:_files' '--watch[look on by a link]' \
                '--host[seats for guests with a browser]:number' '--at[address that guests reach]:address' \
                '--cert[certificate of that address]:file:_files' '--key[its key]:file:_files' '*:address of a site:_hosts'
            ;;
        node)
            _arguments $asked '--resume[go on from the journal]' '--session[number of the session]:number' \
                '--site[own number]:number' '--journal[file of the log]:file:_files' '*:address of a site'
            ;;
        rehearse) _arguments $asked '--sites[how many sites]:number' ;;
        churn) _arguments $asked '--seed[the number that decides]:number' '--steps[how many steps]:number' ;;
        replay) _arguments $asked '--format[what is printed]:format:(text json events)' '--counts[print counts last]' \
            '--upto-fault[print what stands before a fault]' ;;
        board) _arguments $asked '--counts[print counts last]' ;;
        upgrade|snapshot|view) _arguments $asked ;;
        help) _describe -t commands command commands ;;
    esac
}

_groupdesign "$@"
