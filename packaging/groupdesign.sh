#!/bin/sh
# The installed command: `groupdesign draw` opens the page, and all else is the program's. It finds both by its own place, so that
# the folders bin, lib and share may stand anywhere. Where it runs neither it ends with 70.

give_up() {
    printf 'groupdesign: %s\n' "$*" >&2
    exit 70
}

self=$(readlink -f -- "$0") && prefix=$(dirname -- "$(dirname -- "$self")") || exit 70
program=$prefix/lib/groupdesign/groupdesign
settings=$prefix/lib/groupdesign/settings.sh
[ -r "$settings" ] || give_up "$settings is missing: install groupdesign anew"
# shellcheck source=packaging/settings.sh
. "$settings"

# Debian's own Python has Debian's packages.
draw() {
    python=/usr/bin/python3
    [ -x "$python" ] || python=$(command -v python3) || give_up 'the page needs Python 3.10 with aiohttp: sudo apt install python3-aiohttp'
    exec "$python" "$prefix/share/groupdesign/draw" "$@"
}

# Adds to the program's help the command and the status that it doesn't have, and an example of that command.
with_the_page='
/^  node /i\
  draw      draw together on a page in the browser
s/13 a word that is no UTF-8/&, 70 not run at all/
s/^example: .*/&\
example: groupdesign draw --demo 2 --open/
'

case $#:$1:$2 in
    *:draw:*)
        shift
        draw "$@"
        ;;
    2:help:draw | 2:--help:draw | 2:-h:draw) draw --help ;;
    1:--help: | 1:-h: | 1:help:)
        text=$("$program" "$@") || exit
        printf '%s\n' "$text" | sed "$with_the_page"
        exit
        ;;
esac
become "$program" "$@"
