#!/bin/sh
# Two sites of one session draw together over loopback, and both show the same drawing in the end:
#
#     examples/two-sites.sh               with the program as ./groupdesign builds it
#     examples/two-sites.sh PROGRAM       with another build of it
#
# What is typed and answered at each site is printed, and then the drawing. The status is 0 where both sites and a replay of
# each one's journal show the same, and 1 where not.

here=$(dirname -- "$(readlink -f -- "$0")")
program=${1:-$here/../groupdesign}
room=$(mktemp -d) || exit 1
first='' second=''
trap 'kill $first $second 2>/dev/null; rm -rf "$room"' EXIT
trap 'exit 1' HUP INT TERM

give_up() {
    printf 'two-sites: %s\n' "$*" >&2
    exit 1
}

# Waits until a file of a site has so many lines of that kind, or some minutes.
wait_for() {
    tries=0
    until [ "$(grep -c "$2" "$1")" -ge "$3" ]; do
        tries=$((tries + 1))
        [ "$tries" -le 10000 ] || give_up "no answer: $(tail -n 1 "$1")"
        sleep 0.02
    done
}

# Waits until the site of that process is ready, or has ended, or some minutes.
is_ready() {
    tries=0
    until grep -q '^ready' "$room/$1.out"; do
        tries=$((tries + 1))
        kill -0 "$2" 2>/dev/null && [ "$tries" -le 10000 ] || return 1
        sleep 0.02
    done
}

# Types a line at a site. Its answer is whole when that of the `status` behind it is there.
tell() {
    printf '%s> %s\n' "$1" "$2"
    asked=$(($(grep -c '^held ' "$room/$1.out") + 1))
    from=$(($(wc -l <"$room/$1.out") + 1))
    if [ "$1" = 1 ]; then printf '%s\nstatus\n' "$2" >&3; else printf '%s\nstatus\n' "$2" >&4; fi
    wait_for "$room/$1.out" '^held ' "$asked"
    tail -n "+$from" "$room/$1.out" | grep -v '^held '
}

held() {
    grep '^held ' "$room/$1.out" | tail -n 1 | cut -d ' ' -f 2
}

start() {
    mkfifo "$room/$1.in" || give_up 'no pipe can be made'
    "$program" node --session 7 --site "$1" --journal "$room/$1.log" "$here1" "$here2" <"$room/$1.in" >"$room/$1.out" &
}

# The first run of the program builds it where that is needed.
[ "$("$program" replay <"$here/empty.log")" = 'end 0' ] || give_up "$program replays no empty log"

# Ports that others have are few, so that another pair is tried where a site ends before it is ready.
port=$((20000 + $$ % 20000))
until [ -n "$second" ]; do
    here1=127.0.0.1:$port here2=127.0.0.1:$((port + 1))
    rm -f "$room"/*
    start 1
    first=$!
    exec 3>"$room/1.in"
    start 2
    second=$!
    exec 4>"$room/2.in"
    if ! is_ready 1 "$first" || ! is_ready 2 "$second"; then
        kill "$first" "$second" 2>/dev/null
        wait "$first" "$second" 2>/dev/null
        second='' port=$((port + 2))
        [ "$port" -lt 40100 ] || give_up 'no ports are free'
    fi
done

tell 1 'name Ada'
tell 2 'name Bob'
tell 1 'create rect 0 0 100 50 House'
tell 1 'create line 0 0 100 -30'
tell 2 'create ellipse 200 -60 30 30 Sun'
tell 2 poll
tell 2 'group 1.1 2.1'
# Both change the sun before they hear of each other: the later one, by clock and then by site, stands.
tell 1 poll
tell 1 'fill 1.2 FFCC00'
tell 2 'fill 1.2 FFE0A0'
tell 1 'move 1.2 220 -80'
tell 2 'move 3.2 0 10'

# A datagram that is sent is there at once on loopback, so few polls are needed.
polls=0
while [ "$(held 1)" != 8 ] || [ "$(held 2)" != 8 ]; do
    polls=$((polls + 1))
    [ "$polls" -le 20 ] || give_up "site 1 holds $(held 1) events, and site 2 $(held 2)"
    tell 1 poll
    tell 2 poll
done
tell 1 who
for site in 1 2; do
    tell "$site" show >"$room/$site.shown" || exit 1
    cat "$room/$site.shown"
    sed 1d "$room/$site.shown" >"$room/$site.drawing"
done
echo quit >&3
echo quit >&4
wait "$first" || give_up "site 1 ended with $?"
wait "$second" || give_up "site 2 ended with $?"
first='' second=''
for site in 1 2; do
    "$program" replay <"$room/$site.log" >"$room/$site.replayed" || give_up "no replay of the journal of site $site"
    cmp -s "$room/$site.replayed" "$room/1.drawing" || give_up "site $site and its journal show another drawing"
done
cmp -s "$room/1.drawing" "$room/2.drawing" || give_up 'the sites show different drawings'
echo 'both sites and both journals show the same drawing'
