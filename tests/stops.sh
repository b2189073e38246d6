#!/usr/bin/env bash
# stops.sh PROGRAM [OTHER]: stops searches of small games where they ask for the first time whether to go on, for the second
# time, and so on to their end: by one worker and by four, with stages of both kinds and by induction. Each report is
# accepted by `check`, and by `OTHER verify` where another program is given; each interval has a number in common with that
# of the whole search; by one worker bounds are no wider than where it was stopped before; and a stop that comes later than
# the end changes nothing. Then a file stops a search, a time does, and what is no time is told and passed over. A clock that
# goes on by a second with each look (stops.c) makes the places.
set -u
if [ $# -lt 1 ]; then
    echo "usage: stops.sh PROGRAM [OTHER]" >&2
    exit 2
fi
program=$(realpath "$1") || exit 2
other=
[ $# -ge 2 ] && { other=$(realpath "$2") || exit 2; }
here=$(dirname "$(realpath "$0")")
folder=$(mktemp -d) || exit 2
trap 'rm -rf "$folder"' EXIT
unset DOSOLVE_SECONDS DOSOLVE_STOP DOSOLVE_PROGRESS
"${CC:-cc}" -O1 -shared -fPIC "$here/stops.c" -o "$folder/clock.so" || exit 2
failed=0
stops=0
fails() {
    echo "FAILED: $1"
    failed=$((failed + 1))
}

cards() { echo "\"game\":\"goofspiel\",\"one\":[$1],\"two\":[$1],\"prizes\":[$1],\"score\":0,\"pay\":\"margin\""; }

# The report of the position, with variables set; `status` is its status.
solve() { env "$@" "$program" solve < "$folder/position" > "$folder/report" 2> "$folder/said"; status=$?; }

# `lower`, `upper` and `outcome` of the report, as `check` tells them; a report that is not accepted is a failure.
told() {
    local word
    read -r word lower upper outcome < <("$program" check < "$folder/report")
    [ "$word" = accepted ] || { fails "$1: $word ${lower:-}"; return 1; }
    [ -z "$other" ] || "$other" verify < "$folder/report" > "$folder/judged" || { fails "$1: $(head -c 200 "$folder/judged")"; return 1; }
}

# Stops the search of GAME by WORKERS with MORE fields and VISITS at each place; with TURNS, if they are given.
stop_each() {
    local name="$1 by $2 $3" whole_lower whole_upper whole_outcome last_lower=-9999999999 last_upper=9999999999 place=0
    echo "{$1,\"gap\":0,\"weight\":8192,\"turns\":${5:-1000000},\"visits\":$4,\"rows\":65536,\"workers\":$2,$3}" > "$folder/position"
    solve UNLIMITED=1
    told "$name" || return
    whole_lower=$lower whole_upper=$upper whole_outcome=$outcome
    cp "$folder/report" "$folder/whole"
    while [ "$place" -lt 1000 ]; do
        place=$((place + 1))
        solve LD_PRELOAD="$folder/clock.so" DOSOLVE_SECONDS=$place
        told "$name, stopped at $place" || return
        stops=$((stops + 1))
        [ "$lower" -le "$whole_upper" ] && [ "$whole_lower" -le "$upper" ] || fails "$name: $lower to $upper at $place, $whole_lower to $whole_upper at last"
        if [ "$2" = 1 ]; then
            [ "$lower" -ge "$last_lower" ] && [ "$upper" -le "$last_upper" ] || fails "$name: looser at $place"
            last_lower=$lower last_upper=$upper
        fi
        case $outcome in
            stopped) [ "$status" = 4 ] || fails "$name: status $status at $place" ;;
            "$whole_outcome") [ "$2" != 1 ] || ! cmp -s "$folder/report" "$folder/whole" || break ;;
            # Several workers can end one way or the other.
            closed | settled) [ "$2" != 1 ] || fails "$name: $outcome at $place" ;;
            *) fails "$name: $outcome at $place" ;;
        esac
        [ "$2" = 1 ] || [ "$outcome" = stopped ] || break
    done
    [ "$place" -lt 1000 ] || fails "$name: never came to its end"
}

for workers in 1 4; do
    stop_each "$(cards 1,2,3)" $workers '"stages":"regret"' 0
    stop_each "$(cards 1,2,3)" $workers '"stages":"linear"' 0
    stop_each "$(cards 1,2,3,4)" $workers '"stages":"linear"' 100
    stop_each "$(cards 1,2,3)" $workers '"stages":"linear","search":"induction"' 0
    stop_each '"game":"oshi_zumo","size":1,"one":5,"two":5,"least":1,"place":0' $workers '"stages":"linear","search":"induction"' 100
done
# Within serial searches, which ask once in some thousands of states.
stop_each "$(cards 1,2,3,4,5,6)" 1 '"stages":"linear"' 1000000 5
stop_each "$(cards 1,2,3,4,5,6)" 1 '"stages":"regret"' 1000000 5
stop_each "$(cards 1,2,3,4,5 | sed s/margin/prizes/)" 1 '"stages":"linear","search":"induction"' 1000000
echo "$stops stops"

# A file, which is there or comes; a time; and what is no time.
large=$(cards 1,2,3,4,5,6,7,8,9)
echo "{$large,\"gap\":0,\"weight\":8192,\"turns\":1099511627776,\"visits\":1000,\"rows\":1000000,\"workers\":2,\"stages\":\"linear\"}" > "$folder/position"
touch "$folder/there"
solve DOSOLVE_STOP="$folder/there"
told "a file that is there" && [ "$outcome $status" = "stopped 4" ] || fails "a file that is there: $outcome $status"
(sleep 1; touch "$folder/comes") &
from=$(date +%s%3N)
solve DOSOLVE_STOP="$folder/comes"
took=$(($(date +%s%3N) - from))
told "a file that comes" && [ "$outcome" = stopped ] && [ "$took" -ge 1000 ] && [ "$took" -lt 4000 ] || fails "a file that comes: $outcome after $took ms"
from=$(date +%s%3N)
solve DOSOLVE_SECONDS=2
took=$(($(date +%s%3N) - from))
told "two seconds" && [ "$outcome" = stopped ] && [ "$took" -ge 1800 ] && [ "$took" -lt 5000 ] || fails "two seconds: $outcome after $took ms"
echo "{$large,\"gap\":0,\"weight\":8192,\"turns\":1099511627776,\"visits\":1099511627776,\"rows\":1000000,\"workers\":1,\"stages\":\"linear\"}" > "$folder/position"
from=$(date +%s%3N)
solve DOSOLVE_SECONDS=1
took=$(($(date +%s%3N) - from))
told "a second of serial search" && [ "$outcome" = stopped ] && [ "$took" -ge 900 ] && [ "$took" -lt 3000 ] || fails "a second of serial search: $outcome after $took ms"
echo "{$(cards 1,2,3),\"gap\":0,\"weight\":8192,\"turns\":1000000,\"visits\":0,\"rows\":65536,\"workers\":1,\"stages\":\"linear\"}" > "$folder/position"
solve UNLIMITED=1
cp "$folder/report" "$folder/whole"
for seconds in 0 -1 1.5 x ''; do
    solve DOSOLVE_SECONDS="$seconds"
    cmp -s "$folder/report" "$folder/whole" && [ -s "$folder/said" ] || fails "DOSOLVE_SECONDS=$seconds: $(cat "$folder/said")"
done

echo "$failed failed"
[ "$failed" -eq 0 ]
