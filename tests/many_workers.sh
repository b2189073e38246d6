#!/usr/bin/env bash
# many_workers.sh PROGRAM [RUNS [OTHER]]: solves four games RUNS times (200) by 2, 4 and 16 workers each, and two larger ones
# a tenth as often, with stages of both kinds. Each report is checked: by the program's `check`, and by `OTHER verify`, which
# works out what both plans are worth, where another program is given; and its gap is at most one and a half times that of one
# worker, and with linear stages, whose gaps are a few millionths, 50 millionths more. The schedule is
# another one in each run, so this is no part of the gate: it looks for what no contract says of threads, as a run that does
# not end, or workers that leave states too early.
set -u
if [ $# -lt 1 ]; then
    echo "usage: many_workers.sh PROGRAM [RUNS [OTHER]]" >&2
    exit 2
fi
program=$(realpath "$1") || exit 2
runs=${2:-200}
other=
[ $# -ge 3 ] && { other=$(realpath "$3") || exit 2; }
report=$(mktemp) || exit 2
trap 'rm -f "$report"' EXIT
cases=$(dirname "$(realpath "$0")")/vectors
# What a case of a table says of its game.
table() { sed 's/^{\("game":"table",.*\),"gap".*/\1/' "$cases/solve/$1.in"; }
cards() { echo "\"game\":\"goofspiel\",\"one\":[$1],\"two\":[$1],\"prizes\":[$1],\"score\":0,\"pay\":\"margin\""; }
small=(
    "$(cards 1,2,3,4)"
    "$(cards 1,2,3,4,5)"
    '"game":"tron","height":4,"width":4,"walls":[],"one":0,"two":15'
    "$(table table_three_levels_with_draws)"
)
large=(
    "$(cards 1,2,3,4,5,6)"
    '"game":"oshi_zumo","size":3,"one":15,"two":15,"least":1,"place":0'
)
# The gap of the report of GAME by WORKERS with STAGES, with the words that `check` says of it in `answer`; nothing where it is
# not accepted.
answer=
gap_by() {
    local weight=8192
    [ "$3" = regret ] || weight=1048576
    echo "{$1,\"gap\":0,\"weight\":$weight,\"turns\":100000,\"visits\":1000000,\"rows\":65536,\"workers\":$2,\"stages\":\"$3\"}" |
        timeout -k 1 120 "$program" solve > "$report"
    local status=$?
    answer=$("$program" check < "$report")
    local word lower upper rest
    read -r word lower upper rest <<< "$answer"
    gap=
    if [ "$status" -le 3 ] && [ "$word" = accepted ] && { [ -z "$other" ] || "$other" verify < "$report" > /dev/null; }; then
        gap=$((upper - lower))
    fi
}
solved=0
failed=0
solve() {
    gap_by "$1" 1 "$3"
    local alone=$gap more=0
    [ "$3" = regret ] || more=50
    for workers in 2 4 16; do
        for _ in $(seq "$2"); do
            gap_by "$1" "$workers" "$3"
            if [ -n "$gap" ] && [ -n "$alone" ] && [ $((2 * gap)) -le $((3 * alone + 2 * more)) ]; then
                solved=$((solved + 1))
            else
                failed=$((failed + 1))
                echo "FAILED with $workers workers and $3 (gap $gap, one worker $alone; $answer)"
            fi
        done
    done
}
for stages in regret linear; do
    for game in "${small[@]}"; do
        solve "$game" "$runs" "$stages"
    done
    for game in "${large[@]}"; do
        solve "$game" $(((runs + 9) / 10)) "$stages"
    done
done
echo "$solved accepted, $failed failed"
[ "$failed" -eq 0 ]
