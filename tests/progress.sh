#!/usr/bin/env bash
# progress.sh PROGRAM: searches Goofspiel with the cards 1 to 8 for some seconds, without and with DOSOLVE_PROGRESS, by double
# oracle and by induction, and looks whether the report is the same and whether standard error has what docs/FORMATS.md says
# of it.
set -u
if [ $# -ne 1 ]; then
    echo "usage: progress.sh PROGRAM" >&2
    exit 2
fi
program=$(realpath "$1") || exit 2
folder=$(mktemp -d) || exit 2
trap 'rm -rf "$folder"' EXIT
unset DOSOLVE_PROGRESS
failed=0
fails() {
    echo "FAILED: $1"
    failed=$((failed + 1))
}

# The report, standard error and status of a search by WORKERS, each of TURNS, of the game, with the stages and the method
# that the variables say; `took` is its time in milliseconds.
cards=[1,2,3,4,5,6,7,8] pay=margin stages=regret method=oracle
search() {
    local from
    echo "{\"game\":\"goofspiel\",\"one\":$cards,\"two\":$cards,\"prizes\":$cards,\"score\":0,\"pay\":\"$pay\",\"gap\":0," \
        "\"weight\":8192,\"turns\":$2,\"visits\":200000,\"rows\":1000000,\"workers\":$1,\"stages\":\"$stages\"," \
        "\"search\":\"$method\"}" > "$folder/position"
    from=$(date +%s%3N)
    "$program" solve < "$folder/position" > "$folder/$3.report" 2> "${4:-$folder/$3.lines}"
    echo $? > "$folder/$3.status"
    took=$(($(date +%s%3N) - from))
}

# Whether each of WORKERS printed at least LEAST lines, whose seconds rise and whose turns do not fall from line to line, and
# whose bounds, once there are any, close and are as far apart as the line says.
are_right() {
    awk -v workers="$1" -v least="$2" -v most=$((took / 1000)) '
        !/^worker [0-9]+ turns [0-9]+ seconds [1-9][0-9]*( lower -?[0-9]+ upper -?[0-9]+ gap [0-9]+)?$/ { bad = 1 }
        NF == 6 && known[$2] { bad = 1 }
        NF == 12 {
            if ($12 != $10 - $8 || known[$2] && ($8 < lower[$2] || $10 > upper[$2])) bad = 1
            known[$2] = 1; lower[$2] = $8; upper[$2] = $10
        }
        $2 >= workers || $4 < turns[$2] || $6 <= seconds[$2] || $6 > most { bad = 1 }
        { turns[$2] = $4; seconds[$2] = $6; lines[$2]++ }
        END { for (worker = 0; worker < workers; worker++) if (lines[worker] < least || least && !known[worker]) bad = 1; exit bad }' "$folder/$3.lines"
}

same() {
    cmp "$folder/without.report" "$folder/$1.report" && cmp "$folder/without.status" "$folder/$1.status"
}

turns=25000
took=0
while [ "$took" -lt 3000 ]; do
    turns=$((2 * turns))
    search 1 "$turns" without
done
[ -s "$folder/without.lines" ] && fails "standard error without the variable"

DOSOLVE_PROGRESS= search 1 "$turns" with
same with || fails "another report with the variable"
are_right 1 $((took / 2000)) with || fails "what one worker prints in $took ms: $(cat "$folder/with.lines")"

DOSOLVE_PROGRESS=1 search 2 "$turns" two
are_right 2 1 two || fails "what two workers print in $took ms: $(cat "$folder/two.lines")"

stages=linear
DOSOLVE_PROGRESS=1 search 1 1099511627776 linear
are_right 1 $((took / 2000)) linear || fails "what a search with linear stages prints in $took ms: $(cat "$folder/linear.lines")"
stages=regret

DOSOLVE_PROGRESS=1 search 1 "$turns" refused /dev/full
same refused || fails "another report where standard error takes nothing"

# An induction lists all states before it values the first, and values them all before it makes a row; and tells at least
# once in two seconds, whatever the number of threads.
cards=[1,2,3,4,5,6,7,8,9,10] pay=prizes stages=linear method=induction
search 1 1099511627776 without
for workers in 1 3; do
    DOSOLVE_PROGRESS=1 search $workers 1099511627776 induction
    grep -v '^spent ' "$folder/without.report" > "$folder/without.bounds"
    grep -v '^spent ' "$folder/induction.report" | cmp - "$folder/without.bounds" || fails "another report of $workers with the variable"
    awk -v least=$((took / 2000)) -v most=$((took / 1000)) '
        !/^induction listed [0-9]+ valued [0-9]+ planned [0-9]+ seconds [1-9][0-9]*$/ { bad = 1 }
        $3 < listed || $5 < valued || $7 < planned || $9 < seconds || $9 > most || valued && $3 > listed { bad = 1 }
        $5 > $3 || planned && $5 > valued || $7 && $5 < $3 { bad = 1 }
        { listed = $3; valued = $5; planned = $7; seconds = $9 }
        END { exit bad || NR < least }' "$folder/induction.lines" || fails "what an induction by $workers prints in $took ms: $(cat "$folder/induction.lines")"
done

echo "$failed failed"
[ "$failed" -eq 0 ]
