#!/usr/bin/env bash
# refused_memory.sh PROGRAM: refuses each request for memory in turn of `solve` of examples/goofspiel_mixed.json by four
# workers, of `solve` of a game of four cards by one worker, which keeps searches and matrices, of `bounds` of that game, of
# `check`, `exploit one` and `play 3 5` of the report of the example, and of `solve` and `check` of a table. Each run has to end with status 8 and write nothing,
# or to give the plain answer, where the program can do without what was refused: a thread, a memory of what was found, or
# room ahead for a list (the kit's lists ask for the room that they expect first, and then for what they need). Needs a C
# compiler; no part of the gate. Prints for each command how many requests were refused; the last line is
# `N passed, M failed`.
set -u
if [ $# -ne 1 ]; then
    echo "usage: refused_memory.sh PROGRAM" >&2
    exit 2
fi
program=$(realpath "$1") || exit 2
here=$(dirname "$(realpath "$0")")
work=$(mktemp -d) || exit 2
trap 'rm -rf "$work"' EXIT
"${CC:-cc}" -shared -fPIC -O1 -o "$work/refused.so" "$here/refused_memory.c" -ldl -lpthread || exit 2

example=$here/../examples/goofspiel_mixed
sed 's/"workers":1/"workers":4/' "$example.json" > "$work/workers.in"
cards='"one":[1,2,3,4],"two":[1,2,3,4],"prizes":[1,2,3,4]'
echo "{\"game\":\"goofspiel\",$cards,\"score\":0,\"pay\":\"margin\",\"gap\":0,\"weight\":8192,\"turns\":40,\"visits\":100000,\"rows\":4096,\"workers\":1}" \
    > "$work/alone.in"
cp "$work/alone.in" "$work/bounds.in"
for command in check exploit play; do
    cp "$example.report" "$work/$command.in"
done
table=$here/vectors/solve/table_two_stages_with_draws
cp "$table.in" "$work/table.in"
cp "$table.out" "$work/report.in"
# The name of each case, and the words of its command.
cases=("workers solve" "alone solve" "bounds bounds" "check check" "exploit exploit one" "play play 3 5" "table solve" "report check")

declare -A plain_status
for case in "${cases[@]}"; do
    read -r name words <<< "$case"
    # shellcheck disable=SC2086
    "$program" $words < "$work/$name.in" > "$work/$name.plain"
    plain_status[$name]=$?
    [ "${plain_status[$name]}" -le 5 ] || exit 1
done

# Whether this is the answer without a refusal; that of several workers may have other turns.
is_plain() { # case, status
    [ "$2" = "${plain_status[$1]}" ] || return 1
    case $1 in
    workers) [ "$("$program" check < "$work/out")" = "accepted -500000 -500000 closed" ] ;;
    *) cmp -s "$work/out" "$work/$1.plain" ;;
    esac
}

passed=0
failed=0
for case in "${cases[@]}"; do
    read -r command words <<< "$case"
    number=0
    unreached=0
    empty=0
    plain=0
    threads=0
    # The number of requests of several workers is another one in each run.
    while [ "$unreached" -lt 20 ]; do
        number=$((number + 1))
        # shellcheck disable=SC2086
        timeout -k 1 20 env REFUSED="$number" LD_PRELOAD="$work/refused.so" "$program" $words \
            < "$work/$command.in" > "$work/out" 2> "$work/err" 9> "$work/letter"
        status=$?
        letter=$(cat "$work/letter")
        if [ -z "$letter" ]; then
            unreached=$((unreached + 1))
            continue
        fi
        unreached=0
        if [ "$letter" = t ] && is_plain "$command" "$status"; then
            threads=$((threads + 1))
        elif [ "$letter" = m ] && [ "$status" = 8 ] && [ ! -s "$work/out" ]; then
            empty=$((empty + 1))
        elif [ "$letter" = m ] && is_plain "$command" "$status"; then
            plain=$((plain + 1))
        else
            failed=$((failed + 1))
            echo "FAILED $command, request $number ($letter): status $status, $(stat -c %s "$work/out") bytes"
        fi
    done
    passed=$((passed + empty + plain + threads))
    echo "$words ($command): $((empty + plain + threads)) refused, of which $empty ended with status 8, $plain did without room ahead," \
        "and $threads without a thread"
    # If most do without, not one has to be out of memory.
    [ "$empty" -gt "$plain" ] || failed=$((failed + 1))
done
echo "$passed passed, $failed failed"
[ "$failed" -eq 0 ] && [ "$passed" -gt 0 ]
