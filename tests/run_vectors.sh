#!/usr/bin/env bash
# run_vectors.sh PROGRAM [COMMAND/NAME ..]: runs the program on the cases of tests/vectors, or on those named, and compares
# bytes and status. tests/vectors/README.md has the files of a case. A case has 20 seconds. The last line is
# `N passed, M failed`.
set -u
if [ $# -lt 1 ]; then
    echo "usage: run_vectors.sh PROGRAM [COMMAND/NAME ..]" >&2
    exit 2
fi
program=$(realpath "$1") || exit 2
shift
folder=$(dirname "$(realpath "$0")")/vectors
work=$(mktemp -d) || exit 2
trap 'rm -rf "$work"' EXIT

passed=0
failed=0
names=("$@")
if [ $# -eq 0 ]; then
    mapfile -t names < <(cd "$folder" && printf '%s\n' */*.args | sed 's/\.args$//')
fi
for name in "${names[@]}"; do
    case=$folder/$name
    mapfile -t words < "$case.args"
    input=$case.in
    if [ "$(head -c 8 "$input" | tr -d '\0')" = "@spaces " ]; then
        read -r _ count < "$input"
        printf "%${count}s" "" > "$work/in"
        input=$work/in
    fi
    timeout -k 1 20 "$program" "${words[@]}" < "$input" > "$work/out" 2> "$work/err"
    status=$?
    want=$(cat "$case.status")
    if [ "$status" = "$want" ] && cmp -s "$work/out" "$case.out"; then
        passed=$((passed + 1))
    else
        failed=$((failed + 1))
        echo "FAILED $name (status $status, expected $want)"
    fi
done
echo "$passed passed, $failed failed"
[ "$failed" -eq 0 ] && [ "$passed" -gt 0 ]
