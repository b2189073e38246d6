#!/usr/bin/env bash
# fuzz.sh FOLDER PROGRAM [COUNT [SEED [JOBS]]]: builds fuzz.c over the archive in the folder, with the
# address sanitizer where the compiler has it, gives it COUNT inputs (100000) in JOBS processes at once (1), and compares each
# hundredth answer, of more than a million inputs 10000 of them, with the program's and with docs/FORMATS.md. A report of several
# workers is not compared with the program's, where it depends on the schedule. COUNT 0 prints what the inputs of the cases cost
# and how often each is taken. Inputs at fault are kept in /tmp. The last line is `N passed, M failed, K left out`.
set -u
if [ $# -lt 2 ]; then
    echo "usage: fuzz.sh FOLDER PROGRAM [COUNT [SEED [JOBS]]]" >&2
    exit 2
fi
folder=$(realpath "$1") || exit 2
program=$(realpath "$2") || exit 2
count=${3:-100000}
seed=${4:-1}
jobs=${5:-1}
every=$((count / 10000 > 100 ? count / 10000 : 100))
here=$(dirname "$(realpath "$0")")
top=$(dirname "$(dirname "$here")")
work=$(mktemp -d) || exit 2
trap 'rm -rf "$work"' EXIT
build() {
    "${CC:-cc}" -std=c11 -O1 -I"$top/include" "$@" -o "$work/fuzz" "$here/fuzz.c" "$folder/libdosolve.a"
}
if build -fsanitize=address 2> /dev/null; then
    echo "with the address sanitizer"
else
    build || exit 2
    echo "without the address sanitizer"
fi
mkdir -p "$work"/samples/{solve,bounds,check,exploit,play}
cd "$work" || exit 2
(cd "$top/tests/vectors" && printf '%s\n' */*.args | sed 's/\.args$//') > names
if [ "$count" -eq 0 ]; then
    ./fuzz "$top/tests/vectors" 0 "$seed" "$jobs" < names | sort -rn
    exit
fi
keep() { # files of a case
    local file
    for file in "$@"; do
        cp "$file" "/tmp/dosolve_fuzz_$seed.$(basename "$file")"
    done
}
if ! ./fuzz "$top/tests/vectors" "$count" "$seed" "$jobs" samples "$every" < names; then
    shopt -s nullglob
    keep [0-9]*.*
    exit 1
fi
passed=0
failed=0
left=0
python3 "$top/tests/style/formats.py" samples > documented || failed=1
grep -v '^texts that no case has' documented
for args in samples/*/*.args; do
    case=${args%.args}
    if [[ $case == samples/solve/* ]] && grep -q '^spent [0-9]* ' "$case.out"; then
        left=$((left + 1))
        continue
    fi
    mapfile -t words < "$args"
    "$program" "${words[@]}" < "$case.in" > out 2> err
    status=$?
    if [ "$status" = "$(< "$case.status")" ] && cmp -s out "$case.out"; then
        passed=$((passed + 1))
    else
        failed=$((failed + 1))
        echo "FAILED: ${words[*]} of an input that is kept as /tmp/dosolve_fuzz_$seed.${case##*/}.in"
        keep "$case".*
    fi
done
echo "$passed passed, $failed failed, $left left out"
[ "$failed" -eq 0 ] && [ "$passed" -gt 0 ]
