#!/usr/bin/env bash
# run.sh FOLDER: compares the library in the folder, where tools/build_library.sh made libdosolve.a and libdosolve.so,
# with the cases of tests/vectors, in one process, from one thread and from eight at once; then builds the programs of
# examples/c, with the archive or the shared library, and runs them. Needs a C and a C++ compiler, and tries the caller in
# Rust where there is a rustc. The last line is `N passed, M failed`.
set -u
if [ $# -ne 1 ]; then
    echo "usage: run.sh FOLDER" >&2
    exit 2
fi
folder=$(realpath "$1") || exit 2
here=$(dirname "$(realpath "$0")")
top=$(dirname "$(dirname "$here")")
work=$(mktemp -d) || exit 2
trap 'rm -rf "$work"' EXIT
warnings="-Wall -Wextra -Werror"
passed=0
failed=0
try() { # name, words that have to succeed
    local name=$1 status
    shift
    "$@" > "$work/printed" 2>&1
    status=$?
    if [ "$status" -eq 0 ]; then
        passed=$((passed + 1))
        echo "$name: $(tail -n 1 "$work/printed")"
    else
        failed=$((failed + 1))
        echo "FAILED $name (status $status)"
        tail -n 20 "$work/printed"
    fi
}

# The cases.
names=$(cd "$top/tests/vectors" && printf '%s\n' */*.args | sed 's/\.args$//')
# shellcheck disable=SC2086
try "vectors, build" "${CC:-cc}" -std=c11 -O1 $warnings -I"$top/include" -o "$work/cases" "$here/cases.c" "$folder/libdosolve.a" -lpthread
try "vectors" sh -c "printf '%s\n' '$names' | '$work/cases' '$top/tests/vectors' 8"

# The calls that answer in numbers, against the same cases and the reports of the examples.
# shellcheck disable=SC2086
try "numbers, build" "${CC:-cc}" -std=c11 -O1 $warnings -I"$top/include" -o "$work/numbers" "$here/numbers.c" "$folder/libdosolve.a"
names=$(cd "$top/tests/vectors" && printf '%s\n' solve/*.args exploit/*.args play/*.args | sed 's/\.args$//')
try "numbers" sh -c "printf '%s\n' '$names' | '$work/numbers' '$top/tests/vectors' '$top'/examples/*.report"

# The examples: C with the archive, C++ with the shared library, Rust with the archive.
# shellcheck disable=SC2086
try "solve.c, build" "${CC:-cc}" -std=c11 -O1 $warnings -I"$top/include" -o "$work/solve" "$top/examples/c/solve.c" "$folder/libdosolve.a"
for position in table_rock goofspiel_mixed goofspiel_drawn_mixed; do
    try "solve.c, $position" "$work/solve" "$top/examples/$position.json"
done
# shellcheck disable=SC2086
try "player.cpp, build" "${CXX:-c++}" -std=c++17 -O1 $warnings -I"$top/include" -o "$work/player" "$top/examples/c/player.cpp" \
    -L"$folder" -ldosolve -Wl,-rpath,"$folder"
try "player.cpp" "$work/player"
if command -v rustc > /dev/null; then
    try "caller.rs, build" rustc --edition 2021 -O -D warnings -L "native=$folder" -l static=dosolve -o "$work/caller" "$top/examples/c/caller.rs"
    try "caller.rs" "$work/caller" "$top/examples/table_rock.report"
else
    echo "caller.rs: left out, no rustc"
fi
# A caller's floating-point environment changes no answer, and is left as it was.
# shellcheck disable=SC2086
try "environment, build" "${CC:-cc}" -std=c11 -O1 $warnings -I"$top/include" -o "$work/environment" "$here/environment.c" \
    "$folder/libdosolve.a" -lm
small=(goofspiel_five goofspiel_mixed goofspiel_drawn_mixed oshi_zumo_mixed pursuit_grid table_best_of_three table_blotto)
positions=("${small[@]/%/.json}")
reports=("${small[@]/%/.report}")
try "environment" "$work/environment" "${positions[@]/#/$top/examples/}" -- "${reports[@]/#/$top/examples/}"
# The version is that of the package.
printf '#include <stdio.h>\n#include "dosolve.h"\nint main(void) { puts(dosolve_version()); }\n' > "$work/version.c"
# shellcheck disable=SC2086
try "version, build" "${CC:-cc}" -std=c11 -O1 $warnings -I"$top/include" -o "$work/version" "$work/version.c" "$folder/libdosolve.a"
try "version" grep -qxF "__version__ = \"$("$work/version")\"" "$top/python/dosolve/__init__.py"
# No other name than those of the header leaves the library.
exported=$(nm -D --defined-only "$folder/libdosolve.so" | awk '{ print $3 }' | sort)
wanted=$(printf '%s\n' dosolve_{bounds,check,exploit,games,plan,play,replies,root,row,sample,solve,version,worst})
try "names" [ "$exported" = "$wanted" ]
echo "$passed passed, $failed failed"
[ "$failed" -eq 0 ]
