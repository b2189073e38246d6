#!/usr/bin/env bash
# environment.sh PROGRAM: runs the program with a library before it that unmasks the exceptions of division by zero, of no
# number and of overflow: each answer has its bytes. Then with each other way to round: bytes may differ (README, "What is
# trusted"), but `check` in the default environment accepts each report. Needs a C compiler. The last line is
# `N passed, M failed`.
set -u
[ $# -eq 1 ] || { echo "usage: environment.sh PROGRAM" >&2; exit 2; }
program=$(realpath "$1") || exit 2
cd "$(dirname "$(realpath "$0")")/.." || exit 2
command -v "${CC:-cc}" > /dev/null || { echo "no C compiler: environments were not tried"; exit 0; }
work=$(mktemp -d) || exit 2
trap 'rm -rf "$work"' EXIT
cat > "$work/environment.c" << 'END'
#define _GNU_SOURCE
#include <fenv.h>
#include <stdlib.h>
__attribute__((constructor)) static void set(void) {
    const char *way = getenv("WAY_TO_ROUND");
    if (way == NULL) feenableexcept(FE_DIVBYZERO | FE_INVALID | FE_OVERFLOW);
    else fesetround(atoi(way));
}
END
"${CC:-cc}" -shared -fPIC -O1 -o "$work/environment.so" "$work/environment.c" -lm || exit 2
passed=0
failed=0
tell() { # whether it is as it should be, what
    if [ "$1" -eq 0 ]; then
        passed=$((passed + 1))
    else
        failed=$((failed + 1))
        echo "FAILED $2"
    fi
}
for name in goofspiel_five goofspiel_mixed goofspiel_drawn_mixed goofspiel_prizes oshi_zumo_mixed pursuit_grid table_best_of_three \
    table_blotto; do
    LD_PRELOAD=$work/environment.so "$program" solve < "examples/$name.json" | cmp -s - "examples/$name.report"
    tell $? "$name with exceptions unmasked"
    for way in 1024 2048 3072; do # FE_DOWNWARD, FE_UPWARD, FE_TOWARDZERO
        LD_PRELOAD=$work/environment.so WAY_TO_ROUND=$way "$program" solve < "examples/$name.json" \
            | "$program" check | grep -q '^accepted '
        tell $? "$name, rounded another way ($way)"
    done
done
echo "$passed passed, $failed failed"
[ "$failed" -eq 0 ]
