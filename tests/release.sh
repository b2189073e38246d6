#!/usr/bin/env bash
# release.sh PROGRAM [FOLDER]: makes a release of the program, and of the library in the folder where one is named, by
# tools/make_release.sh: twice, which has to give the same bytes. Then tries it as somebody who has nothing else: in a folder
# of its own, without the variables of this shell, and in a new environment of Python; and tries what a release refuses.
# The version of such a release says that it is unproved. The last line is `N passed, M failed`.
set -u
if [ $# -lt 1 ] || [ $# -gt 2 ]; then
    echo "usage: release.sh PROGRAM [FOLDER]" >&2
    exit 2
fi
program=$(realpath "$1") || exit 2
library=-
[ $# -lt 2 ] || library=$(realpath "$2") || exit 2
top=$(dirname "$(dirname "$(realpath "$0")")")
make=$top/tools/make_release.sh
lacking() { # is no fault where the program alone is tried
    echo "$1: no release was tried"
    [ "$library" = - ]
    exit
}
for tool in git objdump cc; do
    command -v $tool > /dev/null || lacking "$tool is not installed"
done
git -C "$top" rev-parse -q --verify HEAD > /dev/null || lacking "this is no clone"
work=$(mktemp -d) || exit 2
trap 'rm -rf "$work"' EXIT
mkdir "$work/home" "$work/empty"
passed=0
failed=0
try() { # name, words that have to succeed
    local name=$1 status
    shift
    "$@" > "$work/printed" 2>&1
    status=$?
    if [ "$status" -eq 0 ]; then
        passed=$((passed + 1))
    else
        failed=$((failed + 1))
        echo "FAILED $name (status $status)"
        tail -n 20 "$work/printed"
    fi
}
refused() { # what it has to say, words of make_release.sh
    local said=$1
    shift
    rm -rf "$work/refused"
    "$make" "$@" "$work/refused" 2> "$work/why"
    if [ $? -ne 2 ] || ! grep -qF "$said" "$work/why" || [ -e "$work/refused" ]; then
        cat "$work/why"
        return 1
    fi
}
# A command as a user without the repository runs it: in the unpacked folder, with nothing of this shell.
alone() {
    (cd "$unpacked" && env -i HOME="$work/home" PATH=/usr/bin:/bin "$@")
}
gives() { # a file, words that have to print it
    local wanted=$1
    shift
    alone "$@" > "$work/said" && cmp "$work/said" "$wanted"
}
says() { # a pattern, words that have to print a line that it fits
    local wanted=$1
    shift
    if ! alone "$@" > "$work/said" || ! grep -qE "$wanted" "$work/said"; then
        cat "$work/said"
        return 1
    fi
}

try "made" "$make" --unproved "$program" "$library" "$work/first"
try "made again" env TZ=Asia/Tokyo LC_ALL=C.UTF-8 "$make" --unproved "$program" "$library" "$work/second"
try "the same bytes" diff -r "$work/first" "$work/second"
try "checksums of the files" sh -c "cd '$work/first' && sha256sum --strict -c SHA256SUMS"
archive=$(echo "$work"/first/dosolve-*unproved-linux-x86_64.tar.gz)
wheel=$(echo "$work"/first/dosolve-*unproved-py3-none-manylinux_*_x86_64.whl)
mkdir "$work/unpacked"
try "unpacked" tar -xzf "$archive" -C "$work/unpacked"
unpacked=$work/unpacked/$(basename "$archive" .tar.gz)
if [ ! -d "$unpacked" ]; then
    echo "$passed passed, $failed failed"
    exit 1
fi
try "checksums in the archive" alone sha256sum --strict -c SHA256SUMS
try "each file has a checksum" [ "$(find "$unpacked" -type f | wc -l)" -eq $(($(wc -l < "$unpacked/SHA256SUMS") + 1)) ]
try "no file names the repository" sh -c "! grep -rlF '$top/' '$unpacked'"
try "it says that it is unproved" grep -q '^UNPROVED' "$unpacked/RELEASE.txt"

# The program of the archive.
try "solve" gives "$top/examples/goofspiel_mixed.report" sh -c 'bin/dosolve solve < examples/goofspiel_mixed.json'
try "check" says '^accepted ' sh -c 'bin/dosolve check < examples/goofspiel_five.report'

# The wheel, in a new environment.
python=$(cd "$work" && python3 -c 'import os, sys; print(os.path.realpath(sys.executable))')
if "$python" -c 'import ensurepip' 2> "$work/none"; then
    bin=$work/venv/bin
    try "a new environment" alone "$python" -m venv "$work/venv"
    try "pip install" alone "$bin/pip" install --no-index --disable-pip-version-check "$wheel"
    try "dosolve" gives "$top/examples/goofspiel_mixed.report" sh -c "$bin/dosolve solve < examples/goofspiel_mixed.json"
    try "dosolve is the program itself" cmp "$program" "$bin/dosolve"
    try "dosolve-py" says '^value  from -0.000003 to 0.000004, payoff of One$' "$bin/dosolve-py" solve examples/goofspiel_five.json
    try "measure" says '^player one rows 120 guarantees -5.000000 ' "$bin/dosolve-py" measure examples/goofspiel_five.json \
        python/examples/match_the_prize.py
    try "explore" says '^five.html: 1413 states with moves, all that play can reach' "$bin/dosolve-py" explore \
        examples/goofspiel_five.report -o five.html
    try "its own program" says "unproved, program $work/venv/lib/.*/dosolve/bin/dosolve\$" "$bin/dosolve-py" --version
    try "import" says '^Fraction\(-1, 2\)$' env PATH="$work/empty" "$bin/python" -c "import dosolve
report = dosolve.solve(dosolve.Position(dosolve.Goofspiel([1, 3], [2, 3], [1, 1]), gap=0))
print(repr(dosolve.exploit(report, 'one').payoff))"
    try "an older C library" sh -c "! '$bin/pip' install --no-index --disable-pip-version-check \
        --platform manylinux_2_31_x86_64 --only-binary=:all: --no-deps --target '$work/old' '$wheel' 2> '$work/why' &&
        grep -q 'is not a supported wheel on this platform' '$work/why'"
    try "pip uninstall" alone "$bin/pip" uninstall --yes --disable-pip-version-check dosolve
    try "nothing is left" sh -c "! ls '$bin/dosolve' '$bin/dosolve-py' '$work'/venv/lib/*/site-packages/dosolve 2> '$work/none'"
else
    echo "the wheel: left out, $python has no ensurepip"
fi

# The library, by its header.
if [ "$library" != - ]; then
    try "solve.c, with the archive" alone cc -Iinclude examples/c/solve.c lib/libdosolve.a -o "$work/static"
    try "solve.c, with the shared library" alone cc -Iinclude examples/c/solve.c -Llib -ldosolve "-Wl,-rpath,$unpacked/lib" -o "$work/shared"
    for way in static shared; do
        try "solve.c, $way" says '^check: status 0, accepted ' "$work/$way" examples/goofspiel_mixed.json
    done
else
    echo "the library: left out, none was named"
fi

# What is refused.
: > "$work/log"
try "no proof without the library" refused "without the library" --gate "$work/log" "$program" -
printf 'int main(void) { return 0; }\n' > "$work/other.c"
like='#include <stdio.h>\n#include <stdlib.h>\nint main(void) { puts("sample 0 lower 0"); return %s; }\n'
# shellcheck disable=SC2059
printf "$like" 0 > "$work/like.c"
# shellcheck disable=SC2059
printf "$like" "arc4random() & 0" > "$work/newer.c"
cc -shared -fPIC -x c /dev/null -o "$work/libother.so"
cc "$work/other.c" -o "$work/other"
cc -Wl,--no-as-needed "$work/like.c" -L"$work" -lother -Wl,-rpath,"$work" -o "$work/linked"
try "another program" refused "is not dosolve" --unproved "$work/other" -
try "another library" refused "needs libother.so" --unproved "$work/linked" -
if cc -static "$work/like.c" -o "$work/whole" 2> "$work/none"; then
    try "no library" refused "names no version of glibc" --unproved "$work/whole" -
fi
if cc "$work/newer.c" -o "$work/newer" 2> "$work/none"; then
    try "a newer C library" refused "and a release at most" --unproved "$work/newer" -
fi
if [ "$library" != - ]; then
    # A log as the gate writes it, and a kit of which only the line is asked.
    mkdir -p "$work/kit/bin"
    printf '#!/bin/sh\n' > "$work/kit/bin/rt"
    chmod +x "$work/kit/bin/rt"
    grep -o '^    rattle-kit-.*' "$top/README.md" | sed 's/^ *//' > "$work/kit/KIT-ID"
    PATH=$work/kit/bin:$PATH
    files=("$program" "$library/libdosolve.so" "$library/libdosolve.a")
    {
        git -C "$top" rev-parse HEAD
        printf 'proofs\nrt: ok; handles allowed: Threads, Wait\n9 passed, 0 failed\n..s.\n8 passed, 0 failed\nquick: 0 failed\n'
        printf '%s\n5 passed, 0 failed\n' "$top/build/libdosolve.so"
        sha256sum "${files[@]}"
    } > "$work/log"
    if [ -n "$(git -C "$top" status --porcelain)" ]; then
        try "files beside the commit" refused "differ from the commit" --gate "$work/log" "$program" "$library"
        echo "the log of the gate: left out, files differ from the commit"
    else
        try "no log" refused "no log of the gate" --gate "$work/none.log" "$program" "$library"
        faults=("s/^quick: 0/quick: 1/" "/^rt: ok/d" "/^quick/d" "/^5 passed/d" 1d "\$d" "\$a FAILED: the library")
        for fault in "${faults[@]}"; do
            sed "$fault" "$work/log" > "$work/bad"
            try "a log after sed '$fault'" refused "$work/bad" --gate "$work/bad" "$program" "$library"
        done
        try "a release" "$make" --gate "$work/log" "$program" "$library" "$work/third"
        try "its name" sh -c "ls '$work'/third/*.tar.gz && ! ls '$work'/third/*unproved* 2> '$work/none'"
        tar -xzf "$(echo "$work"/third/*.tar.gz)" -C "$work/third"
        try "its kit" grep -qx "kit $(< "$work/kit/KIT-ID")" "$work"/third/*/RELEASE.txt
        sed -e '1,2d' -e '/^\.\./d' -e "s|$top/||" "$work/log" > "$work/wanted"
        try "its gate" sh -c "tail -n 9 '$work'/third/*/RELEASE.txt | cmp - '$work/wanted'"
        echo other > "$work/kit/KIT-ID"
        try "another kit" refused "the kit is other" --gate "$work/log" "$program" "$library"
    fi
fi
echo "$passed passed, $failed failed"
[ "$failed" -eq 0 ]
