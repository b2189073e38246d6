#!/usr/bin/env bash
# make_release.sh [--unproved] [--gate LOG] [PROGRAM [LIBRARY [OUT]]]: makes the files of a release in the folder OUT:
#
#     dosolve-VERSION-linux-x86_64.tar.gz                   program, library, header, pages, examples
#     dosolve-VERSION-py3-none-manylinux_X_Y_x86_64.whl     the Python package with the program
#     SHA256SUMS                                            the checksums of both
#
# PROGRAM is the one that the gate built (crates/dosolve/out/dosolve), LIBRARY the folder with libdosolve.so and libdosolve.a
# (build), LOG what the gate printed (build/gate.log), which has to name the commit and the checksums of these files; OUT is
# build/release. docs/RELEASES.md has the commands. Two runs give the same bytes.
#
# The version is that of python/dosolve/__init__.py; `+gCOMMIT` follows where CHANGELOG.md has changes without a version, and
# with --unproved `dirty` where files differ from the commit, and `unproved`: such a release needs no log and no kit, and
# LIBRARY may be `-`, for none.
set -eu -o pipefail
export LC_ALL=C PYTHONDONTWRITEBYTECODE=1
umask 022
# The newest version of the C library that a file of a release may need; docs/RELEASES.md says so.
most_glibc=2.34
how="docs/RELEASES.md, \"Making one\", has the command"
top=$(dirname "$(dirname "$(realpath "$0")")")

refuse() {
    echo "make_release.sh: $1" >&2
    exit 2
}

proved=yes
log=$top/build/gate.log
words=()
while [ $# -gt 0 ]; do
    case $1 in
    --unproved) proved=no ;;
    --gate)
        [ $# -ge 2 ] || refuse "--gate needs the file of a log"
        log=$(realpath -m "$2")
        shift
        ;;
    -?*) refuse "no option $1" ;;
    *) words+=("$1") ;;
    esac
    shift
done
[ ${#words[@]} -le 3 ] || refuse "usage: make_release.sh [--unproved] [--gate LOG] [PROGRAM [LIBRARY [OUT]]]"
program=$(realpath -m "${words[0]:-$top/crates/dosolve/out/dosolve}")
library=${words[1]:-$top/build}
[ "$library" = - ] || library=$(realpath -m "$library")
out=$(realpath -m "${words[2]:-$top/build/release}")
for tool in git objdump python3; do
    command -v $tool > /dev/null || refuse "$tool is not on the path"
done
cd "$top"

# The newest of the versions that standard input has, one a line.
newest_of() {
    sort -V | tail -n 1
}

# A program or shared library may need the C library alone. Prints the version of it that it needs.
glibc_of() {
    local head needed
    head=$(objdump -p "$1") || refuse "$1 is no program"
    [[ $head == *"file format elf64-x86-64"* ]] || refuse "$1 is not for x86-64"
    needed=$(awk '$1 == "NEEDED" && $2 !~ /^lib[cm]\.so\.6$/ { print $2 }' <<< "$head")
    [ -z "$needed" ] || refuse "$1 needs ${needed//$'\n'/ }"
    [[ $head == *" GLIBC_"* ]] || refuse "$1 names no version of glibc"
    grep -o ' GLIBC_[0-9.]*' <<< "$head" | sed 's/.*_//' | newest_of
}

# The version with what follows it, from the one place that has it, which two others have to repeat.
version_of_release() {
    local version listed cited date rest=()
    version=$(cd python && python3 -c 'import wheel_backend; print(wheel_backend.version())')
    listed=$(sed -n 's/^## \([0-9].*\)/\1/p' CHANGELOG.md | head -n 1)
    cited=$(sed -n 's/^version: //p' CITATION.cff)
    date=$(sed -n 's/^date-released: "\(.*\)"/\1/p' CITATION.cff)
    if [ "$listed" != "$version, $date" ] || [ "$cited" != "$version" ]; then
        refuse "python/dosolve/__init__.py has $version, CHANGELOG.md $listed, CITATION.cff $cited, $date"
    fi
    if awk '/^## / { ahead = /Unreleased/ } ahead && /^- / { found = 1 } END { exit !found }' CHANGELOG.md; then
        rest+=("g${commit:0:7}")
    fi
    if [ -n "$(git status --porcelain)" ]; then
        [ $proved = no ] || refuse "files differ from the commit (git status)"
        rest+=(dirty)
    fi
    [ $proved = yes ] || rest+=(unproved)
    local IFS=.
    echo "$version${rest:++${rest[*]}}"
}

# The gate has to have passed for this commit and these files. Prints what it said from the end of the proofs on.
gate_of_release() {
    local said
    [ -f "$log" ] || refuse "no log of the gate at $log: $how (or --unproved)"
    ! grep -qE '^(rt: )?FAILED|^([0-9]+ passed, |quick: )[1-9][0-9]* failed' "$log" || refuse "the gate of $log failed"
    grep -q '^rt: ok; handles allowed: ' "$log" || refuse "$log has no end of rt ci"
    grep -qx 'quick: 0 failed' "$log" || refuse "$log has no end of tests/quick"
    sed '1,/^quick: 0 failed$/d' "$log" | awk '/^[0-9]+ passed, 0 failed$/ { found = 1 } END { exit !found }' ||
        refuse "$log has no end of tests/library/run.sh"
    grep -qx "$commit" "$log" || refuse "$log does not name the commit $commit: $how"
    for file in "${files[@]}"; do
        grep -q "^$(sha256sum < "$file" | cut -d ' ' -f 1) " "$log" || refuse "$log has not the checksum of $file: $how"
    done
    # Without the dots and rules of Python's tests, and without the folder of the checkout.
    said=$(sed -n '/^rt: ok; /,$p' "$log" | grep -vE '^[.s]*$|^-+$')
    echo "${said//"$top/"/}"
}

# The line of the kit, which the README has to name.
kit_of_release() {
    local rt line
    rt=$(command -v rt) || refuse "rt, the command of the kit, is not on the path"
    line=$(< "$(dirname "$(dirname "$(realpath "$rt")")")/KIT-ID")
    grep -qxF "    $line" README.md || refuse "the kit is $line, and README.md names another"
    echo "$line"
}

files=("$program")
if [ "$library" != - ]; then
    files+=("$library/libdosolve.so" "$library/libdosolve.a")
elif [ $proved = yes ]; then
    refuse "only an unproved release is without the library"
fi
glibc=0
for file in "${files[@]}"; do
    [ -f "$file" ] || refuse "no $file: $how"
    if [[ $file != *.a ]]; then
        needed=$(glibc_of "$file")
        glibc=$(printf '%s\n' "$glibc" "$needed" | newest_of)
    fi
done
[ "$(printf '%s\n' "$glibc" $most_glibc | newest_of)" = $most_glibc ] ||
    refuse "the files need glibc $glibc, and a release at most $most_glibc: link them on an older system"
[[ $("$program" sample 0) == "sample 0 lower "* ]] || refuse "$program is not dosolve"

commit=$(git rev-parse HEAD) || refuse "a release needs a commit"
SOURCE_DATE_EPOCH=$(git log -1 --format=%ct)
export SOURCE_DATE_EPOCH
version=$(version_of_release)
if [ $proved = yes ]; then
    gate=$(gate_of_release)
    kit=$(kit_of_release)
fi

# The folder of the archive.
work=$(mktemp -d)
trap 'rm -rf "$work"' EXIT
name=dosolve-$version-linux-x86_64
stage=$work/$name
mkdir -p "$stage/bin" "$out"
git ls-files -z '*.md' LICENSE CITATION.cff docs examples python/examples ':!tests/vectors' ':!crates' |
    xargs -0 cp --parents -t "$stage"
cp "$program" "$stage/bin/dosolve"
if [ "$library" != - ]; then
    mkdir "$stage/lib" "$stage/include"
    cp "$library/libdosolve.so" "$library/libdosolve.a" "$stage/lib"
    cp include/dosolve.h "$stage/include"
fi
{
    printf 'dosolve %s, for Linux on x86-64 with glibc %s or later\ncommit %s\n' "$version" "$glibc" "$commit"
    if [ $proved = yes ]; then
        printf 'kit %s\n\nThe gate said of this commit and these files:\n\n%s\n' "$kit" "$gate"
    else
        printf '\nUNPROVED: nothing says that the program was built from proved crates, or that the gate passed.\n'
    fi
} > "$stage/RELEASE.txt"
find "$stage" -type d -exec chmod 755 {} + -o -exec chmod 644 {} +
chmod 755 "$stage/bin/dosolve"
[ "$library" = - ] || chmod 755 "$stage/lib/libdosolve.so"
(cd "$stage" && find . -type f -printf '%P\n' | sort | xargs -d '\n' sha256sum > "$work/sums" && mv "$work/sums" SHA256SUMS)

tar --sort=name --format=gnu --owner=0 --group=0 --numeric-owner --mtime="@$SOURCE_DATE_EPOCH" -C "$work" -cf - "$name" |
    gzip -9n > "$out/$name.tar.gz"
wheel=$(cd python && python3 -c 'import sys, wheel_backend; print(wheel_backend.build_release(*sys.argv[1:]))' \
    "$out" "$program" "manylinux_${glibc/./_}_x86_64" "$version" "$stage/RELEASE.txt" "$stage/LICENSE")
(cd "$out" && sha256sum "$name.tar.gz" "$wheel" > SHA256SUMS)
printf '%s\n' "$out/$name.tar.gz" "$out/$wheel" "$out/SHA256SUMS"
