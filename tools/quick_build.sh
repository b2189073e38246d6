#!/usr/bin/env bash
# quick_build.sh [FILE]: builds the program without proving anything, in some three minutes on one core, and keeps it as FILE
# (build/dosolve-unproved where none is named). It is the code that LLVM makes of the crates, with the checks for faults that
# `rt try` puts in, so half to a third as fast as the proved program; and nobody has shown that its bounds are right. On a
# terminal it says so itself, at each start. For what is to be believed there is `rt run` (README) or a release.
#
# Needs the kit (`rt` on the path) and nothing else. `rt try` keeps no binary, but leaves the module of the whole program in
# its folder while it works: this script holds on to that file, and has the kit's compiler make a program of it.
set -eu
top=$(dirname "$(dirname "$(realpath "$0")")")
out=$(realpath -m "${1:-$top/build/dosolve-unproved}")
refuse() {
    echo "quick_build.sh: $1" >&2
    exit 2
}
[ $# -le 1 ] || refuse "usage: quick_build.sh [FILE]"
[ ! -d "$out" ] || refuse "$out is a folder"
rt=$(command -v rt) || refuse "rt, the command of the kit, is not on the path"
kit=$(dirname "$(dirname "$(realpath "$rt")")")
compiler=$kit/toolchain/bin/clang
for file in "$compiler" "$kit/c/liblibc_c.a" "$kit/c/libos_c.a"; do
    [ -e "$file" ] || refuse "the kit has no $file"
done
mkdir -p "$(dirname "$out")"
work=$(mktemp -d "$(dirname "$out")/quick_build.XXXXXX")
trap 'rm -rf "$work"' EXIT
mkdir "$work/try"

echo "quick_build.sh: building, some three minutes; nothing is proved"
cd "$top/crates/dosolve"
TMPDIR=$work/try rt try -- check < "$top/examples/goofspiel_mixed.report" > "$work/said" 2>&1 &
trying=$!
# A second name for each module: what is written to it later is seen under both, and it stays when the first is removed. The
# program's is the one that is written last.
hold() {
    find "$work/try" -name module.bc 2> /dev/null | while read -r found; do
        held=$work/$(basename "$(dirname "$found")").bc
        [ -e "$held" ] || ln "$found" "$held" 2> /dev/null || true
    done
}
while kill -0 $trying 2> /dev/null; do
    hold
    sleep 0.2
done
wait $trying || { cat "$work/said" >&2; refuse "rt try failed"; }
module=$(ls -t "$work"/*.bc 2> /dev/null | head -n 1)
[ -s "$module" ] || { cat "$work/said" >&2; refuse "rt try left no module: this kit builds in another way"; }

cat > "$work/unproved.c" << 'END'
int isatty(int file);
long write(int file, const void *bytes, unsigned long count);
static const char told[] = "dosolve: UNPROVED build: nothing was proved of this program\n";
__attribute__((constructor)) static void tell(void) {
    if (isatty(2) && write(2, told, sizeof told - 1) < 0) __builtin_trap();
}
END
"$compiler" -O3 -w -c "$module" -o "$work/module.o"
"$compiler" -O2 -c "$work/unproved.c" -o "$work/unproved.o"
"$compiler" "$work/module.o" "$work/unproved.o" "$kit/c/liblibc_c.a" "$kit/c/libos_c.a" -lpthread -lm -o "$work/program"
[[ $("$work/program" sample 0) == "sample 0 lower "* ]] || refuse "what was built is not dosolve"
mv "$work/program" "$out"
echo "$out: UNPROVED; DOSOLVE=$out lets the Python package use it"
