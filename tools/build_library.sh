#!/usr/bin/env bash
# build_library.sh [FOLDER]: makes libdosolve.a and libdosolve.so in the folder (build/ at the top of the repository where
# none is named) from the proved crates, by the kit and the C compiler ($CC, or cc) alone. `rt lib` proves what was not
# proved before, and takes what was; `rt` has to be on the path. What it prints goes to rt_lib.log in the folder, and is shown
# only if it fails: its first pass tells of functions that the library does not reach, in the words of errors. Link a program
# with
#     cc -Iinclude program.c FOLDER/libdosolve.a        or        cc -Iinclude program.c -LFOLDER -ldosolve
set -eu
top=$(dirname "$(dirname "$(realpath "$0")")")
mkdir -p "${1:-$top/build}"
folder=$(realpath "${1:-$top/build}")
compiler=${CC:-cc}
command -v rt > /dev/null || { echo "build_library.sh: rt, the command of the kit, is not on the path" >&2; exit 2; }
# The kit's three functions over malloc, realloc and free lie beside the command.
heap=$(dirname "$(dirname "$(realpath "$(command -v rt)")")")/c/liblibc_c.a
[ -e "$heap" ] || { echo "build_library.sh: no $heap" >&2; exit 2; }

crate=$top/crates/dosolve_c
echo "build_library.sh: proving and building, up to 40 minutes where nothing was proved before; $folder/rt_lib.log has the words"
(cd "$crate" && rt lib) > "$folder/rt_lib.log" 2>&1 || {
    status=$?
    cat "$folder/rt_lib.log" >&2
    exit $status
}
made=$crate/out/libdosolve_c.a
work=$(mktemp -d)
trap 'rm -rf "$work"' EXIT

# The version, which stands in one place.
version=$(sed -n 's/^__version__ = "\([^"]*\)"$/\1/p' "$top/python/dosolve/__init__.py")
printf '#include "dosolve.h"\nconst char *dosolve_version(void) { return "%s"; }\n' "$version" > "$work/version.c"
"$compiler" -c -O2 -fPIC -I"$top/include" -o "$work/version.o" "$work/version.c"

# The calls, which keep the caller's floating-point environment, over the proved functions, each under a name of its own.
"$compiler" -c -O2 -fPIC -I"$top/include" -o "$work/calls.o" "$top/tools/library_calls.c"
sed -n 's/^uint32_t \(dosolve_[a-z_]*\)(.*/\1 proved_\1/p' "$top/include/dosolve.h" > "$work/renamed"
objcopy --redefine-syms="$work/renamed" "$made" "$work/proved.a"

# One object that exports the calls of the header alone.
sed -n 's/^\(uint32_t \|const char \*\)\(dosolve_[a-z_]*\)(.*/\2/p' "$top/include/dosolve.h" | sort > "$work/names"
"$compiler" -r -nostdlib -o "$work/dosolve.o" "$work/version.o" "$work/calls.o" -Wl,--whole-archive "$work/proved.a" "$heap" \
    -Wl,--no-whole-archive
objcopy --keep-global-symbols="$work/names" "$work/dosolve.o"
rm -f "$folder/libdosolve.a"
ar rcs "$folder/libdosolve.a" "$work/dosolve.o"
"$compiler" -shared -Wl,-soname,libdosolve.so -Wl,-z,defs -o "$folder/libdosolve.so" "$work/dosolve.o"
echo "$folder/libdosolve.a"
echo "$folder/libdosolve.so"
