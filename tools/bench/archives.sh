#!/bin/sh
# Times of two archives of the library in one program, in turn, on bundles in files.
# Usage: tools/bench/archives.sh OLDER NEWER FILE..
# `bench rows FOLDER` writes the bundles of all cases to files.
set -eu
if [ $# -lt 3 ]; then
  sed -n '2,4s/^# //p' "$0" >&2
  exit 2
fi
here=$(cd "$(dirname "$0")" && pwd)
target=$here/target
mkdir -p "$target"
older=$1
newer=$2
shift 2
# Both archives have the same names. Fixed size, value and the count of a search are not timed: an older archive may be without
# them.
objcopy --redefine-sym layout_accept=old_layout_accept --redefine-sym layout_report=old_layout_report \
  --redefine-sym layout_renumber=old_layout_renumber --redefine-sym layout_chain=old_layout_chain \
  --redefine-sym layout_chain_followed=old_layout_chain_followed \
  --redefine-sym layout_fixed_size=old_layout_fixed_size --redefine-sym layout_size_value=old_layout_size_value \
  "$older" "$target/liblayout_old.a"
cc -O2 -std=c99 -Wall -Wextra -pedantic -o "$target/two_archives" "$here/c/two_archives.c" "$target/liblayout_old.a" "$newer"
exec "$target/two_archives" "$@"
