#!/bin/sh
# The most stack that each call takes, on bundles that go deep (include/stack_test.c).
# Usage: tools/bench/stack.sh LIBRARY
# LINK_FLAGS may hold flags for the linker, such as -no-pie.
set -eu
if [ $# -ne 1 ]; then
  sed -n '3,4s/^# //p' "$0" >&2
  exit 2
fi
here=$(cd "$(dirname "$0")" && pwd)
target=$here/target
mkdir -p "$target"
cc -O2 -std=c99 -Wall -Wextra -pthread -DSTACK_BYTES=0 -o "$target/stack_test" "$here/../../include/stack_test.c" "$1" \
  ${LINK_FLAGS:-}
exec "$target/stack_test" measure
