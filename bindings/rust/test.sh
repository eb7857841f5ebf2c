#!/bin/sh
# Runs the tests of the Rust calls and of include/layout.h. Needs rustc and cc.
# Usage: bindings/rust/test.sh [LIBRARY]
# LIBRARY is the static library's path, relative to the root of the repository or
# absolute. Default: the stand-in, tools/bench/target/liblayout_c.a
# LINK_FLAGS may hold flags for the linker, such as -no-pie, and STACK_BYTES the
# stack that every call must do with.
set -eu
here=$(cd "$(dirname "$0")" && pwd)
root=$(cd "$here/../.." && pwd)
cd "$root"
library=${1:-tools/bench/target/liblayout_c.a}
target=bindings/rust/target
mkdir -p "$target"

set -- -C "link-arg=$library"
for flag in ${LINK_FLAGS:-}; do
  set -- "$@" -C "link-arg=$flag"
done
rustc --edition 2021 --crate-type rlib --crate-name layout --out-dir "$target" \
  bindings/rust/src/lib.rs
rustc --edition 2021 --test --crate-name calls --extern layout="$target/liblayout.rlib" \
  "$@" -o "$target/calls" bindings/rust/tests/calls.rs
"$target/calls" --quiet --test-threads 1

# The header alone, in each C and C++ that it is for.
for standard in c89 c99 c11 c17; do
  cc -x c -std=$standard -Wall -Wextra -pedantic -Werror -fsyntax-only include/layout.h
done
if command -v c++ > /dev/null; then
  for standard in c++98 c++11 c++14 c++17 c++20; do
    c++ -x c++ -std=$standard -Wall -Wextra -pedantic -Werror -fsyntax-only include/layout.h
  done
else
  echo 'There is no c++: the header was not tried as C++.'
fi
cc -std=c99 -Wall -Wextra -pedantic -pthread -Iinclude -o "$target/c_test" include/test.c "$library" \
  ${LINK_FLAGS:-}
"$target/c_test"

# The library needs of the C library what layout.h says.
needed=$(nm -u "$library" | sed -n 's/^ *U //p' | sort -u | tr '\n' ' ')
if [ "$needed" != 'memset ' ]; then
  echo "the library needs: $needed" >&2
  exit 1
fi

# Each call with the stack that it may need and no more.
cc -std=c99 -Wall -Wextra -pthread ${STACK_BYTES:+-DSTACK_BYTES="$STACK_BYTES"} -o "$target/stack_test" \
  include/stack_test.c "$library" ${LINK_FLAGS:-}
"$target/stack_test"
