#!/bin/sh
# Builds layout-text and runs its tests and those of tools/explain. tests/random.rs takes its random bundles
# from the oracle and runs where that is built (tools/oracle/build.sh).
# Usage: tools/layout-text/test.sh [LIBRARY], as for build.sh
set -eu
here=$(cd "$(dirname "$0")" && pwd)
cd "$here/../.."
library=${1:-tools/bench/target/liblayout_c.a}
target=tools/layout-text/target
tools/layout-text/build.sh "$library"

run() {
  name=$1
  shift
  set -- "$@" -C "link-arg=$library"
  for flag in ${LINK_FLAGS:-}; do
    set -- "$@" -C "link-arg=$flag"
  done
  rustc --edition 2021 -C opt-level=1 --test -L "$target" --extern layout --extern layout_text "$@" \
    --crate-name "$name" -o "$target/$name" "tools/layout-text/tests/$name.rs"
  "$target/$name" --quiet --test-threads 1
}
run notation
run sizes
run chain
if [ -f tools/oracle/target/liblayout_oracle.rlib ]; then
  run random -L tools/oracle/target --extern layout_oracle
fi
tools/layout-text/tests/program.sh
tools/layout-text/tests/explain.sh
