#!/bin/sh
# Builds tools/layout-text/target/layout-text with plain rustc.
# Usage: tools/layout-text/build.sh [LIBRARY]
# LIBRARY is the static library of the checks, relative to the root of the
# repository or absolute. Default: the stand-in, tools/bench/target/liblayout_c.a
# LINK_FLAGS may hold flags for the linker, such as -no-pie.
set -eu
here=$(cd "$(dirname "$0")" && pwd)
cd "$here/../.."
library=${1:-tools/bench/target/liblayout_c.a}
target=tools/layout-text/target
mkdir -p "$target"

set -- -C "link-arg=$library"
for flag in ${LINK_FLAGS:-}; do
  set -- "$@" -C "link-arg=$flag"
done
compile() {
  rustc --edition 2021 -C opt-level=1 -L "$target" "$@"
}
compile --crate-type rlib --crate-name layout --out-dir "$target" \
  bindings/rust/src/lib.rs
compile --crate-type rlib --crate-name layout_text --extern layout --out-dir "$target" \
  tools/layout-text/src/lib.rs
compile --crate-type bin --crate-name layout_text_program --extern layout --extern layout_text \
  "$@" -o "$target/layout-text" tools/layout-text/src/main.rs
