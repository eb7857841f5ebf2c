#!/bin/sh
# Builds tools/bench/target/bench, which has the library and the original in it.
# Usage: tools/bench/build.sh [LIBRARY]
# LIBRARY is the static library, relative to the root of the repository or
# absolute. Default: the stand-in, which is built where it is missing.
# LINK_FLAGS may hold flags for the linker, such as -no-pie.
# The oracle must have been built (tools/oracle/build.sh).
# A library from before the count of a search (layout_chain_followed) is taken too: what
# asks for the count is left out then.
set -eu
here=$(cd "$(dirname "$0")" && pwd)
cd "$here/../.."
target=tools/bench/target
standin=$target/liblayout_c.a
library=${1:-$standin}
if [ "$library" = "$standin" ] && [ ! -f "$standin" ]; then
  tools/bench/standin/build.sh
fi
mkdir -p "$target"

set -- -C "link-arg=$library"
for flag in ${LINK_FLAGS:-}; do
  set -- "$@" -C "link-arg=$flag"
done
compile() {
  rustc --edition 2021 -C opt-level=3 -C codegen-units=1 -L "$target" -L tools/oracle/target "$@"
}
if ! nm "$library" | grep -q ' T layout_chain_followed$'; then
  set -- "$@" --cfg without_count
fi
compile --crate-type rlib --crate-name layout --out-dir "$target" bindings/rust/src/lib.rs
compile --crate-type bin --crate-name bench --extern layout --extern layout_oracle \
  "$@" -o "$target/bench" tools/bench/src/main.rs
