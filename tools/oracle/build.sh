#!/bin/sh
# Builds tools/oracle/target/oracle with plain rustc.
# Usage: tools/oracle/build.sh [FOLDER]
# FOLDER holds the original sources (rpc/abi/...); a relative folder is taken
# from the root of the repository. Default: ../shared/docs/src
set -eu
here=$(cd "$(dirname "$0")" && pwd)
root=$(cd "$here/../.." && pwd)
folder=${1:-../shared/docs/src}
sources=$(cd "$root" && cd "$folder" && pwd)
target=$here/target
copied=$target/original
rm -rf "$copied"
mkdir -p "$copied"

# The original files are compiled as copies: no byte of them is changed and none is
# kept in the repository. (`rt ci` takes no links.) The file that dependency.rs names
# as its tests is ours.
cp "$sources/rpc/abi/abi_gen/src/dependency.rs" "$sources/rpc/abi/abi_types/src/types.rs" \
  "$sources/rpc/abi/abi_types/src/expr.rs" "$here/src/dependency_tests.rs" "$copied"

compile() {
  rustc --edition 2021 -C opt-level=2 -C codegen-units=1 -L "$target" \
    --out-dir "$target" "$@"
}
compile --crate-type proc-macro --crate-name serde_derive "$here/standin/serde_derive.rs"
compile --crate-type rlib --crate-name serde "$here/standin/serde.rs"
# cfg test opens the one module of dependency.rs that can see its private
# functions; no test harness is built.
compile --crate-type rlib --crate-name layout_oracle \
  --extern serde --extern serde_derive \
  --cfg test -A explicit_builtin_cfgs_in_flags "$here/src/lib.rs"
compile --crate-type bin --crate-name oracle --extern layout_oracle "$here/src/main.rs"
