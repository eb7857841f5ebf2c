#!/bin/sh
# Builds tools/bench/target/liblayout_c.a, which stands in for the proved library.
# Usage: tools/bench/standin/build.sh [FOLDER]
# FOLDER holds the original sources, as for tools/oracle/build.sh. The oracle is
# built first where it is missing.
set -eu
here=$(cd "$(dirname "$0")" && pwd)
root=$(cd "$here/../../.." && pwd)
oracle=$root/tools/oracle/target
target=$root/tools/bench/target
[ -f "$oracle/liblayout_oracle.rlib" ] || "$root/tools/oracle/build.sh" "$@"
mkdir -p "$target"

rustc --edition 2021 -C opt-level=2 -C codegen-units=1 -C panic=abort \
  --crate-type staticlib --crate-name standin -L "$oracle" --extern layout_oracle \
  --out-dir "$target" "$here/standin.rs"

# A Rust program has a copy of Rust's own library already. All of it is bound into
# one object here, in which only the calls can be seen from outside.
calls="layout_accept layout_report layout_renumber layout_chain layout_chain_followed layout_fixed_size layout_size_value"
wanted=
kept=
# Newer names of the C library that Rust's own library only uses where they exist.
for name in pidfd_getpid pidfd_spawnp posix_spawn_file_actions_addchdir; do
  kept="$kept --weaken-symbol=$name"
done
for call in $calls; do
  wanted="$wanted -u $call"
  kept="$kept --keep-global-symbol=$call"
done
# Bitcode of Rust's own library would stop `ar`, so it is taken out.
rm -f "$target/liblayout_c.a"
ld -r -S --gc-sections --force-group-allocation $wanted -o "$target/standin.o" "$target/libstandin.a"
objcopy $kept -R .llvmbc -R .llvmcmd "$target/standin.o"
ar rcs "$target/liblayout_c.a" "$target/standin.o"
rm "$target/standin.o" "$target/libstandin.a"
