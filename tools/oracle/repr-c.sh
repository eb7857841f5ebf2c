#!/bin/sh
# Compares fixed sizes with those that rustc gives to the same types with repr(C).
# Usage: tools/oracle/repr-c.sh SEED COUNT [BENCH]
# COUNT random types are written as a Rust program, which is compiled and run, and as
# bundles. BENCH is the program of tools/bench, for the library's answers too.
# The oracle must have been built (tools/oracle/build.sh).
set -eu
here=$(cd "$(dirname "$0")" && pwd)
oracle=$here/target/oracle
program=$here/target/repr_c
"$oracle" reprc-source "$1" "$2" > "$program.rs"
rustc --edition 2021 -o "$program" "$program.rs"
"$program" > "$program.txt"
"$oracle" reprc "$1" "$2" < "$program.txt"
if [ $# -gt 2 ]; then
  "$3" reprc "$1" "$2" < "$program.txt"
fi
