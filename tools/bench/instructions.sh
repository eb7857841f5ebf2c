#!/bin/sh
# Instructions of the calls on bundles in files, counted by callgrind (valgrind). Clearing by memset is a function of its own,
# and stands apart: the C library clears long lists by an instruction that is counted once for each byte.
# Usage: tools/bench/instructions.sh LIBRARY FILE..
# `bench rows FOLDER` writes the bundles of all cases to files.
set -eu
if [ $# -lt 2 ]; then
  sed -n '4,5s/^# //p' "$0" >&2
  exit 2
fi
here=$(cd "$(dirname "$0")" && pwd)
target=$here/target
mkdir -p "$target"
library=$1
shift
cc -O2 -std=c99 -Wall -Wextra -pedantic -o "$target/one_call" "$here/c/one_call.c" "$library"

# The instructions of functions whose names match PATTERN, from the counts of the last run.
counted() { # PATTERN
  callgrind_annotate --threshold=100 "$target/counts" | awk -v pattern="$1" '
    /PROGRAM TOTALS/ { listed = 1; next }
    listed && /^ *[0-9,]+ / && $0 ~ pattern { gsub(",", "", $1); sum += $1 }
    END { print sum + 0 }'
}

printf '%-46s%8s  %-15s%14s%10s%12s\n' case bytes call instructions 'a byte' cleared
for file in "$@"; do
  bytes=$(wc -c < "$file")
  for call in report accept renumber chain chain_followed fixed_size size_value; do
    valgrind --tool=callgrind --callgrind-out-file="$target/counts" --toggle-collect="layout_$call" \
      "$target/one_call" "$file" "$call" > "$target/said" 2>&1 || true
    all=$(sed -n 's/.*Collected : *//p' "$target/said")
    cleared=$(counted memset)
    own=$((all - cleared))
    printf '%-46s%8s  %-15s%14s%10s%12s\n' "$(basename "$file")" "$bytes" "$call" "$own" \
      "$(awk "BEGIN { printf \"%.1f\", $own / $bytes }")" "$cleared"
  done
done
