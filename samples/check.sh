#!/bin/sh
# Assembles and explains each sample and compares with what is stored beside it, its
# fixed sizes and chains too, and each set of docs/PASS.md and compares with what its
# first line says.
# Usage: samples/check.sh [LIBRARY]
# With LIBRARY, layout-text is built over that static library first (see
# tools/layout-text/build.sh); otherwise it is built only where it is missing.
set -eu
cd "$(dirname "$0")/.."
tool=tools/layout-text/target/layout-text
work=tools/layout-text/target/samples
if [ $# -gt 0 ] || [ ! -x "$tool" ]; then
  tools/layout-text/build.sh "$@"
fi
mkdir -p "$work"
. samples/list.sh

passed=0
failed=0
compare() {
  if cmp -s "$2" "$3"; then
    passed=$((passed + 1))
  else
    failed=$((failed + 1))
    echo "failed: $1"
    diff "$2" "$3" | head -10
  fi
}

for name in $names; do
  bundle $name > "$work/bundle"
  "$tool" explain "$work/bundle" --names "$(text $name)" > "$work/words" || [ $? -le 2 ]
  "$tool" explain "$work/bundle" --hex > "$work/hex" || [ $? -le 2 ]
  compare "$name, in words" "samples/$name.expected" "$work/words"
  compare "$name, report" "samples/$name.report" "$work/hex"
  status=0
  "$tool" sizes "$work/bundle" --names "$(text $name)" > "$work/sizes" || status=$?
  # What is refused is told in the same words as by explain.
  due=samples/$name.sizes
  [ "$status" -ne 2 ] || due=samples/$name.expected
  compare "$name, sizes" "$due" "$work/sizes"
  if [ -f "samples/$name.chain" ]; then
    chains $name "$work/bundle" --names "$(text $name)" > "$work/chains"
    compare "$name, chains" "samples/$name.chain" "$work/chains"
    chains $name "$(text $name)" > "$work/chains"
    compare "$name, chains from the text" "samples/$name.chain" "$work/chains"
  fi
done
"$tool" sizes samples/sizes-fixed.layout display_frame --svg > "$work/picture" || :
compare 'sizes-fixed, picture' samples/sizes-fixed.svg "$work/picture"
for name in $texts; do
  "$tool" explain "samples/$name.layout" > "$work/words" || [ $? -le 2 ]
  compare "$name, from the text" "samples/$name.expected" "$work/words"
  if [ -f "samples/$name.sizes" ]; then
    "$tool" sizes "samples/$name.layout" > "$work/sizes" || :
    compare "$name, sizes from the text" "samples/$name.sizes" "$work/sizes"
  fi
  bundle $name > "$work/bundle"
  # A bundle that cannot be read cannot be shown either.
  if "$tool" show "$work/bundle" --names "samples/$name.layout" > "$work/shown.layout" 2> "$work/message"; then
    "$tool" assemble "$work/shown.layout" > "$work/again" 2> /dev/null
    compare "$name, shown and assembled again" "$work/bundle" "$work/again"
  fi
done

# A set of the page begins with `// passes` or with `// type`, the types and a colon, and ends with an empty line. Its file is named
# after the line that it begins on.
rm -f "$work"/page-*
awk -v work="$work" '
  /^    \/\/ (passes|types? [1-8])/ { file = sprintf("%s/page-%04d", work, NR) }
  /^$/ && file { close(file); file = "" }
  /^    / && !file { print "docs/PASS.md, line " NR ": a set that does not say its answer"; exit 1 }
  file { print substr($0, 5) > file }' docs/PASS.md
for set in "$work"/page-*; do
  sed 's/:.*//; q' "$set" | tr -cd '1-8' > "$work/said"
  status=0
  "$tool" explain --text "$set" > "$work/words" 2>&1 || status=$?
  sed -n 's/^[0-9]*\. .*(type \([1-8]\)).*/\1/p' "$work/words" | tr -d '\n' > "$work/found"
  # Refused, or no set at all.
  [ "$status" -le 1 ] || cat "$work/words" >> "$work/found"
  compare "docs/PASS.md, line ${set##*page-}" "$work/said" "$work/found"
done
echo "$passed passed, $failed failed"
[ "$failed" -eq 0 ]
