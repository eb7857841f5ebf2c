#!/bin/sh
# Exit codes, messages, files and standard input and output of the program. Run by test.sh, from the root of the
# repository, after build.sh.
set -u
tool=tools/layout-text/target/layout-text
work=tools/layout-text/target/program
mkdir -p "$work"
failed=0

fail() {
  failed=1
  echo "failed: $*"
}

# expect CODE TEXT ARGUMENTS: the exit code, and a text in what is printed; `-`
# where nothing must be.
expect() {
  code=$1
  text=$2
  shift 2
  "$tool" "$@" > "$work/printed" 2>&1 < "$work/input"
  found=$?
  case $text in
    -) [ ! -s "$work/printed" ] ;;
    *) grep -qF -e "$text" "$work/printed" ;;
  esac
  if [ $? -ne 0 ] || [ "$found" -ne "$code" ]; then
    fail "$* gave $found instead of $code, or not: $text"
    head -5 "$work/printed"
  fi
}

# wrong TEXT ARGUMENTS: a wrong command, told in one line of less than 200 bytes.
wrong() {
  expect 3 "$@"
  [ "$(wc -l < "$work/printed")" -eq 1 ] && [ "$(wc -c < "$work/printed")" -lt 200 ] ||
    fail "$* is not told in one short line"
}

# lost PLACE TEXT ARGUMENTS: standard output goes to PLACE and cannot be written;
# exit code 3 and one line that says so, or none for `-`.
lost() {
  place=$1
  text=$2
  shift 2
  case $place in
    closed) "$tool" "$@" 2> "$work/printed" < "$work/input" >&- ;;
    pipe) { "$tool" "$@" 2> "$work/printed" < "$work/input"; echo $? > "$work/code"; } | head -c 1 > /dev/null ;;
    *) "$tool" "$@" 2> "$work/printed" < "$work/input" > "$place" ;;
  esac
  found=$?
  [ "$place" != pipe ] || found=$(cat "$work/code")
  case $text in
    -) due='' ;;
    *) due="standard output: cannot be written: $text" ;;
  esac
  if [ "$(cat "$work/printed")" != "$due" ] || [ "$found" -ne 3 ]; then
    fail "$* onto $place gave $found, or not: $due"
    head -5 "$work/printed"
  fi
}

printf 'define trace jagged array [3u8] u8\n' > "$work/input"
expect 1 'chain: trace' explain --text
expect 1 '00 01 00 7F 01 00' explain --text --hex
expect 0 - assemble -o "$work/bundle"
expect 0 'define trace jagged array [3u8] u8' show "$work/bundle" --names -
expect 0 'define #1 jagged array [3u8] u8' show "$work/bundle"
expect 1 'jagged array `#1`' explain "$work/bundle"
expect 1 'Definition 0 (line 1), jagged array `trace`' explain "$work/bundle" --names -

# Reports that were stored: this bundle's, others, and none at all.
"$tool" explain "$work/bundle" --hex > "$work/report"
expect 1 'chain: #1' explain "$work/bundle" --report "$work/report"
expect 1 '00 01 00 7F 01 00' explain "$work/bundle" --report "$work/report" --hex
tr 'ABCDEF\n' 'abcdef ' < "$work/report" > "$work/small"
expect 1 'chain: #1' explain "$work/bundle" --report "$work/small"
printf '\160\001\000\167\000\000\001\000\000\000\000\000\000\000\000\000\000\001\000\177\001\000' > "$work/report"
expect 1 'chain: #1' explain "$work/bundle" --report "$work/report"
printf '\176\002' > "$work/report"
expect 3 "byte 0 is 7E, and in this bundle's it is 70" explain "$work/bundle" --report "$work/report"
expect 3 'it says short (2), but reading went to the end' explain "$work/bundle" --report "$work/report" --as-given
printf '\160\000\000' > "$work/report"
expect 3 "not this bundle's report: byte 1 is 00, and in this bundle's it is 01" \
  explain "$work/bundle" --report "$work/report"
expect 0 'The set passes' explain "$work/bundle" --report "$work/report" --as-given
printf '70 00 00' > "$work/report"
expect 3 "not this bundle's report" explain "$work/bundle" --report "$work/report"
expect 0 'The set passes' explain "$work/bundle" --report "$work/report" --as-given
printf '\160\000\000\000' > "$work/report"
expect 3 'report: the report ends at byte 3' explain "$work/bundle" --report "$work/report"
printf '70 000' > "$work/report"
expect 3 '`000` is not made of pairs' explain "$work/bundle" --report "$work/report"
printf 'no report' > "$work/report"
expect 3 'byte 0 is 6E, but 70 or 7E is due' explain "$work/bundle" --report "$work/report"
for sample in winch type-1-enum-forward type-4-field-forward type-8-nested-jagged refused-circle; do
  "$tool" explain "samples/$sample.layout" --report "samples/$sample.report" > "$work/words"
  cmp -s "$work/words" "samples/$sample.expected" || fail "the stored report of $sample"
done
expect 3 "not this bundle's report" explain samples/type-2-enum-cycle.layout --report samples/type-3-array-cycle.report
expect 3 'no definition there fits' \
  explain samples/type-2-enum-cycle.layout --report samples/type-3-array-cycle.report --as-given

printf 'name trace = 1' > "$work/input"
expect 1 'chain: trace' explain "$work/bundle" --names -
printf 'define a u9' > "$work/input"
expect 3 'line 1, column 10' assemble
expect 3 'line 1, column 10' explain --text
printf 'define a ref a' > "$work/input"
expect 0 'circle (8)' assemble -o "$work/bundle"
expect 2 'The circle: a -> a' explain --text
expect 0 'define #1 ref #1' show "$work/bundle"
printf '`\001' > "$work/input"
expect 2 'byte 2: short (2)' show
expect 2 'Refused: short (2)' explain
printf '\377' > "$work/input"
expect 3 'byte 0 starts no letter' assemble
expect 2 'byte 0: stranger (3)' show
wrong 'wrong argument `--hex`' show --hex
expect 3 'standard input is asked for twice' explain --names -
expect 3 'standard input is asked for twice' explain "$work/bundle" --names - --report -
expect 0 'usage' help
expect 0 'usage' --help
expect 0 'usage' explain --help
expect 3 'usage'
wrong '`frob` is no verb' frob
wrong '`--frob` is no verb' --frob explain
wrong '`` is no verb' ''
wrong '`extra` is one argument too many' help extra
wrong '`extra` is one argument too many' assemble "$work/input" extra
wrong 'wrong argument `--names`' help --names
wrong '`--text` and `--bytes` are both given' explain --text --bytes
wrong '`--text` and `--bytes` are both given' explain --bytes "$work/bundle" --text
for option in --text --bytes --hex --as-given; do
  wrong "\`$option\` is given twice" explain $option "$work/bundle" $option
done
for option in --names --report; do
  wrong "\`$option\` is given twice" explain "$work/bundle" $option "$work/input" $option "$work/input"
done
rm -f "$work/first" "$work/second"
wrong '`-o` is given twice' show "$work/bundle" -o "$work/first" -o "$work/second"
[ ! -e "$work/first" ] && [ ! -e "$work/second" ] || fail 'a wrong command writes'
wrong '`-o` needs a file' assemble -o
wrong '`--as-given` is given without `--report`' explain "$work/bundle" --as-given
long=$(printf '%0100000d' 0)
wrong 'is no verb' "$long"
wrong 'wrong argument `--000' show "--$long"
wrong 'too many' show "$work/bundle" "$long"

# What is text, and what are bytes.
printf 'define trace jagged array [3u8] u8\n' > "$work/plain"
expect 1 'Definition 0 (line 1), jagged array `trace`' explain "$work/plain"
expect 2 'Refused: stranger (3)' explain "$work/plain" --bytes
cp "$work/plain" "$work/input"
expect 1 'chain: trace' explain
printf '\357\273\277define trace u9' > "$work/plain"
expect 3 'line 1, column 14' explain "$work/plain"
expect 3 'line 1, column 14' assemble "$work/plain"
printf '\357\273\277name trace = 1' > "$work/plain"
"$tool" assemble "$work/input" > "$work/bundle"
expect 1 'chain: trace' explain "$work/bundle" --names "$work/plain"
cp "$work/bundle" "$work/bundle.layout"
expect 3 'has no meaning here' explain "$work/bundle.layout"
expect 1 'jagged array `#1`' explain "$work/bundle.layout" --bytes
printf 'a\001\000' > "$work/plain"
expect 2 'Refused: stranger (3)' explain "$work/plain"
: > "$work/plain"
: > "$work/plain.layout"
expect 2 'Refused: short (2)' explain "$work/plain"
expect 0 '0 definitions, 0 edges' explain "$work/plain.layout"
expect 0 'docs/PASS.md' explain "$work/plain.layout"

# Text where bytes are due.
cp samples/winch.layout "$work/text"
expect 2 'where the header (60) is due; the file looks like text, which `assemble` takes' show "$work/text"
head -c 40000 /dev/zero | tr '\000' '\n' > "$work/text"
expect 2 'overlong (1): more than 32,768 bytes; there are 32769 bytes or more; the file looks like text' show "$work/text"
printf '\377' > "$work/text"
expect 2 'stranger (3)' show "$work/text"
grep -q 'looks like text' "$work/printed" && fail 'bytes are taken for text'

# Lines that end with a carriage return alone.
printf '// a set\rdefine trace jagged array [3u8] u8 // the end\r' > "$work/plain"
expect 1 'Definition 0 (line 2), jagged array `trace`' explain "$work/plain"

# A message repeats the start of a long word only.
{ printf 'define a array ['; head -c 4000000 /dev/zero | tr '\000' 7; printf '] u8'; } > "$work/digits"
wrong '7777…` is no number of 64 bits' assemble "$work/digits"
wrong '7777…` is no number of 64 bits' explain "$work/digits"
{ printf 7; head -c 4000000 /dev/zero | tr '\000' 7; } > "$work/report"
"$tool" assemble "$work/input" > "$work/bundle"
wrong '7777…` is not made of pairs' explain "$work/bundle" --report "$work/report"

# Sizes: all definitions, one by word or number, twice defined, not fixed, not defined.
cat > "$work/sizes.layout" <<'SIZES'
define cell struct { serial: u8  gain: f32 }
define frame struct { cell: ref cell  tail: ref samples }
define samples array [frame.count] u8
define cell u16
SIZES
"$tool" assemble "$work/sizes.layout" > "$work/sizes.bundle"
cell='Definition 0 (line 1), struct `cell`: 8 bytes, alignment 4'
expect 0 '2 of 4 definitions have a fixed size.' sizes "$work/sizes.layout"
expect 0 "$cell" sizes "$work/sizes.layout"
expect 0 'Definition 3 (line 4), u16 `cell`: 2 bytes, alignment 2' sizes "$work/sizes.layout"
expect 0 "$cell" sizes "$work/sizes.layout" cell
expect 0 '       1     3             (gap)' sizes "$work/sizes.layout" cell
expect 0 'Definition 0, struct `#1`: 8 bytes' sizes "$work/sizes.bundle" '#1'
expect 0 "$cell" sizes --names "$work/sizes.layout" "$work/sizes.bundle" cell
tail='`frame.tail` is of type `samples` (definition 2, line 3), an array whose size has no value, uncovered (15): it reads the field `frame.count`.'
expect 2 "$tail" sizes "$work/sizes.layout" frame
expect 2 'struct `frame`: no fixed size, varying (11)' sizes "$work/sizes.layout" frame
cp "$work/sizes.layout" "$work/input"
expect 0 '2 of 4 definitions' sizes
expect 0 "$cell" sizes - cell
expect 0 "$cell" sizes - cell --text
wrong '`gain` has no definition' sizes "$work/sizes.layout" gain
wrong '`nowhere` has no definition' sizes "$work/sizes.layout" nowhere
wrong '`#77` has no definition' sizes "$work/sizes.layout" '#77'
wrong '`#99999` has no definition' sizes "$work/sizes.layout" '#99999'
wrong 'no words are known for its names: write #17 for name 17, or give --names' sizes "$work/sizes.bundle" cell
wrong '7777…` has no definition' sizes "$work/sizes.layout" "$(printf '%0999d' 0 | tr 0 7)"
wrong '`` has no definition' sizes "$work/sizes.layout" ''
wrong '`1` has no definition; write #17 for name 17' sizes "$work/sizes.layout" 1
wrong 'this file is read; write to another' sizes "$work/sizes.layout" cell --svg -o "$work/sizes.layout"
wrong 'this file is read; write to another' show "$work/sizes.bundle" -o "$work/sizes.bundle"
expect 0 "$cell" sizes "$work/sizes.layout" cell
wrong '`more` is one argument too many' sizes "$work/sizes.layout" cell more
wrong '`--svg` is given without `NAME`' sizes "$work/sizes.layout" --svg
wrong '`-o` is given without `--svg`' sizes "$work/sizes.layout" cell -o "$work/picture"
wrong '`--svg` is given twice' sizes "$work/sizes.layout" cell --svg --svg
wrong 'wrong argument `--hex`' sizes "$work/sizes.layout" --hex
wrong 'wrong argument `--svg`' explain "$work/sizes.layout" --svg
wrong '`--text` and `--bytes` are both given' sizes "$work/sizes.layout" --text --bytes
wrong 'standard input is asked for twice' sizes - --names -
expect 0 'layout-text sizes' sizes --help
expect 2 'Refused: circle (8)' sizes samples/refused-circle.layout
expect 2 'The circle: winch_frame -> tension_record -> winch_frame' sizes samples/refused-circle.layout winch_frame
expect 2 'Reading stopped at byte' sizes samples/refused-buried.layout
expect 2 'Refused: circle (8)' sizes samples/refused-circle.layout winch_frame --svg
"$tool" sizes samples/refused-circle.layout winch_frame --svg > "$work/picture" 2> /dev/null && fail 'a refused set has a picture'
[ ! -s "$work/picture" ] || fail 'words of a refusal stand in the picture'
head -c 40 "$work/sizes.bundle" > "$work/cut"
expect 2 'Refused: short (2)' sizes "$work/cut"
printf 'define frame cell' > "$work/wrong.layout"
wrong '`cell` is no type' sizes "$work/wrong.layout"
: > "$work/plain.layout"
expect 0 '0 of 0 definitions have a fixed size.' sizes "$work/plain.layout"

# Sizes that are worked out, from text and bytes; those without a value are told with their part, and end with code 2.
cat > "$work/sums.layout" <<'SUMS'
define rows array [4u8 * 3u8] u16
define divided array [12u8 / (2u8 - 2u8)] u16
define over array [9223372036854775807u64 + 1u8] u8
define power array [2u8 * (2u8 ** 3u8)] u8
define below array [3u8 - 5u8] u8
define notes jagged array [head.count - 1u8] u8
SUMS
"$tool" assemble "$work/sums.layout" > "$work/sums.bundle"
expect 0 '1 of 6 definitions has a fixed size.' sizes "$work/sums.layout"
expect 0 '24 bytes, alignment 2; 12 elements of type u16, 2 bytes each' sizes "$work/sums.layout" rows
expect 0 'Its size is `4u8 * 3u8` = 12.' sizes "$work/sums.layout" rows
expect 0 'Its size is `4u8 * 3u8` = 12.' sizes "$work/sums.bundle" '#1'
expect 2 'zero divisor (13): the divisor `2u8 - 2u8` of `12u8 / (2u8 - 2u8)` is 0.' sizes "$work/sums.layout" divided
expect 2 'out of range (14): `9223372036854775807u64 + 1u8` is 9223372036854775808, over 9,223,372,036,854,775,807.' \
  sizes "$work/sums.bundle" '#3'
expect 2 'size `2u8 * (2u8 ** 3u8)` has no value, uncovered (15): `2u8 ** 3u8` is of kind Pow, which has none.' \
  sizes "$work/sums.layout" power
expect 2 'an array whose size is negative, `3u8 - 5u8` = -2.' sizes "$work/sums.layout" below
expect 2 'Its size `head.count - 1u8` has no value, uncovered (15): it reads the field `head.count`.' \
  sizes "$work/sums.layout" notes
expect 2 'the divisor `2u8 - 2u8`' sizes "$work/sums.layout" divided --svg
expect 0 'There are no fields' sizes "$work/sums.layout" rows --svg
# A stored refusal of a value is no answer about a set.
printf '7E 0D' > "$work/report"
expect 3 'it says zero divisor (13), but reading went to the end' \
  explain "$work/sums.bundle" --report "$work/report" --as-given
printf '7E 10' > "$work/report"
expect 3 '16 is the number of no refusal' explain "$work/sums.bundle" --report "$work/report" --as-given
# Wrong expressions.
for size in '4u8 *' '4u8 * 300u8' '4 x 3' '4u8 * 3u8 + 1u8' ''; do
  printf 'define rows array [%s] u16' "$size" > "$work/wrong.layout"
  wrong 'line 1, column ' sizes "$work/wrong.layout"
done

# Chains: by words and numbers, from text and bytes, several ways of one length, none, a name to itself, and what is no name.
cat > "$work/chain.layout" <<'CHAIN'
name far = 700
define a struct {}
define d array [3u8] u8
edge a -> b type
edge a -> c type
edge c -> d size
edge b -> d tag
edge d -> e type
edge e -> a type
edge z -> far type
CHAIN
"$tool" assemble "$work/chain.layout" > "$work/chain.bundle"
expect 0 'a -> b -> d -> e' chain "$work/chain.layout" a e
expect 0 'The search followed the edges of 4 names.' chain "$work/chain.layout" a e
expect 0 'Edges lead from `a`, directly or through others, to 4 other names.' chain "$work/chain.layout" a e
expect 0 'The search followed the edges of 1 name.' chain "$work/chain.layout" a c
expect 0 'a -> b -> d -> e' chain "$work/chain.bundle" a e --names "$work/chain.layout"
expect 0 '#1 -> #3 -> #2 -> #5' chain "$work/chain.bundle" '#1' '#5'
expect 0 'a -> b -> d -> e' chain "$work/chain.layout" '#1' '#0005'
expect 0 'z -> far' chain "$work/chain.layout" z '#700'
expect 0 'Edges lead from `z`, directly or through others, to 1 other name.' chain "$work/chain.layout" z far
expect 0 'No chain leads from `a` to `z`.' chain "$work/chain.layout" a z
expect 0 'The search followed the edges of 5 names.' chain "$work/chain.layout" a z
expect 0 'No chain leads from `#0` to `#65535`.' chain "$work/chain.layout" '#0' '#65535'
expect 0 'No edge leads from `#0` to another name.' chain "$work/chain.layout" '#0' '#65535'
expect 0 'The search followed no edges.' chain "$work/chain.layout" e e
expect 0 'The search followed no edges.' chain "$work/chain.layout" '#9' '#9'
cp "$work/chain.layout" "$work/input"
expect 0 'a -> b -> d -> e' chain - a e
expect 0 'a -> b -> d -> e' chain - a e --text
expect 0 'a -> b -> d -> e' chain --names - "$work/chain.bundle" a e
expect 2 'Refused: stranger (3)' chain - a e --bytes
due='is no name in this set; give a name of the set, or # and a number'
wrong "\`nowhere\` $due" chain "$work/chain.layout" nowhere a
wrong "\`nowhere\` $due" chain "$work/chain.layout" a nowhere
wrong "\`\` $due" chain "$work/chain.layout" '' a
wrong "\`\` $due" chain "$work/chain.layout" a ''
wrong "\`-\` $due" chain "$work/chain.layout" a -
wrong '`1` is no name in this set; write #17 for name 17' chain "$work/chain.layout" a 1
for name in '#' '#65536' '#+1' '#x' '#1 ' '##1'; do
  wrong "\`$name\` is no name; a number from 0 to 65535 is due behind the #" chain "$work/chain.layout" a "$name"
done
wrong '7777…` is no name in this set; write #17 for name 17' chain "$work/chain.layout" a "$(printf '%0999d' 0 | tr 0 7)"
wrong 'no words are known for its names: write #17 for name 17, or give --names' chain "$work/chain.bundle" a e
wrong '`` is no name in this set; no words are known for its names: write #17' chain "$work/chain.bundle" '' '#1'
# Control characters, and what else would end or turn the line.
odd=$(printf 'a\nb\033[2J\302\205\342\200\256\\')
line='`a\nb\u{1b}[2J\u{85}\u{202e}\\`'
wrong "$line $due" chain "$work/chain.layout" "$odd" a
wrong "$line $due" chain "$work/chain.layout" a "$odd"
wrong "\`#\\n1\` is no name; a number from 0" chain "$work/chain.layout" a "$(printf '#\n1')"
wrong "$line has no definition" sizes "$work/sizes.layout" "$odd"
wrong "$line is one argument too many" chain "$work/chain.layout" a b "$odd"
wrong "$line is no verb" "$odd"
wrong 'none\nfile: cannot be read: No such file' chain "$(printf 'none\nfile')" a b
wrong 'none\nfile/x: cannot be written: No such file' assemble "$work/chain.layout" -o "$(printf 'none\nfile/x')"
printf 'define \033 u8' > "$work/plain"
wrong 'column 8: `\u{1b}` has no meaning here' assemble "$work/plain"
# Names that are not the set's own.
printf 'name zebra = 5' > "$work/zebra"
due="the names are those of $work/zebra (--names)"
wrong "\`a\` is no name; $due: give one of them, or # and a number" \
  chain "$work/chain.layout" a e --names "$work/zebra"
wrong "\`a\` is no name; $due: give one of them, or # and a number" \
  chain "$work/chain.bundle" zebra a --names "$work/zebra"
wrong '`1` is no name; write #17 for name 17' chain "$work/chain.layout" 1 zebra --names "$work/zebra"
wrong '`#x` is no name; a number from 0 to 65535 is due' chain "$work/chain.layout" '#x' zebra --names "$work/zebra"
expect 0 '#1 -> #3 -> #2 -> zebra' chain "$work/chain.layout" '#1' zebra --names "$work/zebra"
wrong "\`cell\` has no definition; $due" sizes "$work/sizes.layout" cell --names "$work/zebra"
wrong "\`zebra\` has no definition; $due" sizes "$work/sizes.bundle" zebra --names "$work/zebra"
wrong '`#77` has no definition' sizes "$work/sizes.layout" '#77' --names "$work/zebra"
grep -q 'names' "$work/printed" && fail 'a number is told to depend on --names'
printf '// nothing' > "$work/zebra"
for verb in "chain $work/chain.layout cell #1" "sizes $work/sizes.layout cell"; do
  wrong "$due, which has none: write #17 for name 17" $verb --names "$work/zebra"
done
printf 'name zebra = 5' > "$work/input"
wrong 'the names are those of standard input (--names)' chain "$work/chain.layout" a e --names -
# A bundle where a text is due.
due='; the file looks like a bundle, and a text is due'
for verb in "chain $work/chain.layout a e" "sizes $work/sizes.layout" "explain $work/chain.bundle" "show $work/chain.bundle"; do
  wrong "$work/sizes.bundle: line 1, column 1: \`\`\` has no meaning here$due" $verb --names "$work/sizes.bundle"
done
wrong "$due" assemble "$work/chain.bundle"
wrong "$due" chain "$work/chain.bundle" a e --text
printf '`\377' > "$work/cut"
wrong "no text: byte 1 starts no letter of UTF-8$due" assemble "$work/cut"
printf '\377' > "$work/cut"
wrong 'no text: byte 0 starts no letter of UTF-8' assemble "$work/cut"
grep -q 'bundle, and' "$work/printed" && fail 'other bytes are taken for a bundle'
wrong '`chain` needs FILE, FROM and TO' chain
wrong '`chain` needs FILE, FROM and TO' chain "$work/chain.layout"
wrong '`chain` needs FILE, FROM and TO' chain "$work/chain.layout" a
wrong '`more` is one argument too many' chain "$work/chain.layout" a b more
wrong 'wrong argument `-o`' chain "$work/chain.layout" a b -o "$work/words"
wrong 'wrong argument `--svg`' chain "$work/chain.layout" a b --svg
wrong '`--text` is given twice' chain "$work/chain.layout" a b --text --text
wrong '`--text` and `--bytes` are both given' chain "$work/chain.layout" a b --text --bytes
wrong '`--names` needs a file' chain "$work/chain.layout" a b --names
wrong 'standard input is asked for twice' chain - a b --names -
wrong 'cannot be read: No such file' chain "$work/none" a b
expect 0 'layout-text chain' chain --help
expect 2 'Refused: circle (8)' chain samples/refused-circle.layout winch_frame nowhere
expect 2 'Reading stopped at byte' chain samples/refused-buried.layout a b
head -c 30 "$work/chain.bundle" > "$work/cut"
expect 2 'Refused: short (2)' chain "$work/cut" '#1' '#2'
: > "$work/cut"
expect 2 'Refused: short (2)' chain "$work/cut" '#1' '#2'
head -c 32769 /dev/zero > "$work/cut"
expect 2 'Refused: overlong (1)' chain "$work/cut" '#1' '#2'
printf 'edge a -> b' > "$work/wrong.layout"
wrong 'line 1, column ' chain "$work/wrong.layout" a b

# The examples of README.md. examples VERB COUNT: those of a verb, and how many there are.
examples() {
  rm -f "$work"/example-*
  awk -v work="$work" -v verb="$1" '
    /^    \$ layout-text / { file = "" }
    index($0, "    $ layout-text " verb " ") == 1 {
      file = work "/example-" ++n
      print substr($0, length(verb) + 20) > (file ".words")
      next
    }
    /^$/ { file = "" }
    file { print substr($0, 5) > file }' tools/layout-text/README.md
  found=0
  for example in "$work"/example-*.words; do
    found=$((found + 1))
    "$tool" "$1" $(cat "$example") 2>&1 | cmp -s - "${example%.words}" || fail "the example $1 $(cat "$example") of README.md"
  done
  [ "$found" -eq "$2" ] || fail "$found examples of $1 in README.md"
}
examples chain 3
examples sizes 5

# Pictures: to a file or to standard output; words where there is none to draw.
expect 0 - sizes "$work/sizes.layout" cell --svg -o "$work/picture.svg"
expect 0 '<title>gain: f32, at 4, 4 bytes, alignment 4</title>' sizes "$work/sizes.layout" cell --svg
cmp -s "$work/printed" "$work/picture.svg" || fail 'the picture is not the same in a file'
rm -f "$work/none.svg"
expect 2 "$tail" sizes "$work/sizes.layout" frame --svg -o "$work/none.svg"
[ ! -e "$work/none.svg" ] || fail 'a picture of a definition without a fixed size'
expect 3 '`gain` has no definition' sizes "$work/sizes.layout" gain --svg
expect 3 '/dev/full: cannot be written: No space left on device' sizes "$work/sizes.layout" cell --svg -o /dev/full
if command -v python3 > /dev/null; then
  python3 -c 'import sys, xml.dom.minidom as x; x.parse(sys.argv[1])' "$work/picture.svg" || fail 'the picture is no XML'
fi

# What cannot be read.
for verb in assemble show explain sizes; do
  expect 3 'program/missing: cannot be read: No such file' $verb "$work/missing"
  expect 3 'program: cannot be read: Is a directory' $verb "$work"
  expect 3 'cannot be read: Input/output error' $verb /proc/self/mem
  "$tool" $verb < "$work" > "$work/printed" 2>&1
  [ $? -eq 3 ] && grep -q '^standard input: cannot be read: Is a directory$' "$work/printed" || fail "$verb < folder"
  "$tool" $verb <&- > "$work/printed" 2>&1
  [ $? -eq 3 ] && grep -q '^standard input: cannot be read: it is closed$' "$work/printed" || fail "$verb <&-"
done
expect 3 'missing: cannot be read' show "$work/bundle" --names "$work/missing"
expect 3 'missing: cannot be read' explain "$work/bundle" --report "$work/missing"

# Input without end is read up to a bound; with less memory than that it would fail.
endless() {
  (ulimit -v 500000 && expect "$@" && [ "$failed" -eq 0 ]) || failed=1
}
endless 3 '/dev/zero: more than 4194304 bytes, too many for a text' assemble /dev/zero
endless 3 '/dev/zero: more than 4194304 bytes' explain /dev/zero --text
endless 3 '/dev/zero: more than 4194304 bytes' show "$work/bundle" --names /dev/zero
endless 3 '/dev/zero: more than 67108864 bytes, too many for a report' explain "$work/bundle" --report /dev/zero
endless 2 'byte 32768: overlong (1)' show /dev/zero
endless 2 'Refused: overlong (1)' explain /dev/zero
endless 2 'Refused: overlong (1)' sizes /dev/zero
endless 3 '/dev/zero: more than 4194304 bytes' sizes /dev/zero --text
head -c 4194304 /dev/zero | tr '\000' '\n' > "$work/blank"
expect 0 '0 definitions' explain "$work/blank"
echo >> "$work/blank"
expect 3 'more than 4194304 bytes' explain "$work/blank"

# Texts of the greatest length that need the most memory: many operators, groups and members.
widest() {
  awk -v kind="$1" 'BEGIN {
    for (n = 1; n < 50; n++) row = row "+1"
    for (n = 1; n < 50; n++) rows = rows "+(1" row ")"
    for (n = 0; n < 56; n++) { open = open "a:union{"; shut = shut "}" }
    member["rows"] = "a:array[(1" row ")" rows "]u8,"
    member["groups"] = open shut ","
    member["members"] = "a:u8,"
    unit = member[kind]
    printf "define a struct {"
    for (left = 4194304 - 18; left >= length(unit); left -= length(unit)) printf "%s", unit
    print "}"
  }'
}
bounded() {
  (ulimit -v 204800 && expect "$@" && [ "$failed" -eq 0 ]) || failed=1
}
widest rows > "$work/wide"
bounded 0 'overlong (1)' assemble "$work/wide" -o "$work/wide.bundle"
bounded 2 'overlong (1)' explain "$work/wide"
bounded 2 'overlong (1)' explain "$work/wide" --names "$work/wide"
widest groups > "$work/wide"
bounded 2 'overlong (1)' explain "$work/wide"
widest members > "$work/wide"
bounded 3 '65,535' explain "$work/wide"
# And a short one with a long answer: 5,000 violations, each with a chain of 1,025 long names.
awk 'BEGIN {
  long = sprintf("%040d", 0)
  for (n = 1; n < 20; n++) row = row "+f"
  print "current n0_" long
  for (n = 0; n < 250; n++) print "define n1024_" long " array [f" row "] u8"
  for (n = 0; n < 1024; n++) print "edge n" n "_" long " -> n" n + 1 "_" long " type"
}' > "$work/wide"
for option in --text --hex; do
  (ulimit -v 204800 && "$tool" explain "$work/wide" $option > /dev/null 2> "$work/printed")
  [ $? -eq 1 ] && [ ! -s "$work/printed" ] || fail "a long answer, $option"
done

# And sizes of many fields, once more for each name that leads to them.
awk 'BEGIN {
  print "define a0 struct {"
  for (n = 0; n < 8000; n++) print "f: u8"
  print "}"
  for (n = 1; n < 40; n++) print "define a" n " ref a" n - 1
}' > "$work/wide"
bounded 0 '40 of 40 definitions have a fixed size.' sizes "$work/wide"
bounded 0 '<title>f: u8, at 7999, 1 byte, alignment 1</title>' sizes "$work/wide" a39 --svg
# And a long name that a size has very often.
awk 'BEGIN {
  printf "name "
  for (n = 0; n < 4000000; n++) printf "n"
  size = "#9"
  for (n = 0; n < 11; n++) size = "(" size " + " size ")"
  print " = 9 define #1 array [" size "] u8 define #2 jagged array [" size "] u8"
}' > "$work/wide"
bounded 0 '0 of 2 definitions have a fixed size.' sizes "$work/wide"
grep -q 'Its size .* has no value, uncovered (15): it reads the field `nnnn*…`' "$work/printed" || fail 'a long name in a size'

# What cannot be written.
{ echo 'define #1 struct {'; awk 'BEGIN { for (n = 0; n < 8000; n++) print "#65535: u8" }'; echo '}'; } > "$work/input"
"$tool" assemble "$work/input" > "$work/long"
full='No space left on device'
for place in /dev/full closed; do
  [ $place = closed ] && full='it is closed'
  lost $place "$full" help
  lost $place "$full" assemble
  lost $place "$full" assemble "$work/plain.layout"
  lost $place "$full" show "$work/bundle"
  lost $place "$full" explain "$work/bundle"
  lost $place "$full" explain "$work/bundle" --hex
  lost $place "$full" sizes "$work/bundle"
  lost $place "$full" sizes "$work/sizes.layout" cell
  lost $place "$full" sizes "$work/sizes.layout" cell --svg
  lost $place "$full" chain "$work/chain.layout" a c
  lost $place "$full" chain samples/refused-circle.layout a b
done
expect 3 '/dev/full: cannot be written: No space left on device' assemble -o /dev/full
expect 3 '/dev/full: cannot be written: No space left on device' show "$work/bundle" -o /dev/full
expect 3 'none/x: cannot be written: No such file' assemble -o "$work/none/x"
lost pipe - show "$work/long"
lost pipe - sizes "$work/long"
# A message that cannot be written leaves the exit code.
"$tool" frob 2> /dev/full
[ $? -eq 3 ] || fail 'a message onto a full device'

# A report that is taken as given: said on standard error alone, and the library is not asked. The one that is linked here ends the
# program when it is.
cat > "$work/mute.rs" <<'MUTE'
#![no_std]
extern "C" {
    fn abort() -> !;
}
#[no_mangle]
pub unsafe extern "C" fn layout_accept() -> u8 {
    abort()
}
#[no_mangle]
pub unsafe extern "C" fn layout_report() -> u8 {
    abort()
}
#[no_mangle]
pub unsafe extern "C" fn layout_chain_followed() -> u8 {
    abort()
}
#[no_mangle]
pub unsafe extern "C" fn layout_fixed_size() -> u8 {
    abort()
}
#[no_mangle]
pub unsafe extern "C" fn layout_size_value() -> u8 {
    abort()
}
MUTE
target=tools/layout-text/target
rustc --edition 2021 -C panic=abort --crate-type lib --emit obj -o "$work/mute.o" "$work/mute.rs" &&
  rustc --edition 2021 -L "$target" --extern layout --extern layout_text -C "link-arg=$work/mute.o" -o "$work/mute" \
    tools/layout-text/src/main.rs || fail 'the program over a library without answers was not built'
for sample in winch type-1-enum-forward refused-circle; do
  "$work/mute" explain "samples/$sample.layout" --report "samples/$sample.report" --as-given > "$work/words" 2> "$work/printed"
  cmp -s "$work/words" "samples/$sample.expected" || fail "the library is asked about $sample"
  [ "$(cat "$work/printed")" = "samples/$sample.report: taken as given, not compared with the library's report" ] ||
    fail "$sample: it is not said that the report was taken as given"
  "$work/mute" explain "samples/$sample.layout" --report "samples/$sample.report" --as-given --hex 2> /dev/null |
    cmp -s - "samples/$sample.report" || fail "the library is asked about $sample, --hex"
done
(ulimit -c 0; "$work/mute" explain samples/winch.layout; echo $? > "$work/code") > "$work/words" 2>&1
[ "$(cat "$work/code")" -ge 128 ] || fail 'the library without answers was not linked'
# other FIXED VALUE CHAIN: the program over a library that accepts every set, and answers so to every other call.
other() {
  sed "s/layout_accept() -> u8 {/layout_accept() -> u8 { return 0;/
    s/layout_fixed_size() -> u8 {/layout_fixed_size() -> u8 { return $1;/
    s/layout_size_value() -> u8 {/layout_size_value() -> u8 { return $2;/
    s/layout_chain_followed() -> u8 {/layout_chain_followed() -> u8 { return $3;/" "$work/mute.rs" > "$work/other.rs"
  rustc --edition 2021 -A unreachable_code -C panic=abort --crate-type lib --emit obj -o "$work/other.o" "$work/other.rs" &&
    rustc --edition 2021 -L "$target" --extern layout --extern layout_text -C "link-arg=$work/other.o" -o "$work/other" \
      tools/layout-text/src/main.rs || fail 'the program over a library with other answers was not built'
}
# A library that answers otherwise than the evaluation of a size: no number of it is told.
other 11 13 9
for name in samples frame; do
  "$work/other" sizes "$work/sizes.layout" $name > "$work/words" 2> "$work/printed"
  [ $? -eq 3 ] && [ ! -s "$work/words" ] && grep -q \
    'definition 2: the library answers zero divisor (13).* for the size of an array, and the evaluation finds uncovered (15)' \
    "$work/printed" || fail "a value in $name that is not the evaluation's is told"
done
"$work/other" sizes "$work/sums.layout" below > "$work/words" 2> "$work/printed"
[ $? -eq 3 ] && [ ! -s "$work/words" ] && grep -q 'and the evaluation finds the value -2$' "$work/printed" ||
  fail 'a value that the library refuses is told'
"$work/other" sizes "$work/sums.layout" divided | grep -q 'zero divisor (13)' || fail 'a number on which both agree is not told'
# A library that accepts a set and refuses a search in it: nothing of it is told.
"$work/other" chain "$work/chain.layout" a c > "$work/words" 2> "$work/printed"
[ $? -eq 3 ] && [ ! -s "$work/words" ] && grep -q 'accepts the bundle and refuses a search in it: narrow (9)' "$work/printed" ||
  fail 'a search that is refused in an accepted set is told'
# A library that answers otherwise than the walk over the set: no number of it is told.
other 12 13 0
"$work/other" chain "$work/chain.layout" a c > "$work/words" 2> "$work/printed"
[ $? -eq 3 ] && [ ! -s "$work/words" ] && grep -q "the library's answers about #1 to #4 and to #0, which no edge has, do not agree" \
  "$work/printed" || fail 'a search whose count is 0 for all names is told'
for name in cell frame; do
  "$work/other" sizes "$work/sizes.layout" $name > "$work/words" 2> "$work/printed"
  [ $? -eq 3 ] && [ ! -s "$work/words" ] && grep -q 'the library answers oversized (12)' "$work/printed" ||
    fail "an answer about $name that is not the walk's is told"
done
"$work/other" sizes samples/refused-circle.layout > "$work/words" 2> "$work/printed"
[ $? -eq 3 ] && grep -q 'the library accepts the bundle, but it circles' "$work/printed" || fail 'a circle is accepted'
# Type 1 has a path of two names, and the places that a path does not use are 0.
tr ' ' '\n' < samples/type-1-enum-forward.report > "$work/pairs"
sed '9s/02/03/; 14s/00/01/' "$work/pairs" > "$work/report"
expect 3 'no definition there fits' explain samples/type-1-enum-forward.layout --report "$work/report" --as-given
expect 3 'no definition there fits' explain samples/type-1-enum-forward.layout --report "$work/report" --as-given --hex
sed '14s/00/01/' "$work/pairs" > "$work/report"
expect 3 'more places that are not 0' explain samples/type-1-enum-forward.layout --report "$work/report" --as-given

# The scripts take a library whose path has a space. In this copy the compilers only write down what they are given, each argument
# on a line.
copy=$PWD/$work/a\ copy
rm -rf "$copy"
mkdir -p "$copy/bin" "$copy/tools/layout-text/tests" "$copy/bindings/rust" "$copy/samples"
cp tools/layout-text/build.sh tools/layout-text/test.sh "$copy/tools/layout-text"
cp bindings/rust/test.sh "$copy/bindings/rust"
cp samples/check.sh samples/list.sh "$copy/samples"
cat > "$copy/bin/rustc" <<RUSTC
#!/bin/sh
printf '%s\n' "\$@" >> "$copy/given"
while [ \$# -gt 0 ]; do
  [ "\$1" != -o ] || { printf '#!/bin/sh\n' > "\$2"; chmod +x "\$2"; }
  shift
done
RUSTC
printf '#!/bin/sh\n' > "$copy/tools/layout-text/tests/program.sh"
chmod +x "$copy/bin/rustc" "$copy/tools/layout-text/tests/program.sh"
cp "$copy/bin/rustc" "$copy/bin/cc"
cp "$copy/bin/rustc" "$copy/bin/c++"
cp "$copy/tools/layout-text/tests/program.sh" "$copy/tools/layout-text/tests/explain.sh"
# script NAME COUNT: how often it links the library.
script() {
  : > "$copy/given"
  # What is not in the copy stops the script behind its linking.
  PATH=$copy/bin:$PATH LINK_FLAGS='-no-pie  -lm' "$copy/$1" "$copy/my library.a" > "$work/printed" 2>&1
  for due in "link-arg=$copy/my library.a" link-arg=-no-pie link-arg=-lm; do
    [ "$(grep -cxF -e "$due" "$copy/given")" -eq "$2" ] || fail "$1 does not link $due"
  done
}
script tools/layout-text/build.sh 1
script tools/layout-text/test.sh 4
script samples/check.sh 1
script bindings/rust/test.sh 1
for due in "$copy/my library.a" -no-pie -lm; do
  [ "$(grep -cxF -e "$due" "$copy/given")" -eq 1 ] || fail "bindings/rust/test.sh does not give cc $due"
done
[ "$failed" -eq 0 ] && echo "program: all as due"
exit "$failed"
