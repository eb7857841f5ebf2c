#!/bin/sh
# Runs the program with each of its words, as samples/words.txt says, with input and output that fail and at the limits, and compares
# what it writes and what it leaves unread.
# Usage: samples/words.sh [PROGRAM]        (`rt ci`, or `rt run` in crates/layout, makes crates/layout/out/layout)
set -eu
cd "$(dirname "$0")/.."
program=${1:-crates/layout/out/layout}
work=$(mktemp -d)
trap 'rm -rf "$work"' EXIT
echo 'layout: wrong arguments; take none, renumber, chain FROM TO, followed FROM TO, size NUMBER, value NUMBER (each 0 to 65535) or help' > "$work/wrong"
echo 'layout: standard input cannot be read' > "$work/unread"
echo 'layout: standard output cannot be written' > "$work/unwritten"
: > "$work/nothing"
[ -c /dev/full ] || { echo 'samples/words.sh: no device /dev/full'; exit 1; }
passed=0
failed=0

# The bytes that a text in hexadecimal stands for.
bytes() {
  printf "$(printf '%s' "$1" | tr -d ' ' | awk -v d=0123456789abcdef '{
    for (i = 1; i < length($0); i += 2)
      printf "\\%03o", 16 * (index(d, substr($0, i, 1)) - 1) + index(d, substr($0, i + 1, 1)) - 1 }')"
}

# Runs the program with its standard output as $to says.
start() {
  case $to in
    '') "$program" "$@" > "$work/out" ;;
    ' > full') "$program" "$@" > /dev/full ;;
    ' > closed') "$program" "$@" >&- ;;
    *) echo "no such output:$to" >&2 ;;
  esac
}

# Runs the program with these arguments on what $from says: a folder, no open file, or else $work/input. What it does not read of
# the last goes to $work/left.
run() {
  : > "$work/out"
  : > "$work/left"
  case $from in
    directory) start "$@" < "$work" ;;
    closed) start "$@" <&- ;;
    *) { start "$@" || echo "status $?" >&2; cat > "$work/left"; } < "$work/input" ;;
  esac 2> "$work/err" || echo "status $?" >> "$work/err"
}

# Compares with $work/due, and with the message and the input that is due to be left.
compare() {
  if cmp -s "$work/due" "$work/out" && cmp -s "$2" "$work/err" && cmp -s "$3" "$work/left"; then
    passed=$((passed + 1))
  else
    failed=$((failed + 1))
    echo "failed: $1"
    od -An -v -tx1 "$work/due" | head -3
    od -An -v -tx1 "$work/out" | head -3
    head -3 "$work/err"
  fi
}

# INPUT, ARGUMENTS and ANSWER of a case.
try() {
  from=${1%% *}
  to=${1#"$from"}
  case $from in
    directory | closed) : > "$work/input" ;;
    *) cp "$work/bundle-$from" "$work/input" ;;
  esac
  eval "run $2"
  : > "$work/due"
  message=$work/nothing
  left=$work/nothing
  case $3 in
    bytes*) bytes "${3#bytes}" > "$work/due" ;;
    lines*) for n in ${3#lines}; do echo "$n"; done > "$work/due" ;;
    help) cp samples/words.help "$work/due"; left=$work/input ;;
    wrong) message=$work/wrong; left=$work/input ;;
    unread) message=$work/unread ;;
    unwritten) message=$work/unwritten ;;
    'unwritten help') message=$work/unwritten; left=$work/input ;;
    *) echo "no such answer: $3"; exit 1 ;;
  esac
  compare "$1, $2" "$message" "$left"
}

while IFS= read -r line; do
  case $line in
    'bundle '*)
      rest=${line#bundle }
      name=${rest%% *}
      bytes "${rest#"$name"}" > "$work/bundle-$name"
      ;;
    'more '*) bytes "${line#more }" >> "$work/bundle-$name" ;;
    'case '*)
      rest=${line#case }
      input=${rest%% |*}
      rest=${rest#*| }
      try "$input" "${rest%%|*}" "${rest##*| }"
      ;;
  esac
done < samples/words.txt

# The longest chain: 1,025 names of five digits, 64511 to 65535, with an edge from each to the next.
edge() {
  printf '62 %02x%02x %02x%02x 00' $(($1 % 256)) $(($1 / 256)) $((($1 + 1) % 256)) $((($1 + 1) / 256))
}
bytes "$(n=64511; while [ $n -lt 65535 ]; do edge $n; n=$((n + 1)); done)" > "$work/edges"
{ bytes '60 0000 0004 0000'; cat "$work/edges"; } > "$work/bundle-longest"
cp "$work/bundle-longest" "$work/input"
from=longest
to=
n=64511
while [ $n -le 65535 ]; do echo $n; n=$((n + 1)); done > "$work/due"
cp "$work/due" "$work/due-chain"
run chain 64511 65535
compare 'longest, chain 64511 65535' "$work/nothing" "$work/nothing"
try longest 'chain 65535 64511' lines
{ echo 1024; cat "$work/due-chain"; } > "$work/due"
cp "$work/bundle-longest" "$work/input"
run followed 64511 65535
compare 'longest, followed 64511 65535' "$work/nothing" "$work/nothing"
try longest 'followed 64511 1' 'lines 1025'
try longest 'followed 65535 64511' 'lines 1'
try longest 'followed 64511 64513' 'lines 2 64511 64512 64513'

# A report of 64,914 bytes: 21 arrays 65535, each sized by 64511.1, from which that chain leads to it. One more is over the room.
arrays() {
  bytes "60 $1 0004 0000"
  n=0
  while [ $n -lt $2 ]; do bytes '61 ffff 44 00 0000000000000000 00 0a fffb 0100 30'; n=$((n + 1)); done
  cat "$work/edges"
}
bytes "$(n=64511; while [ $n -le 65535 ]; do printf '7f%02x%02x' $((n % 256)) $((n / 256)); n=$((n + 1)); done)" > "$work/chain"
{
  bytes '70 1500'
  d=0
  while [ $d -lt 21 ]; do bytes "$(printf '73 %02x00 ffff 02 fffb 0100 0000 0000 0104' $d)"; cat "$work/chain"; d=$((d + 1)); done
} > "$work/due"
arrays 1500 21 > "$work/input"
from=arrays
run
compare 'arrays, 21' "$work/nothing" "$work/nothing"
arrays 1600 22 > "$work/bundle-arrays"
try arrays '' 'bytes 7e 09'

# The most that is written: a struct of 4,294,900,000 bytes and 8,181 more, with offsets of ten digits.
{
  bytes '60 0100 0000 0000 61 0100 41 00 0000000000000000 f61f 50 0a00 44 00 0000000000000000 00 02 20f9feff 30'
  bytes "$(n=0; while [ $n -lt 8181 ]; do printf '500a0030'; n=$((n + 1)); done)"
} > "$work/bundle-widest"
cp "$work/bundle-widest" "$work/input"
from=widest
{ echo 4294908181; echo 1; echo 0; n=0; while [ $n -lt 8181 ]; do echo $((4294900000 + n)); n=$((n + 1)); done; } > "$work/due"
run size 0
compare 'widest, size 0' "$work/nothing" "$work/nothing"

# A bundle of more than 32,768 bytes, and an argument of more than 4,096.
head -c 32769 /dev/zero > "$work/bundle-overlong"
try overlong renumber 'bytes 7e 01'
try overlong 'chain 1 1' 'bytes 7e 01'
try overlong 'followed 1 1' 'bytes 7e 01'
try overlong 'size 0' 'bytes 7e 01'
try overlong 'value 0' 'bytes 7e 01'
try edges "chain 7 $(printf '%04097d' 9)" wrong
try edges "followed 7 $(printf '%04097d' 9)" wrong
echo "$passed passed, $failed failed"
[ "$failed" -eq 0 ]
