#!/bin/sh
# Writes NAME.report and NAME.expected beside each sample, with the original as
# the source: the oracle (tools/oracle/build.sh) gives the report's bytes, and
# layout-text puts them into words as they are given, whatever the library says
# that is linked to it. Writes NAME.sizes beside each sample that is not refused,
# the answers in each NAME.chain to the pairs of names that stand in it, and
# sizes-fixed.svg, with the oracle's second implementation as the source:
# layout-text is built over the stand-in (tools/bench/standin/build.sh) first.
# Usage: samples/make-expected.sh
set -eu
cd "$(dirname "$0")/.."
tool=tools/layout-text/target/layout-text
work=tools/layout-text/target/samples
tools/layout-text/build.sh tools/bench/target/liblayout_c.a
mkdir -p "$work"
. samples/list.sh

for name in $names; do
  bundle $name > "$work/bundle"
  tools/oracle/target/oracle report < "$work/bundle" > "$work/report"
  # An exit code other than 0 tells of violations or a refusal.
  "$tool" explain "$work/bundle" --names "$(text $name)" --report "$work/report" --as-given --hex \
    > "samples/$name.report" || [ $? -le 2 ]
  "$tool" explain "$work/bundle" --names "$(text $name)" --report "$work/report" --as-given \
    > "samples/$name.expected" || [ $? -le 2 ]
  if "$tool" sizes "$work/bundle" --names "$(text $name)" > "$work/sizes"; then
    cp "$work/sizes" "samples/$name.sizes"
  else
    [ $? -eq 2 ]
  fi
  if [ -f "samples/$name.chain" ]; then
    chains $name "$work/bundle" --names "$(text $name)" > "$work/chains"
    cp "$work/chains" "samples/$name.chain"
  fi
done
"$tool" sizes samples/sizes-fixed.layout display_frame --svg -o samples/sizes-fixed.svg
