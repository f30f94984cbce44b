#!/usr/bin/env bash
# Runs `card` on a small feed of each format, and of each rate code, and compares what it prints with the second program, byte for byte. Sound as
# floating-point instants must give the containers that the same sound gives as blocks.
# The feeds are made as they are needed (tools/sample-feed). Needs `card` (tools/program card) and the second program:
#   cargo build --release --offline --manifest-path second/Cargo.toml --target-dir target/second
set -euo pipefail
cd "$(dirname "$0")/.."
card=$(tools/program card)
second=${1:-target/second/release/second}
folder=$(mktemp -d)
trap 'rm -rf "$folder"' EXIT
count=0

try() {
  tools/sample-feed "$@" > "$folder/feed"
  "$card" < "$folder/feed" > "$folder/card"
  "$second" < "$folder/feed" > "$folder/second"
  if ! cmp -s "$folder/card" "$folder/second"; then
    echo "feeds: sample-feed $*: card and the second program differ" >&2
    diff "$folder/second" "$folder/card" | head -n 5 >&2 || true
    exit 1
  fi
  if ! grep -q '^line 0 field [0-9]' "$folder/card" || ! grep -q '^pack 0' "$folder/card"; then
    echo "feeds: sample-feed $*: no fingerprint or no container came" >&2
    exit 1
  fi
  if ! awk '/brighter/ { up += $6 > $8; down += $6 < $8 } END { exit !(up && down) }' "$folder/card"; then
    echo "feeds: sample-feed $*: no field has more brighter pixels than darker ones, or none has fewer" >&2
    exit 1
  fi
  count=$((count + 1))
}

# The same sound as blocks and as instants.
one_sound() {
  try "$@"
  grep '^pack' "$folder/card" > "$folder/blocks"
  try "$@" --float
  if grep -q '^sound' "$folder/card" || ! grep -q '^instant 0' "$folder/card" || grep -q '^instant [1-9]' "$folder/card"; then
    echo "feeds: sample-feed $* --float: a block, no instant or a refused one came" >&2
    exit 1
  fi
  if ! grep '^pack' "$folder/card" | cmp -s - "$folder/blocks"; then
    echo "feeds: sample-feed $*: instants and blocks of one sound give other containers" >&2
    exit 1
  fi
  # 0 mono with set bits, 1 stereo with clear ones
  if ! grep -Eq '011[08]ffff' "$folder/blocks" || ! grep -Eq '0a1[08]0000' "$folder/blocks"; then
    echo "feeds: sample-feed $*: the sound has bits of one value only" >&2
    exit 1
  fi
}

for format in 0 1 2 3 4 5 6 7; do
  try --format "$format" --frames 5 --prints 5
done
for rate in 2 3 4 5 6 7 8 9 10 11; do
  try --format 2 --rate "$rate" --frames 45 --prints 2
done
try --format 3 --frames 4 --prints 32
# Fingerprints of all three mix types, at a rate with D = 50 and one with D = 52.
one_sound --format 2 --rate 9 --frames 20 --prints 5
one_sound --format 2 --rate 10 --frames 20 --prints 5
# By the second mixing rule (02, A9).
one_sound --format 2 --rate 9 --frames 20 --prints 5 --rule 2
# The lines to which `make run` holds card before it is proved.
tools/sample-feed --frames 3 | "$second" | cmp - examples/three-frames.txt
# A program that prints the right lines and then fails is different to tools/compare.
printf '#!/bin/sh\n"%s"\nexit 3\n' "$PWD/$card" > "$folder/failing"
chmod +x "$folder/failing"
if tools/compare "$folder/failing" --second "$second" --kinds write --seeds 1 > "$folder/said" 2>&1 || ! grep -q 'ended with status 3' "$folder/said"; then
  echo "feeds: tools/compare does not see that a program fails" >&2
  exit 1
fi
rm -f target/fuzz/write-1.*
echo "feeds: $count feeds alike"
