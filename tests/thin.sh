#!/bin/sh
# The crate tallied is two thin calls over the crate judge: the check walks through both by itself, and no proof is written by hand.
# A file below crates/tallied/proofs would say that one of them does more than hand on, and it fails this test.
set -eu
cd "$(dirname "$0")/.."
by_hand=$(find crates/tallied -name '*.antt' -not -path '*/out/*' 2>/dev/null)
if [ -n "$by_hand" ]; then
    echo "thin: the crate tallied has proofs or definitions of its own: $by_hand"
    exit 1
fi
grep -q '^tallied:' crates.txt || { echo 'thin: crates.txt does not list tallied, so nothing proves it'; exit 1; }
echo 'thin: the crate tallied is proved with no proof by hand'
