#!/usr/bin/env bash
# The second program, written from documents 01 and 02 alone: its own tests, then random logs of a fixed seed, of which every
# printed line, replay, tally and heap is compared with what the proved program says, and for some of them one field's bytes. A
# planted fault shows that the comparison can fail.
#
#     tests/second.sh [SEED COUNT]     any number of logs from any seed
set -eu
cd "$(dirname "$0")/.."
seed=${1:-20240501}
count=${2:-2500}
if ! command -v cargo >/dev/null 2>&1; then
    apt-get update -qq >/dev/null && apt-get install -y -qq cargo >/dev/null
fi
cargo test --quiet --offline --manifest-path second/Cargo.toml
cargo build --quiet --release --offline --manifest-path second/Cargo.toml
second=second/target/release/second
$second vectors second/vectors/order-04.tsv
$second check "$seed" 500
$second compare "$seed" "$count" ./thawhazel batch
$second shows "$seed" 60 ./thawhazel
if $second --fault unset_selectors compare "$seed" 200 ./thawhazel batch >/dev/null 2>&1; then
    echo "a planted fault was not found"
    exit 1
fi
echo "a planted fault is found"
