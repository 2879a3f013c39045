#!/usr/bin/env bash
# How many bytes a second the check takes, at 1, 4 and 16 KiB. The rates should lie within a factor of 2 of each other.
set -eu
cd "$(dirname "$0")/.."
bench=$PWD/crates/check_bench/out/check_bench
[ -x "$bench" ] || (cd crates/check_bench && rt run >/dev/null)
for _ in 1 2 3; do
  ( ulimit -s 8192; "$bench" "${1:-20000}" )
done
