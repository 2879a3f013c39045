#!/usr/bin/env bash
# How many steps a second the judge takes: unary addition, list reversal and a chain of cases with 16 branches, each at a size
# and at twice it; then the deepest recursions, which have to end within 8 MiB of stack.
set -eu
cd "$(dirname "$0")/.."
bench=$PWD/crates/judge_bench/out/judge_bench
[ -x "$bench" ] || (cd crates/judge_bench && rt run >/dev/null)
work=$(mktemp -d)
trap 'rm -r "$work"' EXIT
python3 bench/judging.py "$work"
ulimit -s 8192
for f in addition-250 addition-500 reversal-15 reversal-30 chain-500 chain-1000; do
  printf '%s: ' "$f"
  "$bench" "$work/$f.bin" "${1:-10000}"
done
for f in nested-not nested-and nested-equal nested-case nested-calls; do
  printf '%s: ' "$f"
  "$bench" "$work/$f.bin"
done
