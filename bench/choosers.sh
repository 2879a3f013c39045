#!/usr/bin/env bash
# How long the choosers take beside MiniSat: random 3-SAT, pigeonholes, groups as sessions make them, and a thousand questions
# with a clause added between two of them. The answers have to be the same, and each random set has to have both. Times are user
# seconds of a family, medians of REPEATS (5) runs; COUNT=1 counts instructions too.
#
# MINISAT_SOURCE names the folder of MiniSat's sources (the one that has minisat/core/Solver.h; Debian: apt-get source minisat2),
# since Debian packages its program alone. Without it the learning chooser is held against the plain one.
set -eu
cd "$(dirname "$0")/.."
bench=$PWD/crates/chooser_bench/out/chooser_bench
[ -x "$bench" ] || (cd crates/chooser_bench && rt run >/dev/null)
work=$(mktemp -d)
trap 'rm -r "$work"' EXIT
python3 bench/choosing.py "$work/scripts"
minisat=
if [ -n "${MINISAT_SOURCE:-}" ]; then
  minisat=$work/minisat
  g++ -O3 -w -fpermissive -D __STDC_LIMIT_MACROS -D __STDC_FORMAT_MACROS -I "$MINISAT_SOURCE" bench/asks.cc \
    "$MINISAT_SOURCE"/minisat/core/Solver.cc "$MINISAT_SOURCE"/minisat/utils/Options.cc "$MINISAT_SOURCE"/minisat/utils/System.cc \
    -lz -o "$minisat"
fi
python3 bench/beside_minisat.py "$work/scripts" "$bench" $minisat
