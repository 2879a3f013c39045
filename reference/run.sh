#!/usr/bin/env bash
# Builds the programs, and the loader in C, and compares them with the reference: reference/run.sh [SEED [COUNT]].
# The last line is the result.
set -eu
cd "$(dirname "$0")/.."
examples=$PWD/examples

# build PROGRAM ARGUMENTS..: proves and builds a program, if that was not done here
build() {
  local program=$1
  shift
  [ -x "crates/$program/out/$program" ] || (cd "crates/$program" && rt run -- "$@" >&2)
}

build seek "$examples/two-equal-naturals.bin"
build replay_model "$examples/two-equal-naturals.bin" "$examples/two-equal-naturals.two.model"
c/build.sh c/out >&2
python3 reference/compare.py --loader c/out/loader --seed "${1:-1}" --count "${2:-2000}"
