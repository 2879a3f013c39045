#!/usr/bin/env bash
# How long searches take, with either chooser, and how long cvc5 takes for the same problems where it is installed: palindromes, sorted
# lists, sorting, reversal; then a problem that fills the table of unknowns and some with many rounds, and how the time of a round grows.
# bench/beside_cvc5.py says what is told and compared. There are no problems of 65,535 rounds: a conflict that a case explains spends at
# least 3 of the 32,768 entries that seek gives its chooser.
set -eu
cd "$(dirname "$0")/.."
for program in seek replay_model; do
  [ -x "crates/$program/out/$program" ] || (cd "crates/$program" && rt run >/dev/null)
done
work=$(mktemp -d)
trap 'rm -r "$work"' EXIT
python3 bench/seeking.py "$work"
python3 bench/beside_cvc5.py "$work" "$PWD/crates/seek/out/seek" "$PWD/crates/replay_model/out/replay_model"
