#!/usr/bin/env bash
# Tries the planted bugs of tests/edits, which the gate leaves out to save time: each must be refused, as a must-fail edit is.
# It works in a copy of the repository. An argument names one crate.
set -eu
cd "$(dirname "$0")/.."
copy=$(mktemp -d)
trap 'rm -r "$copy"' EXIT
cp -r crates crates.txt "$copy"
rm -f "$copy"/crates/*/must-fail/*.edit
for folder in tests/edits/${1:-*}; do
  crate=$(basename "$folder")
  mkdir -p "$copy/crates/$crate/must-fail"
  cp "$folder"/*.edit "$copy/crates/$crate/must-fail/"
done
cd "$copy"
rt must-fail
