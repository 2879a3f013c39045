#!/usr/bin/env bash
# The C loader on every example, with either chooser: it prints what `seek` prints, by the C library's memory and by lent memory;
# valgrind finds no wrong access and no leak; and with memory that gives out at any allocation it is refused and leaks nothing.
# Usage: tests/loader.sh; builds what it runs.
set -euo pipefail
cd "$(dirname "$0")/.."
out=$(mktemp -d)
trap 'rm -rf "$out"' EXIT
c/build.sh "$out" >"$out/built" 2>&1 || { cat "$out/built"; exit 1; }
(cd crates/seek && rt run -- ../../examples/two-equal-naturals.bin >/dev/null)
gcc -std=c11 -O2 -g -Wall -Wextra -Werror -Iinclude tests/lent.c c/lent.c "$out/libfinder.a" "$out/libheap_lent.a" -o "$out/lent"
tried=0
failed=0
wrong() {
  echo "$1"
  failed=$((failed + 1))
}
for problem in examples/*.bin; do
  for chooser in --plain --learning; do
    tried=$((tried + 1))
    crates/seek/out/seek $chooser "$problem" >"$out/wanted"
    for loader in loader loader-malloc; do
      status=0
      "$out/$loader" $chooser "$problem" >"$out/told" || status=$?
      cmp -s "$out/told" "$out/wanted" || wrong "$loader $chooser $problem prints something else"
      case $(tail -n 1 "$out/wanted") in
        refused*) wanted=3 ;;
        unknown*) wanted=1 ;;
        *SPENT*) wanted=2 ;;
        *) wanted=0 ;;
      esac
      [ $status = $wanted ] || wrong "$loader $chooser $problem ends with $status and not with $wanted"
    done
    valgrind -q --error-exitcode=99 --leak-check=full --show-leak-kinds=all --errors-for-leak-kinds=all \
      "$out/loader-malloc" $chooser "$problem" >"$out/told" 2>"$out/valgrind" || [ $? != 99 ] || {
      cat "$out/valgrind"
      wrong "valgrind: $chooser $problem"
    }
    cmp -s "$out/told" "$out/wanted" || wrong "under valgrind $chooser $problem prints something else"
  done
done
"$out/lent" examples/two-equal-naturals.bin || wrong "with too little memory"
echo "$tried runs, $failed failed"
[ $failed = 0 ]
