#!/usr/bin/env bash
# Builds the finder as a static library and the loader over it: c/build.sh [FOLDER], c/out if none is named.
#   libfinder.a     the library, proved before it is built
#   loader          allocates from memory that it lends (c/lent.c), and from nothing else
#   loader-malloc   allocates by the C library
set -euo pipefail
cd "$(dirname "$0")/.."
out=${1:-c/out}
kit=$(dirname "$(dirname "$(readlink -f "$(command -v rt)")")")
mkdir -p "$out"
(cd crates/loader_c && rt lib)
cp crates/loader_c/out/libloader_c.a "$out/libfinder.a"
cp "$kit/c/liblibc_c.a" "$out/libheap.a"
objcopy --redefine-sym malloc=lent_malloc --redefine-sym realloc=lent_realloc --redefine-sym free=lent_free \
  "$out/libheap.a" "$out/libheap_lent.a"
flags=(-std=c11 -O2 -g -Wall -Wextra -Wpedantic -Werror -Iinclude)
gcc "${flags[@]}" -DLENT c/loader.c c/lent.c "$out/libfinder.a" "$out/libheap_lent.a" -o "$out/loader"
gcc "${flags[@]}" c/loader.c "$out/libfinder.a" "$out/libheap.a" -o "$out/loader-malloc"
