#!/bin/sh
# The stack of every exported function in bytes, the most over the stored sheets of the fuzz targets and what stack.c makes. Ends with 1 where the
# library exports a function that is not measured. usage: tools/bench/stack/run.sh
set -eu
cd "$(dirname "$0")/../../.."
[ -n "${DISPATCH_BENCH_LIB:-}" ] || tools/library >/dev/null
library=${DISPATCH_BENCH_LIB:-target/staticlib}/libdispatch_bench.a
out=target/bench_stack
mkdir -p "$out"
cc -std=c11 -O2 -Wall -Wextra -Werror -Iinclude -Ifuzz tools/bench/stack/stack.c fuzz/sheet.c "$library" -o "$out/stack"
"$out/stack" fuzz/corpus_pass/* >"$out/measured"
cat "$out/measured"
nm "$library" 2>/dev/null | sed -n 's/.* T \(dispatch_bench_[a-z_]*\)$/\1/p' | sort >"$out/exported"
awk '{ print $1 }' "$out/measured" | sort | diff - "$out/exported" >"$out/missing" && exit 0
echo "not measured:" >&2
sed -n 's/^> //p' "$out/missing" >&2
exit 1
