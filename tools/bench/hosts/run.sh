#!/bin/sh
# A pass through C, the Rust crate and the Python package, on the same sheets of ETD, the hosts in turns: the least of ROUNDS, microseconds a pass, and
# beside C. usage: tools/bench/hosts/run.sh [ROUNDS]
set -eu
cd "$(dirname "$0")/../../.."
rounds=${1:-9}
[ -n "${DISPATCH_BENCH_LIB:-}" ] || tools/library >/dev/null
DISPATCH_BENCH_LIB=$(realpath "${DISPATCH_BENCH_LIB:-target/staticlib}")
out=$PWD/target/bench_hosts
DISPATCH_BENCH_SO=$out/libdispatch_bench.so
export DISPATCH_BENCH_LIB DISPATCH_BENCH_SO
mkdir -p "$out"
library=$DISPATCH_BENCH_LIB/libdispatch_bench.a
cc -std=c11 -O2 -Wall -Wextra -Werror -Iinclude tools/bench/hosts/pass.c "$library" -o "$out/pass"
cc -shared -o "$DISPATCH_BENCH_SO" -Wl,--whole-archive "$library" -Wl,--no-whole-archive
(cd tools/bench/hosts && cargo build --release --offline -j1 --quiet --target-dir "$out/cargo")
hosts=$out/cargo/release/hosts
"$hosts" make "$out"
: >"$out/times"
while [ "$rounds" -gt 0 ]; do
    {
        "$out/pass" "$out"
        "$hosts" time "$out"
        PYTHONPATH=python python3 tools/bench/hosts/pass.py "$out"
    } >>"$out/times"
    rounds=$((rounds - 1))
done
awk '{ key = $1 " " $2; if (!(key in least) || $3 < least[key]) least[key] = $3 }
     END { sizes = split("small typical full", size, " "); hosts = split("C pass_into pass Python", host, " ")
           printf "%-9s%-11s%10s%8s\n", "sheet", "host", "us a pass", "/ C"
           for (i = 1; i <= sizes; i++) for (k = 1; k <= hosts; k++) {
               time = least[size[i] " " host[k]]
               printf "%-9s%-11s%10.2f%8.2f\n", size[i], host[k], time, time / least[size[i] " C"] } }' "$out/times"
