#!/usr/bin/env bash
# One call of the travel time, of each path: the proved library beside the published eta.rs, on the same runs in one process.
# Needs what tools/compare needs (tools/oracle/README.md), the published files where ELEVATOR_CORE_SRC says. usage: tools/bench/travel/run.sh [ROUNDS]
set -eu
if [ ! -d "${ELEVATOR_CORE_SRC:-}/crates/elevator-core/src" ]; then
    echo "nothing timed: set ELEVATOR_CORE_SRC to the folder that holds crates/elevator-core/src, the published files" >&2
    exit 2
fi
ELEVATOR_CORE_SRC=$(realpath "$ELEVATOR_CORE_SRC")
export ELEVATOR_CORE_SRC
cd "$(dirname "$0")/../../.."
tools/library >/dev/null
mkdir -p target/compare
cc -shared -o target/compare/bench.so -Wl,--whole-archive target/staticlib/libdispatch_bench.a -Wl,--no-whole-archive
(cd tools/oracle && cargo build --release -j1 --quiet)
exec tools/oracle/target/release/oracle travel time "$PWD/target/compare/bench.so" "${1:-99}"
