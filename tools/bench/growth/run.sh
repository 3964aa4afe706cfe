#!/usr/bin/env bash
# How the time of a pass grows with riders, cars and stops, the proved library beside the published Rust: a table, and its picture.
# Needs what tools/compare needs (tools/oracle/README.md), the published files where ELEVATOR_CORE_SRC says.
# usage: tools/bench/growth/run.sh FILE.svg [ROUNDS]
set -eu
if [ $# -lt 1 ]; then
    echo "usage: tools/bench/growth/run.sh FILE.svg [ROUNDS]" >&2
    exit 2
fi
if [ ! -d "${ELEVATOR_CORE_SRC:-}/crates/elevator-core/src" ]; then
    echo "nothing timed: set ELEVATOR_CORE_SRC to the folder that holds crates/elevator-core/src, the published files" >&2
    exit 2
fi
ELEVATOR_CORE_SRC=$(realpath "$ELEVATOR_CORE_SRC")
export ELEVATOR_CORE_SRC
picture=$(realpath -m "$1")
cd "$(dirname "$0")/../../.."
tools/library >/dev/null
mkdir -p target/compare
cc -shared -o target/compare/bench.so -Wl,--whole-archive target/staticlib/libdispatch_bench.a -Wl,--no-whole-archive
(cd tools/oracle && cargo build --release -j1 --quiet)
exec tools/oracle/target/release/oracle growth "$PWD/target/compare/bench.so" "$picture" "${2:-9}"
