#!/usr/bin/env bash
# Builds the driver over the proved library, and runs it. Needs rustc and an x86-64 machine.
set -eu
cd "$(dirname "$0")/../../.."
tools/library
mkdir -p target/bench
rustc -O -o target/bench/matcher tools/bench/matcher/main.rs -L target/staticlib -l static=dispatch_bench
exec target/bench/matcher
