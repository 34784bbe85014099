#!/usr/bin/env bash
# Builds the static library of the exported calls and the program that compares it, and runs that.
set -euo pipefail
cd "$(dirname "$0")/.."
(cd crates/exports && rt lib)
mkdir -p target
rustc -O --edition 2024 -L native=crates/exports/out -o target/harness harness/main.rs
target/harness
