#!/usr/bin/env bash
# Holds the second settlement to the paper's figures and the makers to what they promise to reach.
# It needs no archive.
set -euo pipefail

root=$(cd "$(dirname "${BASH_SOURCE[0]}")/.." && pwd)
export CARGO_TARGET_DIR="$root/target/cargo"
cd "$root/second"
cargo test --release --offline
