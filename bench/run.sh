#!/usr/bin/env bash
# Prints the times of the archive's division and check beside those of plain ones.
set -euo pipefail

source "$(dirname "${BASH_SOURCE[0]}")/../tools/archive.sh"
cargo run --release --offline --manifest-path "$root/bench/Cargo.toml"
