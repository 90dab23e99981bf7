#!/usr/bin/env bash
# Compares the archive's statements with the second settlement's: second/compare.sh [SEED [COUNT]]
set -euo pipefail

source "$(dirname "${BASH_SOURCE[0]}")/../tools/archive.sh"
cd "$root/second"
cargo run --release --offline --features archive --bin compare -- "${1:-1}" "${2:-100000}"
