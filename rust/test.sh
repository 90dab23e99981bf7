#!/usr/bin/env bash
# Runs every test that calls the archive.
set -euo pipefail

source "$(dirname "${BASH_SOURCE[0]}")/../tools/archive.sh"
cd "$root/rust"
cargo test --release --offline
