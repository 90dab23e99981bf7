#!/usr/bin/env bash
# Times a month from its file to its statement, by the archive and by the second settlement.
set -euo pipefail

source "$(dirname "${BASH_SOURCE[0]}")/../tools/archive.sh"
cd "$root/second"
cargo run --release --offline --features archive --bin bench
