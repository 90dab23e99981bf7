# For the scripts that call the archive, which source this file: has `root`, builds the archive where the prover is at hand, and lets
# cargo build below target/. NOKETUALO_ARCHIVE names another archive, which is then taken as it is.
root=$(cd "$(dirname "${BASH_SOURCE[0]}")/.." && pwd)
export CARGO_TARGET_DIR="$root/target/cargo"

if [[ -n "${NOKETUALO_ARCHIVE:-}" ]]; then
    NOKETUALO_ARCHIVE=$(realpath -- "$NOKETUALO_ARCHIVE")
    export NOKETUALO_ARCHIVE
elif command -v rt >/dev/null; then
    (cd "$root/crates/host" && rt lib)
fi
