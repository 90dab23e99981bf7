#!/usr/bin/env bash
# Fuzzes the archive's three calls against the second settlement's, for 60 seconds or as many as its
# word says: second/fuzz/run.sh 600
# Needs clang with its fuzzer and address sanitizer: in Debian 12 the packages clang and
# libclang-rt-14-dev. It installs nothing; all that it makes lies in target/fuzz.
# NOKETUALO_ARCHIVE names another archive to fuzz, NOKETUALO_FUZZ_FOLDER another folder to work in,
# CC another clang.
set -euo pipefail

seconds=${1:-60}
second=$(cd "$(dirname "${BASH_SOURCE[0]}")/.." && pwd)
archive=${NOKETUALO_ARCHIVE:-$second/../crates/host/out/libhost.a}
clang=${CC:-clang}
work=${NOKETUALO_FUZZ_FOLDER:-$second/../target/fuzz}

if ! command -v "$clang" >/dev/null; then
    echo "There is no $clang: install the packages clang and libclang-rt-14-dev." >&2
    exit 1
fi
if [[ ! -f "$archive" ]]; then
    echo "There is no archive $archive: run \`rt lib\` in the folder crates/host." >&2
    exit 1
fi

mkdir -p "$work/corpus"
work=$(realpath -- "$work")
archive=$(realpath -- "$archive")
cd "$second"
export CARGO_TARGET_DIR="$work/cargo"

# The archive counts no branches of its own, so those of the second settlement lead the fuzzer.
cargo rustc --release --offline --lib --crate-type staticlib -- \
    -Ccodegen-units=1 \
    -Cpasses=sancov-module \
    -Cllvm-args=-sanitizer-coverage-level=3 \
    -Cllvm-args=-sanitizer-coverage-inline-8bit-counters \
    -Cllvm-args=-sanitizer-coverage-pc-table \
    -Cllvm-args=-sanitizer-coverage-trace-compares
"$clang" -O1 -g -Wall -Wextra -fsanitize=fuzzer,address fuzz/harness.c \
    "$archive" "$work/cargo/release/libsecond.a" -lpthread -ldl -lm -o "$work/fuzzer"

# A start for a fuzzer that has none: months and damaged files, and case S, which is edit 198.
if [[ -z "$(ls -A "$work/corpus")" ]]; then
    cargo build --release --offline --bin made
    for index in $(seq 0 199); do
        for kind in month damaged; do
            "$work/cargo/release/made" 1 "$kind" "$index" >"$work/corpus/$kind-$index"
        done
    done
    "$work/cargo/release/made" 1 edit 198 >"$work/corpus/case-s"
    # 100 cents by 1, 2, 4, room for three, and 14, 29, 57 to check
    printf '/\x18\x00\x18\x00\x18\x00d\0\0\0\0\0\0\0\x01\0\0\0\0\0\0\0\x02\0\0\0\0\0\0\0\x04\0\0\0\0\0\0\0\x0e\0\0\0\0\0\0\0\x1d\0\0\0\0\0\0\0\x39\0\0\0\0\0\0\0' \
        >"$work/corpus/division"
fi

exec "$work/fuzzer" -dict=fuzz/month.dict -max_len=66000 -max_total_time="$seconds" \
    -artifact_prefix="$work/" -print_final_stats=1 "$work/corpus"
