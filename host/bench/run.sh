#!/bin/sh
# The timings with everything at fixed places: each function of the archive, and each loop of the programs, begins at a multiple
# of 64 bytes. Otherwise the linker moves them by 16 from link to link, and short calls differ by much more than what is measured.
# Words go to bench. CEROMBY_LIB_DIR names another directory with libceromby.a.
set -eu
cd "$(dirname "$0")/.."
room="$(mktemp -d)"
trap 'rm -rf "$room"' EXIT
objcopy --set-section-alignment '.text*=64' "${CEROMBY_LIB_DIR:-$(../.ci/built archive)}/libceromby.a" "$room/libceromby.a"
export CEROMBY_LIB_DIR="$room" CARGO_TARGET_DIR=target/bench RUSTFLAGS='-C llvm-args=-align-loops=64 -C llvm-args=-align-all-functions=6'
cargo build --offline --release --quiet -p bench
target/bench/release/bench "$@"
