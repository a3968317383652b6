#!/bin/sh
# The tool and the session under it: tests, documentation, and the script ./ceromby with an rt and a cargo of the test's own.
# CEROMBY_LIB_DIR names another directory with libceromby.a.
set -eu
cd "$(dirname "$0")/.."
export CARGO_NET_OFFLINE=true
cargo test --quiet -p ceromby-session -p ceromby-tool
RUSTDOCFLAGS='-D warnings' cargo doc --quiet -p ceromby-session -p ceromby-tool --no-deps
tool/tests/script.sh
