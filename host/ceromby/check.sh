#!/bin/sh
# The binding: its tests and doctests, its examples with what they print, without std, its documentation, and what it says where
# there is no archive. CEROMBY_LIB_DIR names another directory with libceromby.a.
set -eu
cd "$(dirname "$0")/.."
room="$(mktemp -d)"
trap 'rm -rf "$room"' EXIT
export CARGO_NET_OFFLINE=true
cargo test --quiet -p ceromby
cargo build --quiet -p ceromby --no-default-features --lib
RUSTDOCFLAGS='-D warnings' cargo doc --quiet -p ceromby --no-deps
for example in day plan barge throughput; do
    cargo run --quiet -p ceromby --example $example >"$room/printed"
    diff -u ceromby/examples/$example.txt "$room/printed"
done
echo "examples of the binding print what is stored"

# missing DIR WORDS [FOLDER]: with that CEROMBY_LIB_DIR, or none, the build in the folder fails and says so
missing() {
    if (
        [ -n "$1" ] || unset CEROMBY_LIB_DIR
        cd "${3:-.}" && ${1:+env CEROMBY_LIB_DIR="$1"} cargo check --quiet -p ceromby
    ) >"$room/said" 2>&1; then
        echo "the binding builds with CEROMBY_LIB_DIR=$1"
        exit 1
    fi
    if ! grep -q "$2" "$room/said"; then
        echo "with CEROMBY_LIB_DIR=$1 the binding doesn't say: $2"
        cat "$room/said"
        exit 1
    fi
}
missing "$room/none" 'which has no libceromby.a'
missing "$room/none" 'rt lib'
missing crates/ceromby/out 'absolute path'
mkdir -p "$room/clone/host"
cp -R ceromby "$room/clone/host"
missing '' '/crates/ceromby && rt lib' "$room/clone/host/ceromby"
