#!/bin/sh
# The store: its tests, the attempts to break it, its documentation, and what its build says where SQLite is missing. --full makes
# the attempts at full size, which takes long, and nothing else. CEROMBY_LIB_DIR names another directory with libceromby.a.
set -eu
cd "$(dirname "$0")/.."
export CARGO_NET_OFFLINE=true
if [ "${1:-}" = --full ]; then
    exec cargo test --quiet --release -p ceromby-store --test breaking -- --full
fi
room="$(mktemp -d)"
trap 'rm -rf "$room"' EXIT
cargo test --quiet --release -p ceromby-store >"$room/log" 2>&1 || { cat "$room/log"; exit 1; }
grep -E '^(kill|processes|limit|flips|power|faults): ' "$room/log"
RUSTDOCFLAGS='-D warnings' cargo doc --quiet -p ceromby-store --no-deps
cargo build --quiet --release -p ceromby-store --example bench

# a C compiler that finds no SQLite
mkdir "$room/bin"
real=$(command -v cc)
printf '#!/bin/sh\ncase " $* " in *" -lsqlite3 "*) exit 1 ;; esac\nexec %s "$@"\n' "$real" >"$room/bin/cc"
chmod +x "$room/bin/cc"
if PATH="$room/bin:$PATH" cargo check --quiet --target-dir "$room/target" -p ceromby-store >"$room/said" 2>&1; then
    echo "the store builds without SQLite"
    exit 1
fi
grep -q "Debian's libsqlite3-dev" "$room/said" || { cat "$room/said"; exit 1; }
echo "the store's build says which package is missing"
