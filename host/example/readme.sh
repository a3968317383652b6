#!/bin/sh
# README's first programs, in C and in Rust, taken out of it and built by the commands that it gives, in a folder that looks like
# a clone: both must print what it says. CEROMBY_LIB_DIR names another directory with libceromby.a.
set -eu
cd "$(dirname "$0")/../.."
root=$(pwd)
lib="${CEROMBY_LIB_DIR:-$(.ci/built archive)}"
room="$(mktemp -d)"
trap 'rm -rf "$room"' EXIT

# block LANGUAGE: the first fenced block of that language
block() {
    awk -v begin="\`\`\`$1" '$0 == begin { on = 1; next } on && $0 == "```" { exit } on' "$root/README.md"
}
# command WORDS: the indented line that begins with these words, and no other
command_line() {
    found=$(sed -n "s/^    \($1 .*\)/\1/p" "$root/README.md")
    if [ "$(printf '%s\n' "$found" | wc -l)" -ne 1 ] || [ -z "$found" ]; then
        echo "README has not one line that begins with $1" >&2
        exit 1
    fi
    printf '%s\n' "$found"
}

mkdir -p "$room/ceromby/crates/ceromby"
ln -s "$root/include" "$root/host" "$room/ceromby"
ln -s "$lib" "$room/ceromby/crates/ceromby/out"
block text >"$room/due"
cd "$room/ceromby"

block c >first.c
cc -std=c11 -Wall -Wextra -Wpedantic -Werror -I include -c -o "$room/first.o" first.c
sh -c "$(command_line 'cc -I include')" >"$room/printed"
diff -u "$room/due" "$room/printed"

export CEROMBY_LIB_DIR="$lib" CARGO_NET_OFFLINE=true
sh -c "$(command_line 'cargo new')" 2>"$room/log" || { cat "$room/log"; exit 1; }
cd ../feed
block rust >src/main.rs
cargo fmt --check
cargo run --quiet >"$room/printed"
diff -u "$room/due" "$room/printed"
echo "README's first programs build by its commands and print what it says"
