#!/usr/bin/env bash
# The script ./ceromby in a tree of its own, where rt and cargo are scripts that say what they were asked: what it builds and when,
# what it says, and the status that it ends with.
set -euo pipefail
root=$(cd "$(dirname "$0")/../../.." && pwd)
room=$(mktemp -d)
trap 'rm -rf "$room"' EXIT
unset CEROMBY_LIB_DIR
mkdir -p "$room/bin" "$room/tree/crates/laws" "$room/tree/crates/ceromby" "$room/tree/crates/other" "$room/tree/host/tool/src"
cd "$room/tree"
cp "$root/ceromby" .
printf '# a remark: not a crate\nlaws:\nother: laws\nceromby staticlib: laws\n' >crates.txt
touch crates/laws/lib.rt crates/ceromby/lib.rt crates/other/lib.rt host/tool/src/main.rs
cat >"$room/bin/rt" <<'END'
#!/bin/sh
echo "rt $*" >>"$ASKED"
[ "$(basename "$PWD") $1" = 'ceromby lib' ] || exit 2
echo "fn laws::one: proved"
echo "logic=proved functions=1"
[ -z "${NOT_PROVED:-}" ] || { echo "logic=not-proved"; exit 1; }
echo "logic=proved functions=2"
mkdir -p out && : >out/libceromby.a
END
cat >"$room/bin/cargo" <<'END'
#!/bin/sh
echo "cargo $*" >>"$ASKED"
[ -z "${NOT_BUILT:-}" ] || { echo "error: no such thing"; exit 101; }
mkdir -p target/release
printf '#!/bin/sh\necho "the program: $*"\ncat\nexit "${1:-0}"\n' >target/release/ceromby
chmod +x target/release/ceromby
END
chmod +x "$room/bin/rt" "$room/bin/cargo"
export PATH="$room/bin:$PATH" ASKED="$room/asked"

# expect NAME STATUS ASKED WORDS [ARGUMENT ...]: runs the script; rt and cargo are asked just that, and the words are said
expect() {
    local name=$1 status=$2 asked=$3 words=$4 got=0
    shift 4
    : >"$ASKED"
    echo input | ./ceromby "$@" >"$room/out" 2>"$room/err" || got=$?
    cat "$room/out" "$room/err" >"$room/said"
    if [ "$got" -ne "$status" ] || [ "$(paste -sd ';' "$ASKED")" != "$asked" ] || ! grep -qF "$words" "$room/said"; then
        echo "tests/script.sh: $name: status $got, asked $(paste -sd ';' "$ASKED"), said"
        cat "$room/said"
        exit 1
    fi
}
all='rt lib;cargo build --release --offline -p ceromby-tool'
build='cargo build --release --offline -p ceromby-tool'
# aged: as if the sources had been written first, then the archive, then the program
aged() {
    find crates.txt crates host/tool -name out -prune -o -type f -exec touch -d '3 minutes ago' {} +
    touch -d '2 minutes ago' crates/ceromby/out/libceromby.a
    touch -d '1 minute ago' host/target/release/ceromby
}

NOT_PROVED=1 expect 'a proof that fails' 4 'rt lib' 'logic=not-proved'
grep -q 'the proof failed; the log is .*/target/build.log' "$room/err"
NOT_BUILT=1 expect 'a build that fails' 4 "$all" 'error: no such thing'
expect 'what was proved stays' 0 "$build" 'the program: '
rm -rf crates/*/out host/target
expect 'the first run' 0 "$all" 'proved first: 2 crates'
grep -qx input "$room/out"
expect 'what is built is run at once, with its status and arguments' 3 '' 'the program: 3 a b' 3 'a b'
[ ! -s "$room/err" ]
aged
touch crates/other/lib.rt
expect 'a crate that the library does not need' 0 '' 'the program'
aged
touch crates/laws/lib.rt
expect 'a crate that it needs' 0 "$all" 'the program'
aged
touch host/tool/src/main.rs
expect 'a source of the program' 0 "$build" 'the program'
PATH=/usr/bin:/bin
hash -r
if ! command -v rt >/dev/null; then
    rm -rf crates/ceromby/out
    expect 'without the kit' 4 '' 'there is no rt'
fi
echo "tests/script.sh passed"
