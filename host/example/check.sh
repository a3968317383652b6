#!/bin/sh
# The header and the archive from C and C++: the programs here, built with warnings as errors, must print what is stored; calls
# whose answer is dropped must be warned of; the stack must be what the header says; the archive must need nothing but memcpy
# and memset. CEROMBY_LIB_DIR names another directory with libceromby.a. Each compiler of cc and clang is tried that there is.
set -eu
cd "$(dirname "$0")"
archive="${CEROMBY_LIB_DIR:-$(../../.ci/built archive)}/libceromby.a"
header=../../include/ceromby.h
out="$(mktemp -d)"
trap 'rm -rf "$out"' EXIT
strict="-Wall -Wextra -Wpedantic -Werror -I ../../include"
both="cc:c++"
if command -v clang++ >/dev/null; then
    both="$both clang:clang++"
fi

# printed NAME: what the built program NAME prints must be stored in NAME.txt
printed() {
    "$out/$1" >"$out/$1.txt"
    diff -u "$1.txt" "$out/$1.txt"
}

cc -std=c11 -O2 $strict -o "$out/layout" layout.c
printed layout
cc -std=c11 -O2 $strict -o "$out/example" example.c "$archive"
printed example
echo "C example and layout as stored"

# the header by itself, by the oldest and newest rules, with what a careful project switches on
careful="-Wconversion -Wsign-conversion -Wshadow -Wcast-qual -Wundef -fsyntax-only"
for pair in $both; do
    for rules in c99 c2x; do
        echo '#include "ceromby.h"' | "${pair%:*}" -std=$rules $strict $careful -x c -
    done
    for rules in c++98 c++20; do
        echo '#include "ceromby.h"' | "${pair#*:}" -std=$rules $strict $careful -x c++ -
    done
done

# dropped answers: as many warnings as calls, and an error where that is asked for
calls=$(grep -c '^CEROMBY_MUST_USE ' "$header")
if [ "$(grep -c '^    ceromby_[a-z_]*(' dropped.c)" -ne "$calls" ]; then
    echo "dropped.c hasn't each of the header's $calls calls"
    exit 1
fi
for pair in $both; do
    for tried in "${pair%:*} -std=c11 -x c" "${pair#*:} -std=c++11 -x c++" "${pair#*:} -std=c++17 -x c++"; do
        warned=$($tried -I ../../include -c -o "$out/dropped.o" dropped.c 2>&1 | grep -c 'unused-result' || true)
        if [ "$warned" -ne "$calls" ]; then
            echo "$tried warns of $warned dropped answers, and not of $calls"
            exit 1
        fi
        if $tried -Werror=unused-result -I ../../include -c -o "$out/dropped.o" dropped.c 2>/dev/null; then
            echo "$tried takes dropped answers under -Werror=unused-result"
            exit 1
        fi
    done
done
echo "each of $calls calls warns where its answer is dropped"

for pair in $both; do
    "${pair%:*}" -std=c11 -O2 $strict -o "$out/in_place" in_place.c "$archive"
    "$out/in_place"
    "${pair#*:}" -std=c++17 -O1 $strict -x c++ -o "$out/in_place" in_place.c -x none "$archive"
    "$out/in_place" >"$out/log" || { cat "$out/log"; exit 1; }
    "${pair#*:}" -std=c++11 -O2 $strict -o "$out/second" second.cpp "$archive"
    printed second
done

# the stack: of each call, and of several in one function; README tells what cc -O2 gives
for pair in $both; do
    for level in -O0 -O2; do
        for program in stack several; do
            "${pair%:*}" -std=c11 $level $strict -o "$out/$program" $program.c "$archive"
            "$out/$program" >"$out/log" || { cat "$out/log"; exit 1; }
            told=$(tail -n 1 "$out/log")
            if [ "${pair%:*} $level" = 'cc -O2' ] && ! grep -qF "$told" ../../README.md; then
                echo "README doesn't say: $told"
                exit 1
            fi
            echo "${pair%:*} $level: $told"
        done
    done
done

# what a program takes in: text alone, no data, and two functions of the C library
needed=$(nm -u "$archive" | awk 'NF == 2 { print $2 }' | sort -u | grep -v '^ceromby_' | tr '\n' ' ')
if [ "$needed" != "memcpy memset " ]; then
    echo "the archive needs: $needed"
    exit 1
fi
size "$archive" | awk -v told="$(sed -n 's/.*[^0-9]\([0-9]*\) KB of text.*/\1/p' ../../README.md)" '
    NR > 1 { text += $1; data += $2 + $3 }
    END {
        kb = int((text + 999) / 1000)
        if (data > 0) { print "the archive has " data " bytes of data"; exit 1 }
        if (kb != told) { print "the archive has " kb " KB of text, and README says " told; exit 1 }
        print "the archive: " text " bytes of text, no data; it needs memcpy and memset"
    }'
