#!/bin/sh
# make install to a folder of its own, and a C and a C++ program built over what lies there: by pkg-config, and by CMake.
# CEROMBY_LIB_DIR names another directory with libceromby.a.
set -eu
cd "$(dirname "$0")/../.."
for tool in make:make pkg-config:pkg-config cmake:cmake c++:g++; do
    if ! command -v "${tool%:*}" >/dev/null; then
        echo "host/package/check.sh needs ${tool%:*} (Debian: apt install ${tool#*:})" >&2
        exit 1
    fi
done
room="$(mktemp -d)"
trap 'rm -rf "$room"' EXIT
prefix="$room/tree"
quietly() {
    "$@" >"$room/log" 2>&1 || { cat "$room/log"; exit 1; }
}

quietly make install PREFIX="$prefix"
files='./include/ceromby.h
./lib/cmake/ceromby/ceromby-config-version.cmake
./lib/cmake/ceromby/ceromby-config.cmake
./lib/libceromby.a
./lib/pkgconfig/ceromby.pc'
if [ "$(cd "$prefix" && find . -type f | LC_ALL=C sort)" != "$files" ]; then
    echo "make install gives other files:"
    find "$prefix" -type f
    exit 1
fi

# the programs: README's first one, and the one in C++
mkdir "$room/programs"
cp host/package/CMakeLists.txt "$room/programs"
awk '$0 == "```c" { on = 1; next } on && $0 == "```" { exit } on' README.md >"$room/programs/first.c"
cp host/example/second.cpp "$room/programs"
awk '$0 == "```text" { on = 1; next } on && $0 == "```" { exit } on' README.md >"$room/first.txt"
cp host/example/second.txt "$room/second.txt"
# printed BUILD-TOOL FOLDER: the two programs there print what they should
printed() {
    for program in first second; do
        "$2/$program" | diff -u "$room/$program.txt" - || { echo "built by $1"; exit 1; }
    done
}

export PKG_CONFIG_PATH="$prefix/lib/pkgconfig"
mkdir "$room/by-pkg-config"
cc -Wall -Wextra -Werror -o "$room/by-pkg-config/first" "$room/programs/first.c" $(pkg-config --cflags --libs ceromby)
c++ -Wall -Wextra -Werror -o "$room/by-pkg-config/second" "$room/programs/second.cpp" $(pkg-config --cflags --libs ceromby)
printed pkg-config "$room/by-pkg-config"
version=$(sed -n 's/^version = "\(.*\)"/\1/p' host/ceromby/Cargo.toml)
if [ "$(pkg-config --modversion ceromby)" != "$version" ]; then
    echo "pkg-config has version $(pkg-config --modversion ceromby), and not $version"
    exit 1
fi

# a CMake package goes where its tree goes
mv "$prefix" "$room/moved"
quietly cmake -S "$room/programs" -B "$room/by-cmake" -DCMAKE_PREFIX_PATH="$room/moved" -DCMAKE_BUILD_TYPE=Release
quietly cmake --build "$room/by-cmake"
printed CMake "$room/by-cmake"
# another minor version than the installed one isn't taken
sed 's/find_package(ceromby [0-9.]* /find_package(ceromby 9.9 /' host/package/CMakeLists.txt >"$room/programs/CMakeLists.txt"
if cmake -S "$room/programs" -B "$room/other" -DCMAKE_PREFIX_PATH="$room/moved" >/dev/null 2>&1; then
    echo "CMake takes version $version for 9.9"
    exit 1
fi

# staged, and taken away again
quietly make install PREFIX=/usr DESTDIR="$room/stage"
grep -qx 'prefix=/usr' "$room/stage/usr/lib/pkgconfig/ceromby.pc"
quietly make uninstall PREFIX=/usr DESTDIR="$room/stage"
if [ -n "$(find "$room/stage" -type f)" ]; then
    echo "make uninstall leaves files"
    exit 1
fi
echo "installed: a C and a C++ program build by pkg-config and by CMake"
