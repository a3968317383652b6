#!/bin/sh
# Counts the places of docs/DESIGN-PASS.md in a tree, by text: tools/design_places.sh [FOLDER] [-v] (-v prints each place).
# Point 2, and what text can't find, are counted there by reading.
cd "${1:-.}" || exit 1
row() { # point, what, extended regular expression
    if [ "$verbose" ]; then
        echo "== $1 $2"
        grep -nE "$3" crates/*/src/*.rt
    else
        printf '%-3s %5d  %s\n' "$1" "$(cat crates/*/src/*.rt | grep -oE "$3" | wc -l)" "$2"
    fi
}
verbose=$2
row 1 'refusals and reasons named as numbers' '\b(refusals|reason|plan|barge|throughput)::[A-Z]+[A-Z_]*\b'
row 1 'constants that number a kind, a verdict or a refusal' '^(pub )?const [A-Z_]+: u8'
row 1 'functions that answer a refusal or a reason as a number' '^(pub )?fn [a-z_]*(refus|fault|reason)[a-z_]*\(.*-> u8'
row 1 'fields of structs: a flag or a number beside a value' '^    (pub )?(refusal|fault|failed|good|ready|well|more|begun|on|differing|fed): (u8|bool)'
row 1 'enums with a case that has no value, or a number for a refusal' '^(pub )?enum (Parsed|Sources|Fed)\b'
row 3 'while and loop' '^ *(while .*|loop) \{$'
row 3 'for over a range' '\bfor [a-z_]+ in [0-9a-z_]*\.\.'
row 4 'functions that compare by hand' '^(pub )?fn (same[a-z_]*|is_zero[a-z_]*|empty_[a-z]+|no_canisters|untouched)\('
row 4 'functions that convert or take the greater by hand' '^(pub )?fn (wide|from_byte|from_short|byte|less|lesser|worse|gap|greater|or_zero|at_most)\('
row 4 'functions that write a struct again for one field' '^(pub )?fn with_(token|count)\('
row 4 'functions that print by hand' '^(pub )?fn (text|number|small)\(rt'
row 5 'clauses: s is Ranged' 'requires \{.*Ranged s'
row 5 'clauses: total s is at most 64' 'requires \{.*total s ≤ 64'
row 5 'clauses: the settings pass' 'requires \{.*settings_pass'
row 5 'clauses: the floor is well formed' 'requires \{.*well_formed'
row 5 'clauses: length at most width' 'requires \{.*\.length ≤ s\.width'
row 5 'clauses: a count is at most 64' 'requires \{.*count ≤ 64'
row 5 'clauses: n is at most 16' 'requires \{.*\bn ≤ 16'
row 5 'clauses: room in a slice from a place on' 'requires \{.*≤ length s\.(old|now)'
row 5 'parameters west, south, north and east' 'fn .*west: .*south: .*north: .*east: '
row 6 'an array and how many of it are used, as two parameters' '[a-z_]+: \[[^]]+\], [a-z]+: (usize|u8)'
row 6 'a slice and a place in it, as two parameters' '[a-z_]+: &(mut )?\[u8\], (at|from): usize'
row 6 'fields of structs: how many of an array are used' '^    (pub )?(count|length|kept|to): (u8|usize|u32)'
row 7 'match on a number' 'match (n|kind|call|command)[^ ]* \{'
