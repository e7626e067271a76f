#!/bin/sh
# Whether a model that is wrong on purpose is found: three copies of the crates, in each one edit, are built as
# scripts/build_unproved.sh does (some minutes each), and compared with the processor. $BUILD may name another builder, called
# with a copy's folder and the path of the program to make. The status is 1 where one of them isn't found.
set -eu
here=$(cd "$(dirname "$0")" && pwd)
top=$(cd "$here/../.." && pwd)
folder=$(mktemp -d)
trap 'rm -rf "$folder"' EXIT
status=0
mkdir "$folder/programs"
"$here/build.sh" "$folder/programs"

build() {
    if [ -n "${BUILD:-}" ]; then
        "$BUILD" "$1" "$2"
    else
        cp "$("$1/scripts/build_unproved.sh")" "$2"
    fi
}

# NAME, the crate's file, a line of it and what it becomes, by sed; then the comparison, its count, and what it has to tell.
try() {
    copy=$folder/$1
    mkdir -p "$copy/crates" "$copy/scripts"
    (cd "$top/crates" && tar cf - --exclude=out .) | tar xf - -C "$copy/crates"
    cp "$top/scripts/build_unproved.sh" "$copy/scripts/"
    cp "$top/crates.txt" "$top/HANDLES" "$copy/"
    sed -i "s/$3/$4/" "$copy/crates/$2"
    ! cmp -s "$top/crates/$2" "$copy/crates/$2" || { echo "$1: no such line in $2" >&2; exit 2; }
    build "$copy" "$folder/e9tool.$1" > /dev/null
    "$folder/programs/$5" "$folder/e9tool.$1" 80 "$6" 2 > "$folder/told" 2>&1 || true
    if grep -E "^difference: $7" "$folder/told"; then
        echo "$1: found"
    else
        echo "$1: NOT FOUND"
        tail -n 5 "$folder/told"
        status=1
    fi
    rm -rf "$copy"
}

try flag cpu_alu/src/sums.rt 'let out = is_below(x, y, borrow);' 'let out = is_below(x, y, false);' \
    meanings 100000 'sbb [0-9]+ differs'
try length insn_tables/src/tables.rt '0xa0: ok   ok   ok   E    EIb  E    xx' '0xa0: ok   ok   ok   E    E    E    xx' \
    lengths 100000 '0F a4, .* the processor ([0-9]+) bytes'
try upper cpu_step/src/moves.rt '^        width.cut(reg(state, dst))$' '        return to_next(None, 0);' \
    meanings 100000 'cmov 32 differs'
exit "$status"
