#!/usr/bin/env bash
# Holds wwt to a C compiler. It builds each program examples/*.c for RV32I, runs it on one node, and compares what it
# prints with what the same program prints when it is built for this machine. A program for one node is run by `wwt flat`,
# one that has a machine examples/*.json by `wwt run`, on this machine with one node. The latter are also run on the
# machines as they stand, and what node 0 prints is compared with the stored texts examples/*.txt. The stored executables
# are run so, too, with or without a compiler. Says a line for each program, and fails where one can't be built, doesn't
# end itself by the code 0 or prints something else.
#
#     tools/check_c_programs.sh [WWT]
#
# WWT is the built program, crates/wwt/out/wwt if it isn't given. Where it, a compiler for RV32I or the compiler of this
# machine is missing, one line says so, and nothing fails.
set -u

top=$(cd "$(dirname "$0")/.." && pwd) || exit 1
wwt=${1:-$top/crates/wwt/out/wwt}
# (a name alone would be looked for elsewhere)
[[ $wwt == */* ]] || wwt=./$wwt
wwt=$(realpath -m -- "$wwt")
target=riscv64-unknown-elf
rv32i=(-march=rv32i -mabi=ilp32)

skip() {
    echo "C programs: skipped, $1"
    exit 0
}

if [ ! -f "$wwt" ] || [ ! -x "$wwt" ]; then
    skip "there is no built program $wwt"
fi
room=$(mktemp -d) || exit 1
trap 'rm -rf "$room"' EXIT

# Builds an executable $2 of the C file $1, laid out by the linker's script $3, with further options.
build_for_rv32i() {
    local at=$top/examples
    "$target-gcc" "${rv32i[@]}" -O2 -Wall -Wextra -ffreestanding -nostdlib -T "$at/$3" "${@:4}" \
        -o "$room/$2" "$at/start.s" "$at/$1" "$at/mem.c" -lgcc
}

# Builds the program of the name $1 for one node, and for this machine.
build() {
    cc -DHOST -O2 -Wall -Wextra -o "$room/$1.host" "$top/examples/$1.c" || return 1
    if [ -f "$top/examples/$1.json" ]; then
        build_for_rv32i "$1.c" "$1.elf" machine.ld
    else
        build_for_rv32i "$1.c" "$1.flat" flat.ld \
            && "$target-objcopy" -O binary "$room/$1.flat" "$room/$1.bin"
    fi
}

# Runs the program of the name $1, which was built, on one node.
simulate_alone() {
    if [ -f "$room/$1.bin" ]; then
        simulate "$1" flat <"$room/$1.bin"
    else
        sed 's/"nodes": *[0-9]*/"nodes": 1/' "$top/examples/$1.json" >"$room/$1.json" \
            && simulate "$1" run "$1.json"
    fi
}

# The bytes of standard input as pairs of hexadecimal digits.
pairs() {
    od -An -v -tx1 | tr -d ' \n'
}

# The number that stands after the word $2 in the line of the report $1 that begins with $3.
number() {
    sed -n "s/^$3\(.* \)\?$2 \([0-9]*\).*/\2/p" "$room/$1.report"
}

# Compares what node 0 put out in the report of the name $1 with the text of a file $2, and says what is the same, or where
# they differ.
compare() {
    local size wanted found
    wanted=$(pairs <"$2")
    size=$((${#wanted} / 2))
    # (no space follows the size where there is no byte)
    wanted="out 0 $size${wanted:+ $wanted}"
    found=$(grep '^out 0 ' "$room/$1.report")
    if [ "$found" != "$wanted" ]; then
        echo "DIFFERENT"
        echo "  wanted: $wanted"
        echo "  by wwt: $found"
        return 1
    fi
    echo "same output, $size bytes, after $(number "$1" steps total) instructions and $(number "$1" traps total) traps"
}

# Runs wwt with the words from $2 on, in the folder of temporary files, with its report into $1.report there, and says how
# it ended where that isn't well.
simulate() {
    local status
    (cd "$room" && timeout 60 "$wwt" "${@:2}" >"$1.report")
    status=$?
    [ "$status" = 0 ] && return
    echo "FAILED, wwt ended by the status $status: $(grep '^node ' "$room/$1.report")"
    return 1
}

# Runs the machine $1.json, with its images in the folder of temporary files, and says how that went.
run_machine() {
    cp "$top/examples/$1.json" "$room" || return 1
    simulate "$1" run "$1.json" || return 1
    compare "$1" "$top/examples/$2.txt"
}

# Runs the machine examples/$1.json with its stored image, and says in one line how that went.
check_stored() {
    echo -n "$1.elf, as stored: "
    cp "$top/examples/$1.elf" "$room" && run_machine "$1" "$2"
}

# Builds and runs the program of the name $1 on one node, and says in one line how that went.
check() {
    local status
    echo -n "$1: "
    build "$1" || { echo "NOT BUILT"; return 1; }
    timeout 60 "$room/$1.host" </dev/null >"$room/$1.text"
    status=$?
    [ "$status" = 0 ] || { echo "FAILED, built for this machine it ended by the status $status"; return 1; }
    simulate_alone "$1" || return 1
    compare "$1" "$room/$1.text"
}

# Builds the C file $2 as the image of the machine examples/$1.json, with further options, runs it there, and says in one
# line how that went.
check_machine() {
    echo -n "$1.json: "
    build_for_rv32i "$2.c" "$1.elf" machine.ld "${@:3}" || { echo "NOT BUILT"; return 1; }
    run_machine "$1" "$2"
}

# The machines that print the same with a lock or a sum, packed or not, with annotations or without: each with the option
# that its program is built by.
machines=(sum ring stencil stencil_plain:-DPLAIN matmul radix radix_plain:-DPLAIN count count_sum:-DSUM
    sharing sharing_packed:-DPACKED mesh mesh_far:-DFAR)

failed=0
for machine in "${machines[@]}"; do
    name=${machine%%:*}
    check_stored "$name" "${name%%_*}" || failed=1
done
[ "$failed" = 0 ] || exit 1

for tool in "$target-gcc" "$target-objcopy" cc; do
    command -v "$tool" >/dev/null || skip "$tool isn't installed"
done
# A compiler without a libgcc of its own for RV32I names that of another instruction set.
[ "$("$target-gcc" "${rv32i[@]}" -print-multi-directory 2>/dev/null)" = rv32i/ilp32 ] \
    || skip "$target-gcc has no libgcc for RV32I"

for source in "$top"/examples/*.c; do
    name=$(basename "$source" .c)
    [ "$name" = mem ] || check "$name" || failed=1
done
for machine in "${machines[@]}"; do
    name=${machine%%:*}
    options=${machine#"$name"}
    # (no option is no word)
    check_machine "$name" "${name%%_*}" ${options#:} || failed=1
done
exit "$failed"
