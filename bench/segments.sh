#!/bin/sh
# Times segmentation chunks, written and read, against a plain Rust program of the same steps: COUNT chunks of
# 64 x 64 x 64 wide values (200), with what it takes to make the values once; and counts the instructions of a voxel, which
# other work of the machine doesn't change. The values are nine boxes of 8 x 8 x 8 in zeros, of one label each; a part of the
# cells of forty seeds in 128 x 128 x 128; some 40 labels in cubes of 19; or 2 to 30 labels in each block. And how much longer
# blocks of one voxel take in 2^20 voxels than in 2^16, both measured over 20 * 2^20 voxels in all: with almost as many values
# as voxels, with values of which over a third have come before, and with some 40 labels.
# Needs rustc, valgrind for the instructions, and builds the program crates/bench by `rt run`.
#
#     bench/segments.sh [COUNT]
set -eu

top=$(cd "$(dirname "$0")/.." && pwd)
count=${1:-200}
set -- segments
. "$top/bench/programs.sh"

# PROGRAM KIND COUNT
count_instructions() {
    valgrind --tool=callgrind --callgrind-out-file=/dev/null "$@" 2>&1 >/dev/null | sed -n 's/.*Collected : //p'
}

# The instructions of a voxel, by what six chunks take more than one.
compare_instructions() {
    for program in "$proved" "$plain"; do
        count_instructions "$program" "$1" 6
        count_instructions "$program" "$1" 1
    done | paste -s -d ' ' | awk -v what="$1" '{ ours = ($1 - $2) / 5 / 262144; plain = ($3 - $4) / 5 / 262144
        printf "%-28s %8.1f instructions a voxel, plain %8.1f, ratio %.2f\n", what, ours, plain, ours / plain }'
}

for kind in decode-boxes decode-cells decode-labels decode-noise encode-boxes encode-cells encode-labels encode-noise; do
    compare "$kind" "$count"
    if command -v valgrind >/dev/null; then
        compare_instructions "$kind"
    fi
done

# Sixteen times so many chunks of 2^16 voxels, as the program takes them.
short_words() {
    for _ in 1 2 3 4 5 6 7 8 9 10 11 12 13 14 15 16; do
        printf 'short%s %s ' "$1" "$2"
    done
}

for kind in '' -again -labels; do
    check "short$kind" 1
    check "long$kind" 1
    # shellcheck disable=SC2046
    in_turn "$proved" "long$kind" 20 -- "$proved" $(short_words "$kind" 20) | awk -v kind="$kind" \
        '{ printf "one voxel a block%-8s %9.2f ms in 2^20, %6.2f ms in 2^16, ratio %.1f, median %.1f (voxels 16)\n",
            kind, 1000 * $1 / 20, 1000 * $2 / 320, 16 * $1 / $2, 16 * $3 }'
done
