#!/bin/sh
# The cutout of whole scales by vol_tool and by the plain program beside this script, with the files in the page cache
# and the output to a file: three tries in turn, the best of each. The scales are 512 x 512 x 512 bytes in chunks of
# 64 x 64 x 64, and 128 x 128 x 128 voxels of four channels of 64-bit numbers in chunks of 32 x 32 x 32. Both write by layers
# of cells. Wanted: a ratio of at most 1.1, and a peak of at most one channel of one layer (16 MiB and 4 MiB), the frames (a
# chunk: 256 KiB and 1 MiB) and 8 MiB.
#
#     bench/cutout.sh [PROGRAM]
#
# PROGRAM is the built vol_tool if it is left out. It wants rustc, Python, and 512 MiB free where TMPDIR says.

root=$(cd "$(dirname "$0")/.." && pwd) || exit
set -- plain_cutout "$@"
. "$root/bench/against.sh"

# LAYOUT BOX
compare() {
    ./plain_cutout "$1" make "$1" && cat "$1/info" "$1"/s/* >/dev/null || exit
    echo "$1 $2"
    python3 "$root/bench/compare.py" 3 \
        "'$program' cutout $1 s $2" \
        "./plain_cutout $1 cutout $1 s $2" || exit
}

compare bytes '[0:512,0:512,0:512]'
compare wide '[0:128,0:128,0:128]'
