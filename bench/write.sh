#!/bin/sh
# Overlapping writes into empty scales by vol_tool and by the plain program beside this script: five tries in turn, the
# best of each. A stream is in the page cache. It has one write of the whole scale and one of an eighth of it across the
# chunks; or 40 boxes at random, each of at most half the scale's side on each axis; or 20,000 voxels at random. The scales
# are 512 x 512 x 512 bytes in chunks of 64 x 64 x 64, and 128 x 128 x 128 voxels of four channels of 64-bit numbers in
# chunks of 32 x 32 x 32. Both programs write each chunk to a file that ends in .part, which they rename; neither waits
# until the disk has it. They write into one folder, since where a folder lies on a disk can make more of a difference than
# the program. Their objects are compared at the end.
#
#     bench/write.sh [PROGRAM]
#
# PROGRAM is the built vol_tool if it is left out. It wants rustc, Python, and 1 GiB free where TMPDIR says.

root=$(cd "$(dirname "$0")/.." && pwd) || exit
set -- plain_write "$@"
. "$root/bench/against.sh"

# LAYOUT FORM
compare() {
    ./plain_write "$1" make ours && ./plain_write "$1" make plain && ./plain_write "$1" stream "$2" >stream || exit
    echo "$1 $2"
    python3 "$root/bench/compare.py" 5 \
        "'$program' write ours s" \
        "./plain_write $1 write ours s" \
        stream 'rm -rf ours/s' || exit
    rm -rf ours/s
    "$program" write ours s <stream >/dev/null && ./plain_write "$1" write plain s <stream >/dev/null || exit
    diff -r ours plain || exit
    rm -rf ours plain
}

compare bytes whole
compare wide whole
compare bytes boxes
compare bytes voxels
