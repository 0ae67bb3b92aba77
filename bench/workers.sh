#!/bin/sh
# Writes by several workers, by vol_tool and by the plain program beside this script: 4,096 small boxes of labels into the
# empty scale of a large segmentation of 64-bit labels in two shards, of which some GiB of values are filled and encoded; each
# number of workers in turn, three tries, the best of each, with the stream in the page cache. The shards of each run are
# compared. Wanted: on four processors the speed-up of four workers is at least 0.9 of the plain program's. Then the boxes of
# one label each of segmentation.sh. Wanted: at least 0.95 of that speed-up, or a time no longer than the plain program's. Then
# two raw scales, where storing is what costs. Wanted: no number of workers takes over 1.1 times as long as one.
#
#     bench/workers.sh [PROGRAM]
#
# PROGRAM is the built vol_tool if it is left out. It wants rustc, Python, and 512 MiB free where TMPDIR says.

root=$(cd "$(dirname "$0")/.." && pwd) || exit
set -- plain_sharded "$@"
. "$root/bench/against.sh"
rustc --edition 2021 -O -o plain_write "$root/bench/plain_write.rs" || exit
rustc --edition 2021 -O -o plain_segmentation "$root/bench/plain_segmentation.rs" || exit

# LAYOUT FORM PLAIN
turns() {
    "./$3" "$1" stream "$2" >stream && ./plain_sharded "$1" info ours && ./plain_sharded "$1" info plain || exit
    python3 "$root/bench/workers.py" "$program" "$1" || exit
    rm -rf ours plain stream
}

echo "$(nproc) processors"
echo "labelled boxes in a large segmentation"
turns large labelled plain_write
echo "boxes of one label each in a large segmentation"
turns sparse boxes plain_segmentation
echo "boxes in a raw scale of bytes"
turns bytes boxes plain_write
echo "boxes in a raw scale of four channels of 64 bits"
turns wide boxes plain_write
