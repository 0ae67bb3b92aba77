#!/bin/sh
# Segmentations of labels of 64 bits in chunks of 64 x 64 x 64 and blocks of 8 x 8 x 8, by vol_tool and by the plain program
# beside this script: written from a stream into the empty scale, five tries in turn, and their corner of 256 x 256 x 256
# cut out, five tries; the best of each, and the instructions of both, which other work of the machine doesn't change. Each
# first with a file a chunk, then in two shards, against the plain program for shards. Stream and files are in the page
# cache. The chunks, the shards and the outputs are compared, and the values of the pieces with those of the stream. Wanted:
# ratios of at most 1.1 for writes of cells and boxes, and of at most 1.5 for the rest, and a peak of at most the stream or
# the values cut out, one chunk and 32 MiB. The labels are
#
# - pieces: 256 x 256 x 256 voxels in one write, in pieces of a Voronoi diagram of which several are one branching segment;
# - cells: as many in slabs of 32 layers, in the cells of 300 seeds at random, so that most blocks have one label;
# - boxes: 9,000 cubes of 8 x 8 x 8 voxels at random, of one label each, in 640 x 640 x 640 voxels that are 0 elsewhere.
#
#     bench/segmentation.sh [PROGRAM]
#
# PROGRAM is the built vol_tool if it is left out. It wants rustc, Python, 768 MiB free where TMPDIR says, and valgrind for
# the instructions.

root=$(cd "$(dirname "$0")/.." && pwd) || exit
set -- plain_segmentation "$@"
. "$root/bench/against.sh"
rustc --edition 2021 -O -o plain_sharded "$root/bench/plain_sharded.rs" || exit

# TIMES OURS PLAIN [INPUT BEFORE]
measure() {
    python3 "$root/bench/compare.py" "$@" || exit
    shift
    python3 "$root/bench/instructions.py" "$@" || exit
}

# PLAIN LAYOUT WHAT
compare() {
    "./$1" "$2" info ours && "./$1" "$2" info plain || exit
    echo "write of $3"
    measure 5 "'$program' write ours s" "./$1 $2 write plain s" stream 'rm -rf ours/s plain/s'
    "$program" write ours s <stream >/dev/null && "./$1" "$2" write plain s <stream >/dev/null || exit
    diff -r ours plain && cat ours/s/* >/dev/null || exit
    box='[0:256,0:256,0:256]'
    echo "cutout of $3"
    measure 5 "'$program' cutout ours s $box" "./$1 $2 cutout ours s $box"
    case $3 in
    pieces*) "$program" cutout ours s "$box" >values && tail -c +57 stream | cmp - values || exit ;;
    esac
    rm -rf ours plain values
}

# LAYOUT FORM
both() {
    ./plain_segmentation "$1" stream "$2" >stream || exit
    compare plain_segmentation "$1" "$2 in files"
    compare plain_sharded "$1" "$2 in two shards"
}

both labels pieces
both labels cells
both sparse boxes
