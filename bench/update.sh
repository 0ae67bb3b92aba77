#!/bin/sh
# Writes over what scales hold by vol_tool and by the plain program beside this script, which copies the chunks of a shard that no
# box meets as they are: five tries in turn, the best of each, and the instructions of both, which other work of the machine
# doesn't change. The stream has 500 cubes of 24 voxels a side at random, and is in the page cache like the scale's files. The
# scales are 512 x 512 x 512 bytes in chunks of 64 x 64 x 64, a file a chunk and in two shards; and 256 x 256 x 256 labels of 64
# bits in such chunks in two shards, whose cubes have a label each. Wanted: a ratio of at most 1.3, of 1.5 for labels, and a peak
# of at most the stream, a window and 16 MiB. The files are compared at the end. Then the same with 5 cubes, so that most chunks
# of a shard are kept.
#
#     bench/update.sh [PROGRAM [TRIES]]
#
# PROGRAM is the built vol_tool if it is left out, and TRIES is 5. It wants rustc, Python, 512 MiB free where TMPDIR says, and
# valgrind for the instructions.

root=$(cd "$(dirname "$0")/.." && pwd) || exit
set -- plain_update "$@"
. "$root/bench/against.sh"
tries=${3:-5}
for plain in plain_write plain_sharded plain_segmentation; do
    rustc --edition 2021 -O -o $plain "$root/bench/$plain.rs" || exit
done

# LAYOUT FORM COUNT: over copies of the data set base, in files or in shards
compare() {
    echo "$3 cubes over $1 in $2"
    ./plain_update "$1" stream "$3" >stream || exit
    set -- "'$program' update ours s" "./plain_update $1 $2 plain s" stream 'sh -c "rm -rf ours plain; cp -r base ours; cp -r base plain"'
    python3 "$root/bench/compare.py" "$tries" "$@" && python3 "$root/bench/instructions.py" "$@" || exit
    sh -c "$4; $1 <stream >/dev/null && $2 <stream >/dev/null" && diff -r ours plain || exit
}

# LAYOUT FORM
both() {
    compare "$1" "$2" 500
    compare "$1" "$2" 5
    rm -rf base ours plain
}

./plain_write bytes make base && ./plain_write bytes stream whole >stream || exit
./plain_write bytes write base s <stream >/dev/null || exit
both bytes files
./plain_sharded bytes make base || exit
both bytes shards
./plain_segmentation labels stream pieces >stream && ./plain_sharded labels info base || exit
./plain_sharded labels write base s <stream >/dev/null || exit
both labels shards
