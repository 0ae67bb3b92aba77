#!/bin/sh
# Judging and copying a whole sharded scale, with the files in the page cache. The scale is 512 x 512 x 512 bytes in chunks of
# 64 x 64 x 64 in two shards; then 256 x 256 x 256 labels of 64 bits in blocks of 8 x 8 x 8, in such chunks and shards.
#
# First `verify` of it against `cutout` of it, both by vol_tool and with the output dropped: five tries in turn, the best of
# each (the line "plain" is the cutout's). Wanted: a ratio of at most 1.3.
#
# Then `reshard` of it into an empty unsharded scale of raw chunks of 128 x 128 x 64, against the plain program beside this
# script: five tries in turn, the best of each. Wanted: a ratio of at most 1.5, and a peak of at most 32 MiB above the chunk
# that is being made. The objects are compared at the end, and the values of the copy with those of the source.
#
#     bench/copies.sh [PROGRAM [TRIES]]
#
# PROGRAM is the built vol_tool if it is left out, and TRIES is 5. It wants rustc, Python, and 768 MiB free where TMPDIR says.

root=$(cd "$(dirname "$0")/.." && pwd) || exit
set -- plain_sharded "$@"
. "$root/bench/against.sh"
tries=${3:-5}
rustc --edition 2021 -O -o plain_segmentation "$root/bench/plain_segmentation.rs" || exit

# LAYOUT BOX: the scale s of the dataset source
compare() {
    echo "verify of $1, against cutout"
    "$program" cutout source s "$2" >values || exit
    python3 "$root/bench/compare.py" "$tries" "sh -c 'exec \"$program\" verify source s >/dev/null'" \
        "sh -c 'exec \"$program\" cutout source s $2 >/dev/null'" values || exit
    echo "reshard of $1 into chunks of 128 x 128 x 64"
    mkdir ours plain || exit
    sed 's/"sharding":{[^}]*},//; s/"chunk_sizes":[^"]*/"chunk_sizes":[[128,128,64]],/
        s/"encoding":.*\]}\]}/"encoding":"raw"}]}/' source/info | tee ours/info >plain/info || exit
    ours="'$program' reshard source s ours s"
    plain="./plain_sharded $1 copy source s plain s 128 128 64"
    python3 "$root/bench/compare.py" "$tries" "$ours" "$plain" values 'rm -rf ours/s plain/s' || exit
    rm -rf ours/s plain/s
    sh -c "$ours" >/dev/null && sh -c "$plain" >/dev/null && diff -r ours plain || exit
    "$program" cutout ours s "$2" | cmp - values || exit
    rm -rf source ours plain values
}

./plain_sharded bytes make source && cat source/s/* >/dev/null || exit
compare bytes '[0:512,0:512,0:512]'

./plain_segmentation labels stream pieces >stream && ./plain_sharded labels info source || exit
./plain_sharded labels write source s <stream >/dev/null && rm stream && cat source/s/* >/dev/null || exit
compare labels '[0:256,0:256,0:256]'
