#!/bin/sh
# A scale with three chunk sizes by vol_tool, against three scales that have one of these sizes each, in the page cache: five tries in
# turn, the best of each ("ours" is the one scale, "plain" the three).
#
# First `write` of a stream into it, against the three writes of the same stream, one after the other. Wanted: a ratio of at most 1.1,
# and no higher peak. The objects are compared at the end. Then `verify` of it, against the whole cutouts of the three. Wanted: a ratio
# of at most 1.3. All outputs are dropped.
#
# The scales are 512 x 512 x 512 bytes, and 256 x 256 x 256 labels of 64 bits in blocks of 8 x 8 x 8. Each is tried in sizes that divide
# one another (64 x 64 x 64, 128 x 128 x 64, 128 x 128 x 128), and in cubes of 64 with slabs across them, which are 8 voxels thick.
#
#     bench/sizes.sh [PROGRAM [TRIES]]
#
# PROGRAM is the built vol_tool if it is left out, and TRIES is 5. It wants rustc, Python, and 1.5 GiB free where TMPDIR says.

root=$(cd "$(dirname "$0")/.." && pwd) || exit
set -- plain_write "$@"
. "$root/bench/against.sh"
tries=${3:-5}
for plain in plain_sharded plain_segmentation; do
    rustc --edition 2021 -O -o $plain "$root/bench/$plain.rs" || exit
done

# DATASET SIZES: the info of the data set base, with other chunk sizes
with_sizes() {
    mkdir "$1" && sed "s/\"chunk_sizes\":\[\[[0-9,]*\]\]/\"chunk_sizes\":[$2]/; s/\"sharding\":{[^}]*},//" base/info >"$1/info"
}

# NAME BOX FIRST SECOND THIRD: the stream's scale with these chunk sizes
compare() {
    echo "write of $1 in the chunk sizes $3,$4,$5"
    with_sizes ours "$3,$4,$5" && with_sizes one "$3" && with_sizes two "$4" && with_sizes three "$5" || exit
    cat >apart <<END
for scale in one two three; do '$program' write \$scale s <stream || exit; done >/dev/null
END
    cat >cutouts <<END
for scale in one two three; do '$program' cutout \$scale s '$2' || exit; done >/dev/null
END
    python3 "$root/bench/compare.py" "$tries" "sh -c 'exec \"$program\" write ours s >/dev/null'" 'sh apart' stream \
        'rm -rf ours/s one/s two/s three/s' || exit
    rm -rf ours/s && "$program" write ours s <stream >/dev/null || exit
    mkdir all && cp one/s/* two/s/* three/s/* all && diff -r ours/s all || exit
    echo "verify of it, against cutouts"
    cat ours/s/* all/* >/dev/null || exit
    python3 "$root/bench/compare.py" "$tries" "sh -c 'exec \"$program\" verify ours s >/dev/null'" 'sh cutouts' stream || exit
    rm -rf ours one two three all
}

# NAME SIDE
both() {
    compare "$1" "[0:$2,0:$2,0:$2]" '[64,64,64]' '[128,128,64]' '[128,128,128]'
    compare "$1" "[0:$2,0:$2,0:$2]" '[64,64,64]' "[$2,$2,8]" "[8,$2,$2]"
    rm -rf base stream
}

./plain_write bytes make base && ./plain_write bytes stream whole >stream || exit
both bytes 512
./plain_sharded labels info base && ./plain_segmentation labels stream pieces >stream || exit
both labels 256
