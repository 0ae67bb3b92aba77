#!/bin/sh
# The next scale of a pyramid, by vol_tool and by the plain program beside this script: `mean` of 512 x 512 x 512 bytes in chunks
# of 64 x 64 x 64, a file a chunk; and `mode` of 256 x 256 x 256 labels of 64 bits in such chunks in two shards, each into the same
# layout. With one, two and four workers, five tries in turn, the best of each, with the scale that is read in the page cache; the
# files are compared. Wanted: a ratio of at most 1.2 with one worker, and with four at least 0.9 of the plain program's speed-up. At
# the end of each the instructions of both with one worker, which other work of the machine doesn't change.
#
#     bench/downsample.sh [PROGRAM [TRIES]]
#
# PROGRAM is the built vol_tool if it is left out, and TRIES is 5. It wants rustc, Python, 512 MiB free where TMPDIR says, and
# valgrind for the instructions.

root=$(cd "$(dirname "$0")/.." && pwd) || exit
set -- plain_downsample "$@"
. "$root/bench/against.sh"
tries=${3:-5}
for plain in plain_write plain_sharded plain_segmentation; do
    rustc --edition 2021 -O -o $plain "$root/bench/$plain.rs" || exit
done

# LAYOUT METHOD SIDE: of the scale s of the data set ours, of which the plain program has a copy
compare() {
    sed -i "s/\"scales\":\[\(.*\)\]}\$/\"scales\":[\1,\1]}/
        s/\(.*\)\"key\":\"s\"/\1\"key\":\"t\"/
        s/\(.*\)\"size\":\[[0-9,]*\]/\1\"size\":[$3,$3,$3]/" ours/info
    cp -r ours plain && cat ours/s/* plain/s/* >/dev/null && : >times || exit
    before='rm -rf ours/t plain/t'
    for workers in 1 2 4; do
        echo "$2 of $1, workers: $workers"
        ours="'$program' downsample ours s t --method=$2 --workers=$workers"
        plain="./plain_downsample $1 $2 plain $workers"
        python3 "$root/bench/compare.py" "$tries" "$ours" "$plain" values "$before" >found || exit
        cat found && sed "s/^/$workers /" found >>times || exit
        sh -c "$before; $ours >/dev/null && $plain >/dev/null" && diff -r ours plain || exit
    done
    awk '
        $2 == "ours" || $2 == "plain" { time[$2, $1] = $3 }
        END {
            ours = time["ours", 1] / time["ours", 4]
            plain = time["plain", 1] / time["plain", 4]
            printf "speed-up of four workers: ours %.2f, plain %.2f, ratio %.2f\n", ours, plain, ours / plain
        }' times
    python3 "$root/bench/instructions.py" "'$program' downsample ours s t --method=$2" \
        "./plain_downsample $1 $2 plain" values "$before" || exit
    rm -rf ours plain
}

# A file of as many bytes as the values of either scale have, for the rates.
truncate -s 134217728 values || exit
echo "$(nproc) processors"
./plain_write bytes make ours && ./plain_write bytes stream whole >stream || exit
./plain_write bytes write ours s <stream >/dev/null || exit
compare bytes mean 256
./plain_segmentation labels stream pieces >stream && ./plain_sharded labels info ours || exit
./plain_sharded labels write ours s <stream >/dev/null && rm stream || exit
compare labels mode 128
