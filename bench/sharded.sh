#!/bin/sh
# The cutout of a whole sharded scale by vol_tool and by the plain program beside this script, with the files in the page
# cache and the output to a file: three tries in turn, the best of each. The scale is 512 x 512 x 512 bytes in chunks of
# 64 x 64 x 64, eight neighbours in one minishard, and four minishards in each of two shards. Wanted: a ratio of at most
# 1.5, and a peak of at most the box (128 MiB) and 32 MiB. Then writes of 40 boxes at random into the empty scale, five
# tries. Wanted: a ratio of at most 1.5, and a peak of at most the stream, one chunk and 48 MiB; the shards are compared.
# Then the cutout of one chunk of 32 x 32 x 32 out of a shard of 128 MiB and out of one of 864 KiB, in turn. Wanted: the
# first takes at most 1.1 times as long.
#
#     bench/sharded.sh [PROGRAM]
#
# PROGRAM is the built vol_tool if it is left out. It wants rustc, Python, and 512 MiB free where TMPDIR says.

root=$(cd "$(dirname "$0")/.." && pwd) || exit
set -- plain_sharded "$@"
. "$root/bench/against.sh"

./plain_sharded bytes make bytes && cat bytes/info bytes/s/* >/dev/null || exit
for box in '[0:512,0:512,0:512]' '[64:128,64:128,64:128]'; do
    echo "$box"
    python3 "$root/bench/compare.py" 3 "'$program' cutout bytes s $box" "./plain_sharded bytes cutout bytes s $box" || exit
done

rustc --edition 2021 -O -o plain_write "$root/bench/plain_write.rs" || exit
./plain_sharded bytes info ours && ./plain_sharded bytes info plain && ./plain_write bytes stream boxes >stream || exit
echo "write of boxes"
python3 "$root/bench/compare.py" 5 "'$program' write ours s" './plain_sharded bytes write plain s' \
    stream 'rm -rf ours/s plain/s' || exit
"$program" write ours s <stream >/dev/null && ./plain_sharded bytes write plain s <stream >/dev/null || exit
diff -r ours plain || exit
rm -rf ours plain stream

for name in many few; do
    ./plain_sharded $name make $name && cat $name/info $name/s/* >/dev/null || exit
done
python3 - "$program" <<'PY'
import statistics
import subprocess
import sys
import time


def time_of(name):
    begin = time.perf_counter()
    subprocess.run([sys.argv[1], "cutout", name, "s", "[32:64,32:64,32:64]"], check=True, stdout=subprocess.DEVNULL)
    return time.perf_counter() - begin


turns = [(time_of("many"), time_of("few")) for _ in range(301)]
many, few = (1000 * statistics.median(times) for times in zip(*turns))
print(f"one chunk of 128 MiB {many:.2f} ms, of 864 KiB {few:.2f} ms, ratio {many / few:.2f} (medians of {len(turns)})")
PY
