# For the scripts beside it, which name a program here: the proved program crates/bench against bench/NAME_plain.rs,
# which does the same work in plain Rust. Needs rustc, and builds the proved program by `rt run`.
#
#     set -- NAME
#     . "$top/bench/programs.sh"

name=$1
proved=$top/crates/bench/out/bench
build=$(mktemp -d)
trap 'rm -rf "$build"' EXIT
plain=$build/plain

rustc --edition 2021 -O -o "$plain" "$top/bench/${name}_plain.rs"
(cd "$top/crates/bench" && rt run >/dev/null)

# What both programs print with these words has to be the same.
check() {
    [ "$("$proved" "$@")" = "$("$plain" "$@")" ] || { echo "$1: the sums differ" >&2; exit 1; }
}

# Runs two commands in turn, with `--` between them, nine times each: the least processor time of each, in seconds, and
# the median of their times' ratios, the first to the second, turn by turn. What else the machine does slows both of a
# turn mostly alike.
in_turn() {
    python3 - "$@" <<'PY'
import resource
import statistics
import subprocess
import sys


def time_of(command):
    before = resource.getrusage(resource.RUSAGE_CHILDREN)
    subprocess.run(command, check=True, stdout=subprocess.DEVNULL)
    after = resource.getrusage(resource.RUSAGE_CHILDREN)
    return after.ru_utime - before.ru_utime + after.ru_stime - before.ru_stime


words = sys.argv[1:]
at = words.index("--")
turns = [(time_of(words[:at]), time_of(words[at + 1 :])) for _ in range(9)]
median = statistics.median(first / second for first, second in turns)
print("%.4f %.4f %.4f" % (*map(min, zip(*turns)), median))
PY
}

# Both programs with these words: compares what they print, and gives their times.
compare() {
    check "$@"
    in_turn "$proved" "$@" -- "$plain" "$@" | awk -v what="$*" \
        '{ printf "%-28s %8.3f s, plain %8.3f s, ratio %.2f, median %.2f\n", what, $1, $2, $1 / $2, $3 }'
}
