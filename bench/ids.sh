#!/bin/sh
# Times chunk ids and hashes against a plain Rust program, COUNT calls each (100 million).
# Needs rustc, and builds the program crates/bench by `rt run`.
#
#     bench/ids.sh [COUNT]
set -eu

top=$(cd "$(dirname "$0")/.." && pwd)
count=${1:-100000000}
set -- ids
. "$top/bench/programs.sh"

compare codes "$count" 4096 4096 512
compare codes "$count" 64 64 16
compare hashes "$count"
