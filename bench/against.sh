# For the scripts beside it, which compare vol_tool with a plain program: makes the plain program bench/PLAIN.rs in a new
# folder, which is removed at the end, and goes there. PROGRAM is the built vol_tool if it is left out. Wants rustc.
#
#     root=$(cd "$(dirname "$0")/.." && pwd) || exit
#     set -- PLAIN [PROGRAM]
#     . "$root/bench/against.sh"
#
# Afterwards $program is the vol_tool to be measured, and ./PLAIN the plain program.

plain=$1
program=${2:-$root/crates/vol_tool/out/vol_tool}
case $program in
/*) ;;
*) program=$PWD/$program ;;
esac
if [ ! -x "$program" ]; then
    echo "$0: there is no program $program" >&2
    exit 1
fi

work=$(mktemp -d) || exit
trap 'rm -rf "$work"' EXIT

rustc --edition 2021 -O -o "$work/$plain" "$root/bench/$plain.rs" || exit
cd "$work" || exit
