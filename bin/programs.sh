# For the scripts beside it, each of which runs the program that it calls $name in the current directory, and has the functions
# tell_commands and tell_words; $name and the words are told the latter. Without words, or with --help, -h or help, the commands are
# told, with --version the version; with --build alone the program is only built, and with --built alone status 0 says that it is there
# and no source is newer.
# Where standard error is a terminal, a line of help follows the statuses 1, 5 and 9.
#
# In a checkout the program is built first where it isn't built yet, or where a source is newer; what the build says goes to
# standard error. Status 125: it can't be built; a program that was there stays. What ./install puts down has the program beside it.

root=$(cd "$(dirname "$(readlink -f "$0")")/.." && pwd) || exit 125
crate=$root/crates/$name
program=$crate/out/$name
guide=$root/docs/guide.md
installed=$root/libexec/$name
if [ -x "$installed" ]; then
    program=$installed
    guide=$root/share/doc/vol_tool/guide.md
fi
old=$program.old

# whether the program is missing, or older than a source
is_stale() {
    [ "$program" != "$installed" ] || return 1
    [ -x "$program" ] || return 0
    [ -n "$(find "$root/crates.txt" "$root/crates" -name out -prune -o \
        -type f \( -name '*.rt' -o -name '*.antt' -o -name crates.txt \) -newer "$program" -print)" ]
}

# Puts the old program back where no new one came, and removes it where one did.
put_back() {
    if [ -x "$program" ]; then rm -f "$old"; elif [ -x "$old" ]; then mv -f "$old" "$program"; fi
}

# Proves, links and puts the program there, side by side; it says how far it is.
build() {
    echo "bin/$name: building, which takes 40 minutes on four processors the first time" >&2
    trap 'put_back; exit 125' INT TERM HUP
    [ ! -x "$program" ] || mv -f "$program" "$old"
    "$root/bin/build_program" "$name" </dev/null >&2
    [ -x "$program" ]
    built=$?
    put_back
    trap - INT TERM HUP
    return $built
}

# How a data set is named that can't be one.
tell_dataset() {
    echo "a data set is named from the current folder, without ./ or / in front and / behind: $1"
}

# Which file may have failed, as far as the words show it.
tell_file() {
    for folder in "${2-}" "${4-}"; do
        if [ -e "$folder/info" ] && ! [ -r "$folder/info" ]; then
            echo "this file can't be read: $folder/info"
            return
        fi
    done
    echo "a file below ${2-} can't be read or written, or is a pipe or a device, or the disk is full"
}

# The version, the commit where this is a checkout or was installed from one, and the kit that proves the programs.
tell_version() {
    package=$root/python/vol_tool/__init__.py
    [ -f "$package" ] || package=$root/share/vol_tool/python/vol_tool/__init__.py
    echo "$name $(sed -n 's/^__version__ = "\(.*\)"$/\1/p' "$package")"
    if [ -e "$root/.git" ]; then
        commit=$(git -C "$root" rev-parse --short=12 HEAD 2>/dev/null) && echo "commit $commit"
    elif [ -f "$root/share/vol_tool/commit" ]; then
        echo "commit $(cat "$root/share/vol_tool/commit")"
    fi
    echo "kit $(sed -n 's/^__kit__ = "\(.*\)"$/\1/p' "$package")"
}

# A line of help behind a status.
tell_help() {
    case $1 in
    1) shift && tell_words "$@" ;;
    5) shift && tell_file "$@" ;;
    9) echo "the port is taken or may not be bound, or VOL_TOOL_ADDRESS is no IP address" ;;
    esac
}

run_program() {
    case ${1-help} in
    --help | -h | help)
        if [ $# -le 1 ]; then
            tell_commands
            exit 0
        fi
        ;;
    --version)
        if [ $# -eq 1 ]; then
            tell_version
            exit 0
        fi
        ;;
    esac
    # A build that was killed left this to do.
    [ "$program" = "$installed" ] || put_back
    if [ "$*" = --built ]; then
        is_stale && exit 1
        exit 0
    fi
    if is_stale && ! build; then
        echo "bin/$name: the program can't be built" >&2
        exit 125
    fi
    [ $# -eq 1 ] && [ "$1" = --build ] && exit 0
    [ -t 2 ] || exec "$program" "$@"
    "$program" "$@"
    status=$?
    tell_help $status "$@" >&2
    exit $status
}
