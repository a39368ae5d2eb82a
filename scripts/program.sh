#!/usr/bin/env bash
# Prints the path of a proved program: the one that was built here, where no
# source, definition or proof is newer than it, or one that is installed and was
# built of the same sources.
#
# usage: program.sh [--fresh] [NAME]
#            NAME is mps360, where none is given, or a checker of listings,
#            mps360check or mps360long
#        program.sh --sum
#            prints the checksum of the sources here, definitions and proofs
#            among them
#
# Where there is none it is built first (scripts/build.sh); with --fresh nothing
# is built. It ends with 1 where there is none, with 64 for wrong use, 73 where
# standard output can't be written.
set -eu
# a write that fails is no answer
trap '' PIPE
cant_write() {
    echo "program.sh: can't write to standard output" >&2
    exit 73
}
case ${1:-} in
    -h | --help)
        sed -n '2,/^set/{/^set/d;s/^# \{0,1\}//p}' "$0" 2>/dev/null || cant_write
        exit 0
        ;;
esac
top=$(cd "$(dirname "$0")/.." && pwd -P)

# of the crates as they stand, without what is made of them and the edits that must fail
sum_of_sources() {
    (cd "$top" && find crates crates.txt \( -name out -o -name must-fail \) -prune -o -type f \( -name '*.rt' -o -name '*.antt' -o -name crates.txt \) -print0 |
        LC_ALL=C sort -z | xargs -0 sha256sum | sha256sum | cut -d ' ' -f 1)
}

if [ "${1:-}" = --sum ]; then
    [ $# -eq 1 ] || {
        echo "usage: program.sh --sum" >&2
        exit 64
    }
    sum_of_sources 2>/dev/null || cant_write
    exit 0
fi
must_be_fresh=
if [ "${1:-}" = --fresh ]; then
    must_be_fresh=1
    shift
fi
name=${1:-mps360}
if [[ $# -gt 1 || ! $name =~ ^mps360(check|long)?$ ]]; then
    echo "usage: program.sh --sum | [--fresh] [mps360 | mps360check | mps360long]" >&2
    exit 64
fi
program=$top/crates/$name/out/$name

is_fresh() {
    [ -x "$program" ] && [ -z "$(find "$top/crates" "$top/crates.txt" -name out -prune -o \
        \( -name '*.rt' -o -name '*.antt' -o -name crates.txt \) -newer "$program" -print -quit)" ]
}

# the program of an installed package, where it was built of these sources: install.sh leaves their checksum beside it
same_sources_installed() {
    local command home file=program sum=
    [ "$name" = mps360 ] || file=${name#mps360}
    command=$(readlink -f "$(type -P mps360)" 2>/dev/null) || command=/
    for home in "$(dirname "$command")" /usr/local/libexec/mps360 /usr/libexec/mps360; do
        if [ -x "$home/$file" ] && [ -r "$home/sources" ]; then
            sum=${sum:-$(sum_of_sources)}
            [ "$(cat "$home/sources")" != "$sum" ] || {
                echo "$home/$file"
                return
            }
        fi
    done
    return 1
}

if ! is_fresh; then
    if installed=$(same_sources_installed); then
        echo "$installed" 2>/dev/null || cant_write
        exit 0
    fi
    [ -z "$must_be_fresh" ] || exit 1
    "$top/scripts/build.sh" "$name" >&2 || exit 1
    is_fresh || exit 1
fi
echo "$program" 2>/dev/null || cant_write
