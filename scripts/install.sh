#!/usr/bin/env bash
# Installs the proved programs mps360, mps360check and mps360long, the commands
# that stand beside them, manual pages, completion for bash, zsh and fish, the
# documents and the examples.
#
# usage: scripts/install.sh [--root FOLDER] [--unproved] PREFIX
#
#   --root FOLDER  puts it below FOLDER, from where it is moved to PREFIX
#   --unproved     for trial: programs of the sources as they stand, unproved,
#                  which say so
#
# It goes into PREFIX/libexec/mps360, with links in PREFIX/bin, and PREFIX/share.
# The programs have to be built before (scripts/build.sh).
#
# Ends with 64 for wrong use, 70 where one of them isn't there, proved, and 73
# where PREFIX can't be written.
set -eu
# a write that fails is no answer
trap '' PIPE
cant_write() {
    echo "install.sh: can't write to standard output" >&2
    exit 73
}
end() {
    local code=$1
    shift
    echo "$*" >&2
    exit "$code"
}
root='' is_trial='' is_wrong='' prefix=''
while [ $# -gt 0 ]; do
    case $1 in
        -h | --help)
            sed -n '2,/^set/{/^set/d;s/^# \{0,1\}//p}' "$0" 2>/dev/null || cant_write
            exit 0
            ;;
        --root)
            [ $# -gt 1 ] || end 64 "install.sh: --root wants a folder"
            root=$2
            shift
            ;;
        --unproved) is_trial=1 ;;
        *)
            # (a second one, or an unknown option)
            [ -z "$prefix$is_wrong" ] && [[ $1 != -* ]] || is_wrong=1
            prefix=$1
            ;;
    esac
    shift
done
[ -n "$prefix" ] && [ -z "$is_wrong" ] || end 64 "usage: scripts/install.sh [--root FOLDER] [--unproved] PREFIX"
scripts=$(cd "$(dirname "$0")" && pwd)
top=$(dirname "$scripts")

# the programs, and how they are named where they are put
ending='' state='proved program'
programs=()
for name in mps360 mps360check mps360long; do
    if [ -n "$is_trial" ]; then
        program=$("$scripts/unproved.py" --program "$name" --compile) || end 70 "install.sh: $name can't be compiled"
        ending=.unproved state='trial package, no proved program: it runs unproved'
    else
        program=$("$scripts/program.sh" --fresh "$name") ||
            end 70 "install.sh: no proved program $name is there; scripts/build.sh proves and builds it, in some 25 minutes"
    fi
    programs+=("$program")
done
to=$root$prefix
home=$to/libexec/mps360
documents=$to/share/doc/mps360
mkdir -p "$home/faults" "$home/python" "$documents/examples" "$to"/{bin,share} || end 73 "install.sh: can't write to $to"
install -m 755 "${programs[0]}" "$home/program$ending"
install -m 755 "${programs[1]}" "$home/check$ending"
install -m 755 "${programs[2]}" "$home/long$ending"
echo "mps360 $(git -C "$scripts" rev-parse --short=8 HEAD 2>/dev/null || echo 'of unknown commit'), $state" >"$home/version"
"$scripts/program.sh" --sum >"$home/sources"
install -m 644 "$top/examples/faults/INDEX" "$home/faults"

# the commands, each with its name, and the package that does their work
while read -r file name; do
    [ "$file" != '#' ] || continue
    # (the checker of certificates shares nothing with the package: it is one file, which stands by itself)
    source=$scripts/$file
    [ "$file" != check_vipr.py ] || source=$top/python/oracle/vipr.py
    install -m 755 "$source" "$home/$file"
    ln -sf "../libexec/mps360/$file" "$to/bin/$name"
done <"$top/packaging/commands.txt"
(cd "$top/python" && find mps360 -name '*.py' -print0) | while IFS= read -r -d '' module; do
    mkdir -p "$home/python/$(dirname "$module")"
    install -m 644 "$top/python/$module" "$home/python/$module"
done
# (compiled once, since a user may not be able to write there)
[ -n "$root" ] || python3 -m compileall -q "$home/python" || true

install -m 644 "$top/README.md" "$top/LICENSE" "$top"/docs/* "$documents"
install -m 644 "$top"/examples/*.* "$top/examples/INDEX" "$documents/examples"
PYTHONDONTWRITEBYTECODE=1 python3 "$top/packaging/manuals.py" ${root:+--root "$root"} "$home" "$prefix" || end 70 "install.sh: no manual pages could be made"
echo "installed in $to: bin/mps360, bin/mps360check and what belongs to them" 2>/dev/null || cant_write
