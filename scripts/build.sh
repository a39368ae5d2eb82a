#!/usr/bin/env bash
# Proves every crate below the programs mps360, mps360check and mps360long, or
# below the one that is named, and builds them. The first time that takes some
# 25 minutes on four processors for mps360, and more for all; what is proved
# stays so, and later runs prove only what changed.
#
# usage: scripts/build.sh [NAME]
#
# It prints a line for each crate, and in the end each program's path. It ends
# with 64 for wrong use, 70 where one can't be built, 73 where standard output
# can't be written.
set -eu
# a write that fails is no answer
trap '' PIPE
cant_write() {
    echo "build.sh: can't write to standard output" >&2
    exit 73
}
case ${1:-} in
    -h | --help)
        sed -n '2,/^set/{/^set/d;s/^# \{0,1\}//p}' "$0" 2>/dev/null || cant_write
        exit 0
        ;;
esac
[[ $# -eq 0 || $# -eq 1 && $1 =~ ^mps360(check|long)?$ ]] || {
    echo "usage: build.sh [mps360 | mps360check | mps360long]" >&2
    exit 64
}
top=$(cd "$(dirname "$0")/.." && pwd)
command -v rt >/dev/null || {
    echo "build.sh: no command rt on the path: put Rattle's kit there" >&2
    exit 70
}

room=$(mktemp -d)
trap 'rm -rf "$room"' EXIT

# the programs that crates.txt lists, and the crates below them, themselves included
names=()
for name in ${1:-mps360 mps360check mps360long}; do
    if grep -q "^$name:" "$top/crates.txt"; then names+=("$name"); fi
done
[ ${#names[@]} -gt 0 ] || {
    echo "build.sh: crates.txt lists no ${1:-mps360}" >&2
    exit 70
}
awk -v names="${names[*]}" '{ sub(/#.*/, "") }
    index($0, ":") { line[++lines] = $0; name = $1; sub(/:$/, "", name); named[lines] = name; sub(/^[^:]*:/, ""); below[name] = $0 }
    END {
        last = split(names, wanted, " ")
        for (at = 1; at <= last; at++) {
            if (!(wanted[at] in below) || (wanted[at] in seen)) continue
            seen[wanted[at]] = 1
            parts = split(below[wanted[at]], part, " ")
            for (k = 1; k <= parts; k++) wanted[++last] = part[k]
        }
        for (k = 1; k <= lines; k++) if (named[k] in seen) print line[k]
    }' "$top/crates.txt" >"$room/crates.txt"
count=$(wc -l <"$room/crates.txt")
told=${names[*]}
[ ${#names[@]} -eq 1 ] || told="$(sed 's/ /, /g' <<<"${told% *}") and ${told##* }"
echo "$told with the crates below: $count. What is proved already is passed over." 2>/dev/null || cant_write

# The gate's own command, over a copy that has these crates alone, without must-fail edits: it proves as many at once as there are
# processors, and keeps what it has proved.
cp "$top/HANDLES" "$room/"
sed 's/:.*//' "$room/crates.txt" | while read -r crate; do
    mkdir -p "$room/crates/$crate"
    for part in "$top/crates/$crate"/*; do
        case ${part##*/} in out | must-fail | '*') ;; *) cp -r "$part" "$room/crates/$crate/" ;; esac
    done
done
begun=$SECONDS
(cd "$room" && rt ci </dev/null 2>&1) | tee "$room/log" |
    awk -v count="$count" '/^rt: [a-z0-9_]+ (proved|is kept)/ { name = $2; if (!(name in seen)) { seen[name] = 1; k++
        printf "crate %d of %d: %s\n", k, count, name; fflush() } }' || true
if ! tail -n 1 "$room/log" | grep -q ', 0 failed$'; then
    tail -n 8 "$room/log" >&2
    echo "build.sh: not built; the last lines of rt stand above" >&2
    exit 70
fi
for name in "${names[@]}"; do
    program=$top/crates/$name/out/$name
    mkdir -p "${program%/*}"
    cp "$room/crates/$name/out/$name" "$program"
    chmod 755 "$program"
    # as old as the copy, so that it isn't fresh where a source was changed while it was proved
    touch -r "$room/crates.txt" "$program"
    echo "built in $(((SECONDS - begun) / 60)) minutes $(((SECONDS - begun) % 60)) seconds: $program" 2>/dev/null || cant_write
done
