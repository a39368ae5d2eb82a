#!/usr/bin/env bash
# Builds what is handed out, of a clone whose programs are proved and built
# (scripts/build.sh): the Debian packages mps360 and python3-mps360, a tar file
# for other systems, and SHA256SUMS.
#
# usage: packaging/build_packages.sh [--unproved] OUT
#
#   --unproved  for trial: with programs of the sources as they stand, unproved;
#               the version ends in +unproved, and the description says so
#
# The same commit gives the same bytes: docs/INSTALL.md says how to compare. It
# needs debhelper, dh-python and python3-markdown. It ends with 64 for wrong
# use, 65 where the clone has changes that aren't committed, 70 where a program
# or a tool isn't there, 73 where OUT can't be written.
set -eu
end() {
    local code=$1
    shift
    echo "build_packages.sh: $*" >&2
    exit "$code"
}
options=()
case ${1:-} in
    -h | --help)
        sed -n '2,/^set/{/^set/d;s/^# \{0,1\}//p}' "$0"
        exit 0
        ;;
    --unproved)
        options=(--unproved)
        shift
        ;;
esac
[[ $# -eq 1 && $1 != -* && -n $1 ]] || end 64 "usage: build_packages.sh [--unproved] OUT"
mkdir -p "$1" 2>/dev/null && [ -w "$1" ] || end 73 "can't write to $1"
out=$(cd "$1" && pwd)
top=$(cd "$(dirname "$0")/.." && pwd)
for tool in git rt dh dh_python3 dpkg-buildpackage; do
    command -v "$tool" >/dev/null || end 70 "no $tool: apt-get install debhelper dh-python python3-markdown, and Rattle's kit on the path"
done
[ -z "$(git -C "$top" status --porcelain)" ] || end 65 "there are changes that aren't committed, so no commit names what would be built"

for name in mps360 mps360check mps360long; do
    [ -n "${options[0]:-}" ] || "$top/scripts/program.sh" --fresh "$name" >/dev/null ||
        end 70 "no proved program $name is there: scripts/build.sh proves and builds it; --unproved makes packages for trial"
done

# what the bytes depend on: the commit and its time, and nothing of this machine or of the hour
commit=$(git -C "$top" rev-parse HEAD)
SOURCE_DATE_EPOCH=$(git -C "$top" log -1 --format=%ct)
export SOURCE_DATE_EPOCH LC_ALL=C.UTF-8 TZ=UTC MPS360_TOP=$top MPS360_OPTIONS="${options[*]}" MPS360_BUILD
umask 022
version=0.1~git$(date -u -d "@$SOURCE_DATE_EPOCH" +%Y%m%d).${commit:0:8}${options[0]:++unproved}
room=$(mktemp -d)
trap 'rm -rf "$room"' EXIT
MPS360_BUILD=$room/BUILD

# what is said of them
if [ -n "${options[0]:-}" ]; then
    short=' (unproved)' state="UNPROVED: a package for trial. Its programs were compiled of the sources as they stand, and no proof of them was checked."
else
    short='' state="The programs are proved: by $(rt version)."
fi
{
    echo "commit $commit"
    echo "kit $(rt version)"
    echo "sources $("$top/scripts/program.sh" --sum)"
    echo "$state"
} >"$room/BUILD"

# the packages of Debian
source=$room/mps360-$version
mkdir "$source"
cp -r "$top/packaging/debian" "$source/debian"
fold -s -w 76 <<<"$state" | sed 's/^/ /; s/ *$//' >"$room/state"
sed -i -e "s/@SHORT@/$short/" -e "/^@STATE@$/{r $room/state
d}" "$source/debian/control"
cat >"$source/debian/changelog" <<TEXT
mps360 ($version) unstable; urgency=medium

  * Of commit $commit.

 -- Sivomarel maintainers <maintainers@users.noreply.sivomarel.example>  $(date -u -R -d "@$SOURCE_DATE_EPOCH")
TEXT
(cd "$source" && dpkg-buildpackage -b -us -uc -d) >"$room/log" 2>&1 || {
    tail -n 20 "$room/log" >&2
    end 70 "the packages weren't built; the last lines stand above"
}

# the tar file, which is unpacked anywhere
name=mps360-${version/\~/-}
"$top/scripts/install.sh" --root "$room/root" "${options[@]}" /usr/local >/dev/null || end 70 "the tar file wasn't built"
find "$room/root" -name __pycache__ -prune -exec rm -rf {} +
mv "$room/root/usr/local" "$room/$name"
cp "$room/BUILD" "$room/$name/"
tar --sort=name --owner=0 --group=0 --numeric-owner --mode=go=rX,u+rw --mtime="@$SOURCE_DATE_EPOCH" -C "$room" -cf - "$name" | xz -6 >"$room/$name.tar.xz"

cd "$room"
sha256sum -- *.deb "$name.tar.xz" >SHA256SUMS
cp -- *.deb "$name.tar.xz" SHA256SUMS "$out/" || end 73 "can't write to $out"
cat SHA256SUMS
