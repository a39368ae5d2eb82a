#!/usr/bin/env bash
# Tries Debian packages in a clean Debian, in a folder of its own: installs them,
# solves, proves, attests and runs a batch, compares each example with its
# listing and with what is attested of it, and removes them again.
#
# usage: packaging/try_packages.sh [--root FOLDER] DEB..
#
#   --root FOLDER  a clean Debian that debootstrap made before; without it one
#                  is made, and removed in the end
#
# It needs root, debootstrap and a mirror of Debian. It ends with 1 where a
# package does what it shouldn't, with 64 for wrong use, 70 where no clean Debian
# can be had.
set -eu
end() {
    local code=$1
    shift
    echo "try_packages.sh: $*" >&2
    exit "$code"
}
root=''
case ${1:-} in
    -h | --help)
        sed -n '2,/^set/{/^set/d;s/^# \{0,1\}//p}' "$0"
        exit 0
        ;;
    --root)
        root=${2:-}
        shift 2 || end 64 "--root wants a folder"
        ;;
esac
[ $# -gt 0 ] || end 64 "usage: try_packages.sh [--root FOLDER] DEB.."
[ "$(id -u)" = 0 ] || end 70 "it needs root, to change into the clean Debian"
room=$(mktemp -d)
mounted=''
leave() {
    [ -z "$mounted" ] || umount "$mounted"
    rm -rf --one-file-system "$room"
}
trap leave EXIT
if [ -z "$root" ]; then
    root=$room/debian
    debootstrap --variant=minbase bookworm "$root" http://deb.debian.org/debian >"$room/log" 2>&1 || {
        tail -n 5 "$room/log" >&2
        end 70 "no clean Debian: the last lines of debootstrap stand above"
    }
fi
mount -t proc proc "$root/proc" && mounted=$root/proc
cp /etc/resolv.conf "$root/etc/resolv.conf"
rm -rf "$root/packages"
mkdir "$root/packages"
cp -- "$@" "$root/packages/"

cat >"$root/packages/try" <<'TRY'
set -eu
fail() {
    echo "FAILS: $*" >&2
    exit 1
}
export DEBIAN_FRONTEND=noninteractive LC_ALL=C.UTF-8
apt-get -q update
(find / -xdev -path /packages -prune -o -path /proc -prune -o -print | sort) >/packages/before
apt-get -q install -y --no-install-recommends /packages/*.deb
examples=/usr/share/doc/mps360/examples
mkdir -p /tmp/try && cd /tmp/try
(mps360 --version && mps360-solve --version && check_vipr --version)
is_trial=
! mps360 --version | grep -q 'no proved program' || is_trial=1
who='proved by the program'
[ -z "$is_trial" ] || who='not proved, since the program ran unproved'
mps360-solve $examples/glass.mps >solved 2>said || fail "mps360-solve"
grep -q 'OPTIMAL: the greatest total_profit is 36' solved && cat solved said | grep -q "$who" || fail "mps360-solve says something else: $(cat solved said)"
[ -z "$is_trial" ] || ! cat solved said | grep -q '[^t] proved by' || fail "a trial package says proved"
count=0
for job in $examples/*.job; do
    name=$(basename "$job" .job)
    rm -f PUNCH
    mps360 "$job" >listing 2>/dev/null || true
    cmp listing "$examples/$name.listing" || fail "$name.job: another listing"
    [ ! -e "$examples/$name.punch" ] || cmp PUNCH "$examples/$name.punch" || fail "$name.job: another punched deck"
    attested=$(mps360check "$job" "$examples/$name.listing" 2>/dev/null || true)
    grep -qx "$name $attested" $examples/INDEX || fail "$name: it is attested otherwise: $attested"
    count=$((count + 1))
done
[ "$count" -ge 15 ] || fail "few examples: $count"
mps360-prove $examples/glass.mps >proved 2>said && grep -q 'PRIMAL OPTIMAL' proved || fail "mps360-prove: $(cat said)"
echo '{"answer": "optimal", "columns": {"doors": 2, "windows": 6}, "prices": {"plant_2_hours": "3/2", "plant_3_hours": 1}}' >solution.json
mps360-attest $examples/glass.mps solution.json >attested 2>said && grep -q 'OPTIMAL, objective 36' attested || fail "mps360-attest: $(cat attested said)"
# (numbers of 36 decimal places: the objective of the plan has 73 digits, which mps360long alone reads)
printf 'NAME LONG\nROWS\n N COST\n G NEED\nCOLUMNS\n X COST 1.%035d7 NEED 3.%035d1\nRHS\n B NEED 1.%035d1\nENDATA\n' 0 0 0 >long.mps
printf '{"answer": "optimal", "columns": {"X": "1%035d1/3%035d1"}, "prices": {"NEED": "1%035d7/3%035d1"}}\n' 0 0 0 0 >long.json
mps360-attest --keep long long.mps long.json >attested 2>said && grep -q 'mps360long.*OPTIMAL, objective ' attested || fail "mps360-attest by mps360long: $(cat attested said)"
mps360long long/model.job long/model.listing >attested 2>said && grep -q '^ATTESTED [0-9]* REPORTS$' attested || fail "mps360long: $(cat attested said)"
mkdir models && cp $examples/*.mps $examples/first.job models/
mps360-batch -j 2 models >batch 2>/dev/null && [ "$(wc -l <models/listings/summary.csv)" = 3 ] || fail "mps360-batch: $(cat batch)"
mps2job -o glass.job --names glass.names $examples/glass.mps 2>/dev/null && mps360 glass.job 2>/dev/null | listing2json --names glass.names | grep -q '"doors"' || fail "mps2job, listing2json"
mps360-explain $examples/conflict.job >explained 2>/dev/null && [ -s explained ] || fail "mps360-explain"
mps360-plot $examples/paraobj.listing >plotted && [ -s plotted ] || fail "mps360-plot"
# (the package for Python runs no unproved program that isn't named)
python3 -c '
import os, mps360
trial = "/usr/libexec/mps360/program.unproved"
program = trial if os.path.exists(trial) else None
model = mps360.read_mps("/usr/share/doc/mps360/examples/glass.mps")
answer = mps360.solve(model, program=program)
assert (answer.status, answer.objective, answer.proved) == ("optimal", 36, not program), answer
print("Python:", answer.objective, "proved" if answer.proved else "not proved")' || fail "the package for Python"
for command in $(ls /usr/bin | grep -E '^(mps360|mps2job|listing2|basis2deck|free_deck|solution2|vipr2|check_vipr)'); do
    "$command" --help | grep -q usage || fail "$command --help"
    # (a minimal Debian may leave out manual pages as they are unpacked)
    dpkg -L mps360 | grep -q "/man1/$command.1.gz$" || fail "no manual page of $command"
done
for file in $(mps360 --help | grep -o '/usr/[^ ,;)]*'); do
    dpkg -L mps360 | grep -qxF "$file" || fail "mps360 --help names $file"
done
cd / && rm -rf /tmp/try
apt-get -q purge -y python3-mps360 mps360
[ -z "$(dpkg -l | grep mps360)" ] || fail "a package stays"
left=$(find / -xdev -path /packages -prune -o -path /proc -prune -o -name '*mps360*' -print)
[ -z "$left" ] || fail "files stay: $left"
echo "packages: installed, $count examples, solved, proved, attested, a batch, removed"
TRY
chroot "$root" bash /packages/try >"$room/tried" 2>&1 || {
    tail -n 30 "$room/tried" >&2
    end 1 "the packages do what they shouldn't; the last lines stand above"
}
grep -E '^(packages:|Python:|mps360 )' "$room/tried"
rm -rf "$root/packages"
