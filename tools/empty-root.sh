#!/bin/sh
# Tries the first command of README.md on a Debian that has only Python and the C library: tools/empty-root.sh SUITE, as
# bookworm, or bullseye, whose C library is too old. Makes that Debian in a temporary folder, clones this commit into it, and
# runs the command four times as an ordinary user, with the times. Run by hand, as root; it needs debootstrap and the network.
set -eu
unset CDPATH
top=$(dirname "$(dirname "$(readlink -f "$0")")")

if [ $# -ne 1 ] || [ "$(id -u)" -ne 0 ] || ! command -v debootstrap >/dev/null; then
    echo "empty-root: takes the name of a Debian, as bookworm, and needs root and debootstrap" >&2
    exit 2
fi
root=$(mktemp -d)
trap 'rm -rf "$root"' EXIT
trap 'exit 1' HUP INT TERM
chmod 755 "$root"
debootstrap --variant=minbase --include=python3 "$1" "$root" >"$root.log" 2>&1 || {
    tail -n 5 "$root.log" >&2
    exit 1
}
rm -f "$root.log"
mkdir "$root/home/user"

# Runs a command, and says how many seconds it took by the clock.
timed() {
    began=$(date +%s.%N)
    "$@" || echo "status $?"
    echo "$began $(date +%s.%N)" | awk '{ printf "%.2f s\n", $2 - $1 }'
}

echo "git clone:"
timed git clone -q "$top" "$root/home/user/scadserve"
chown -R 1000:1000 "$root/home/user"
for time in 1 2 3 4; do
    echo "bin/scad2stl examples/bracket.scad -o bracket.stl, time $time:"
    timed chroot --userspec=1000:1000 "$root" /usr/bin/env -i HOME=/home/user PATH=/usr/bin:/bin \
        sh -c 'cd ~/scadserve && exec bin/scad2stl examples/bracket.scad -o bracket.stl'
    # (what was touched within two seconds is summed again)
    sleep 3
done
