#!/bin/sh
# Builds the program of this commit once more: in a clone at another path, at another time, in another time zone and with other
# rights for new files. Compares what both compilers make of it with what .ci/run has left here. Run by hand before boot/ is
# handed in; it takes as long as `rt ci` does in a clone, whose words it takes: tools/twice.sh --anew proves all once more.
set -eu
unset CDPATH
top=$(dirname "$(dirname "$(readlink -f "$0")")")
. "$top/tools/built.sh"

stop() {
    echo "twice: $*" >&2
    exit 1
}

[ -x "$program" ] && [ -x "$program.by-rattle" ] ||
    stop "the gate has left no programs of both compilers: run \`bash .ci/run\` first"
work=$(mktemp -d)
trap 'rm -rf "$work"' EXIT
trap 'exit 1' HUP INT TERM
clone=$work/clone
git clone -q "$top" "$clone"
[ "$(sum_of_sources)" = "$(top=$clone && sum_of_sources)" ] || stop "the sources are not those of the commit that stands here"
(umask 027 && cd "$clone" && TZ=Asia/Tokyo rt ci "$@") >"$work/log" 2>&1 || stop "\`rt ci\` fails in the clone:
$(tail -n 5 "$work/log")"
for name in scadserve scadserve.by-rattle; do
    cmp "$top/crates/scadserve/out/$name" "$clone/crates/scadserve/out/$name" || stop "$name is another program in the clone"
done
echo "both compilers make the same programs in another clone"
