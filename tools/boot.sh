#!/bin/sh
# Packs the program that a green .ci/run proved and built from the sources that stand here: writes boot/, which is committed, so
# that ./scadserve needs no kit in a clone (tools/unpack.sh). Each new one stays in the history: make one for each state that is
# handed in.
set -eu
unset CDPATH
top=$(dirname "$(dirname "$(readlink -f "$0")")")
. "$top/tools/built.sh"
. "$top/tools/unpack.sh"
. "$top/tools/gate.sh"
umask 022

stop() {
    echo "boot: $*" >&2
    exit 1
}

fault=$(fault_of_gate)
[ -z "$fault" ] || stop "$fault"
command -v xz >/dev/null || stop "needs xz"
sum_of_program=$(gate program)
read_boot
if [ "$boot_program $boot_sources" = "$sum_of_program $(gate sources)" ] && unpack | cmp -s - "$program"; then
    echo "boot/ has the program of these sources already"
    exit 0
fi

mkdir -p "$top/boot"
work=$(mktemp -d "$top/boot/XXXXXX")
trap 'rm -rf "$work"' EXIT
trap 'exit 1' HUP INT TERM
# (the program is some 1 MB: a dictionary of that size is enough, and as much memory unpacks it)
xz -c --x86 --lzma2=preset=9e,dict=1MiB <"$program" >"$work/packed"
{
    echo "scadserve for x86_64 Linux, packed in ${packed##*/}"
    echo "program $sum_of_program"
    echo "packed $(sum_of "$work/packed")"
    for word in sources kit gate; do
        echo "$word $(gate $word)"
    done
    echo "libc $(libc_of_program)"
    echo
    cat "$top/tools/proved.txt"
    echo
    echo "With the kit, the same program can be made again from these sources, by \`bash .ci/run\`: it proves them, builds"
    echo "crates/scadserve/out/scadserve, and fails where that is not the program that is packed here, byte for byte."
} >"$work/PROVED"
mv "$work/packed" "$packed"
mv "$work/PROVED" "$top/boot/PROVED"
unpack | cmp - "$program" || stop "what was packed is not unpacked as the same program"
echo "boot/ has the program of these sources now, in $(wc -c <"$packed") bytes"
