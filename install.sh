#!/bin/sh
# Installs an unpacked release below a folder: ./install.sh PREFIX, as ./install.sh /usr/local or ./install.sh ~/.local. The
# tools stand in PREFIX/bin then, and all that they need in PREFIX/lib/scadserve, which holds nothing else: man pages,
# completion and documents go to PREFIX/share. DESTDIR and ZSH_FUNCTIONS in the environment are for makers of packages.
set -eu
unset CDPATH
top=$(dirname "$(readlink -f "$0")")

stop() {
    echo "install.sh: $*" >&2
    exit 2
}

case $#${1-} in
1/*) ;;
*) stop "takes one word, the folder to install below, which begins with /: ./install.sh /usr/local" ;;
esac
[ -f "$top/PROVED" ] || stop "stands in a release, and this is none: tools/release.sh makes one"
sum=$(sha256sum <"$top/libexec/scadserve" | cut -c 1-64)
grep -qx "program $sum" "$top/PROVED" || stop "libexec/scadserve is not the program that PROVED names, so nothing is installed"
root=${DESTDIR-}$1
lib=$root/lib/scadserve
share=$root/share

# What an earlier version left there is not mixed with this one.
rm -rf "$lib" "$share/doc/scadserve"
mkdir -p "$root/bin" "$lib/docs" "$share/doc/scadserve" "$share/man/man1" "$share/bash-completion/completions"
mkdir -p "$share/zsh/${ZSH_FUNCTIONS:=site-functions}"
cp -R "$top/clients" "$top/library" "$top/libexec" "$top/memory.sh" "$lib"
# (the tools read these)
cp "$top/docs/FAULTS.md" "$top/docs/differences.txt" "$lib/docs"
cp -R "$top/README.md" "$top/PROVED" "$top/docs" "$top/examples" "$top/gallery" "$share/doc/scadserve"
cp "$top"/man/*.1 "$share/man/man1"
cp "$top"/completion/bash/* "$share/bash-completion/completions"
cp "$top"/completion/zsh/* "$share/zsh/$ZSH_FUNCTIONS"
# (systemd looks for a program in the system's folders alone)
mkdir -p "$share/systemd/user"
while IFS= read -r line; do
    case $line in
    ExecStart=scadlive*) printf 'ExecStart="%s/bin/scadlive"%s\n' "$1" "${line#ExecStart=scadlive}" ;;
    *) printf '%s\n' "$line" ;;
    esac
done <"$top/clients/scadserve/live/scadlive.service" >"$share/systemd/user/scadlive.service"
mkdir -p "$lib/bin"
while read -r tool; do
    cp "$top/$tool" "$lib/$tool"
    ln -sf "../lib/scadserve/$tool" "$root/bin/${tool##*/}"
done <"$top/TOOLS"
# (so that no run of a user who can't write there compiles the modules again)
if [ -z "${DESTDIR-}" ] && command -v python3 >/dev/null; then
    python3 -m compileall -q "$lib/clients" || true
fi
