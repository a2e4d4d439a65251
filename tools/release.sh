#!/bin/sh
# Makes a release of the commit that stands here, after a green .ci/run on it: out/scadserve-VERSION-x86_64-linux.tar.gz and
# out/scadserve_VERSION_amd64.deb. The same commit and program give the same bytes. docs/RELEASE.md says what they hold.
set -eu
unset CDPATH
top=$(dirname "$(dirname "$(readlink -f "$0")")")
. "$top/tools/built.sh"
. "$top/tools/gate.sh"
umask 022

stop() {
    echo "release: $*" >&2
    exit 1
}

git() {
    command git -C "$top" "$@"
}

changes=$(git status --porcelain) || stop "the sources are no clone of the repository"
[ -z "$changes" ] || stop "the tree has changes, and a release is that of a commit:
$changes"
commit=$(git rev-parse HEAD)
[ -f "$top/out/gate" ] && [ "$(gate commit)" = "$commit" ] ||
    stop "no green gate is known of this commit, $commit: run \`bash .ci/run\` first"
fault=$(fault_of_gate)
[ -z "$fault" ] || stop "$fault"

date=$(git log -1 --format=%ct)
version=$(cat "$top/clients/scadserve/VERSION")
name=scadserve-$version-x86_64-linux
work=$(mktemp -d)
trap 'rm -rf "$work"' EXIT
trap 'exit 1' HUP INT TERM

# The folder of the release: files of the commit, the program, and what is made of them.
here=$work/$name
mkdir -p "$here/libexec"
git archive HEAD README.md CHANGELOG.md CONTRIBUTING.md clients/scadserve docs examples gallery install.sh library memory.sh \
    pyproject.toml scadserve tools/wheel.py | tar -x -C "$here"
cp "$program" "$here/libexec/scadserve"
PYTHONPATH=$here/clients python3 -B -c 'from scadserve.tools.catalogue import *; print(*STARTERS, sep="\n")' >"$here/TOOLS"
git archive HEAD $(cat "$here/TOOLS") | tar -x -C "$here"
PYTHONPATH=$here/clients python3 -B -m scadserve.tools.manual "$here/man"
PYTHONPATH=$here/clients python3 -B -m scadserve.tools.completion "$here/completion"
python3 -B "$top/tools/statement.py" --html "$here/docs/statement" || stop "the statement makes no pages as HTML"
{
    echo "scadserve $version for x86_64 Linux"
    # (not how many tests passed: those that need what a machine lacks are skipped, and two clones make the same bytes)
    for word in commit kit gate program sources; do
        echo "$word $(gate $word)"
    done
    echo
    cat "$top/tools/proved.txt"
} >"$here/PROVED"

# Sets the date of everything in a folder to the commit's, and the rights to what each file says of itself alone.
same_everywhere() {
    chmod -R u=rwX,go=rX "$1"
    find "$1" -exec touch -h -d "@$date" {} +
}

same_everywhere "$here"
tar -c -C "$work" --format=gnu --sort=name --mtime="@$date" --owner=0 --group=0 --numeric-owner "$name" |
    gzip -9n >"$work/$name.tar.gz"

# The package: the same, as install.sh puts it below /usr.
package=$work/package
mkdir -p "$package/DEBIAN"
DESTDIR=$package ZSH_FUNCTIONS=vendor-completions "$here/install.sh" /usr
gzip -9n "$package"/usr/share/man/man1/*.1
cat >"$package/DEBIAN/control" <<END
Package: scadserve
Version: $version
Architecture: amd64
Maintainer: $(git log -1 --format='%an <%ae>')
Depends: libc6 (>= $(libc_of_program)), python3 (>= 3.9)
Section: graphics
Priority: optional
Installed-Size: $(find "$package/usr" -type f -printf '%s\n' | awk '{ n += int(($1 + 1023) / 1024) } END { print n }')
Description: solids of OpenSCAD sources in whole numbers, each proved to be right
 A solid modelling server whose every answer is proved, and tools that write
 its solids as meshes and pictures.
END
# (what Python compiles of the modules is not a file of the package)
printf '#!/bin/sh\nset -e\npython3 -m compileall -q /usr/lib/scadserve/clients\n' >"$package/DEBIAN/postinst"
printf '#!/bin/sh\nset -e\nfind /usr/lib/scadserve -depth -name __pycache__ -exec rm -r {} +\n' >"$package/DEBIAN/prerm"
chmod +x "$package/DEBIAN/postinst" "$package/DEBIAN/prerm"
(cd "$package" && find usr -type f -print0 | LC_ALL=C sort -z | xargs -0 md5sum) >"$package/DEBIAN/md5sums"
same_everywhere "$package"
deb=scadserve_${version}_amd64.deb
SOURCE_DATE_EPOCH=$date dpkg-deb --root-owner-group --uniform-compression -Zgzip -b "$package" "$work/$deb" >"$work/said" ||
    stop "$(cat "$work/said")"
mv "$work/$name.tar.gz" "$work/$deb" "$top/out"
(cd "$top/out" && sha256sum "$name.tar.gz" "$deb")
