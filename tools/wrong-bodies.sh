#!/bin/sh
# Tries wrong bodies of wrong-bodies/: all, or those that are named by CRATE or CRATE/NAME. With `--left` it tries none, and
# lists the crates of which no line of wrong-bodies/TRIED says that all were refused over the files as they stand.
#
# Each crate is first checked, since `rt must-fail` begins with what its check keeps. Its wrong bodies then stand in its folder
# must-fail, beside those of the gate, until they are tried or the run is cut off. A line is printed for each crate, with a line
# below it for each wrong body that the prover did not refuse, and one line at the end. For each crate that is tried whole a
# line goes into wrong-bodies/TRIED: how many were refused, of how many, when, and the sum of the crate's files.
set -u
top=$(cd "$(dirname "$0")/.." && pwd) || exit 1
cd "$top" || exit 1
record=wrong-bodies/TRIED
unset CDPATH

# The sum of a crate's sources, definitions, proofs and wrong bodies.
sum_of() {
    find "crates/$1/src" "crates/$1/specs" "crates/$1/proofs" "crates/$1/must-fail" "wrong-bodies/$1" \
        ! -type d -print0 2>/dev/null |
        LC_ALL=C sort -z | xargs -0 sha256sum | sha256sum | cut -c 1-16
}

# Says for each crate with wrong bodies what isn't known of them.
tell_left() {
    for crate in $(crates_with_wrong_bodies); do
        set -- $(grep "^$crate " "$record" 2>/dev/null)
        if [ $# -ne 6 ]; then
            echo "$crate: not tried yet"
        elif [ "$6" != "$(sum_of "$crate")" ]; then
            echo "$crate: changed since $5"
        elif [ "$2" != "$4" ]; then
            echo "$crate: $2 of $4 were refused on $5"
        fi
    done
}

crates_with_wrong_bodies() {
    (cd wrong-bodies && ls -d */ 2>/dev/null | sed 's|/$||')
}

# Writes the line of a crate in place of its last one, in order.
note() {
    { grep -v "^$1 " "$record" 2>/dev/null; echo "$*"; } | LC_ALL=C sort >"$said.record" && cat "$said.record" >"$record"
}

# Runs a program, whose words go to a file; it ends with this script.
run() {
    "$@" >"$said" 2>&1 &
    child=$!
    wait "$child"
    status=$?
    child=
    return $status
}

# Takes out of a crate what was put there to be tried, also by a run that was killed: it stands in wrong-bodies too.
take_out() {
    [ -d "crates/$1/must-fail" ] || return 0
    for body in "wrong-bodies/$1"/*.edit; do
        ! cmp -s "$body" "crates/$1/must-fail/${body##*/}" || rm -f "crates/$1/must-fail/${body##*/}"
    done
    rmdir "crates/$1/must-fail" 2>/dev/null || :
}

clean_up() {
    [ -z "$child" ] || { kill "$child" && wait "$child"; } 2>/dev/null
    [ -z "$trying" ] || take_out "$trying"
    rm -f "$said" "$said.record"
}

# Tries wrong bodies of a crate: those files, or all.
try() {
    trying=$1
    is_whole=$2
    shift 2
    take_out "$trying"
    sum=$(sum_of "$trying")
    if ! (cd "crates/$trying") 2>/dev/null || ! run sh -c 'cd "$1" && exec rt check' sh "crates/$trying"; then
        echo "$trying: not proved, so none of its wrong bodies was tried" && tail -n 3 "$said" | sed 's/^/    /'
        failed=1
        trying=
        return
    fi
    mkdir -p "crates/$trying/must-fail"
    for body in "$@"; do
        [ -e "crates/$trying/must-fail/${body##*/}" ] || cp "$body" "crates/$trying/must-fail"
    done
    of=$(ls "crates/$trying/must-fail" | grep -c '\.edit$')
    run rt must-fail "$trying" || :
    take_out "$trying"
    did=$(grep -c "must-fail $trying/.*: refused, as it must be" "$said")
    echo "$trying: $did of $of refused"
    grep "must-fail $trying/" "$said" | grep -v ': refused, as it must be' | sed 's/^/    /'
    all=$((all + of))
    refused=$((refused + did))
    [ "$is_whole" = no ] || note "$trying" "$did" of "$of" "$(date -u +%F)" "$sum"
    trying=
}

if [ "$*" = --left ]; then
    tell_left
    exit
fi
[ $# -gt 0 ] || set -- $(crates_with_wrong_bodies)
said=$(mktemp) || exit 1
child=
trying=
trap clean_up EXIT
trap 'exit 130' INT
trap 'exit 143' HUP TERM
all=0
refused=0
failed=0
for name in "$@"; do
    case $name in
        */*) bodies=wrong-bodies/${name%.edit}.edit ;;
        *) bodies=$(ls "wrong-bodies/$name"/*.edit 2>/dev/null) ;;
    esac
    if [ -z "$bodies" ] || ! ls $bodies >/dev/null 2>&1; then
        echo "wrong-bodies: there is nothing to try of the name $name" >&2
        exit 2
    fi
done
for name in "$@"; do
    case $name in
        */*) try "${name%%/*}" no "wrong-bodies/${name%.edit}.edit" ;;
        *) try "$name" yes "wrong-bodies/$name"/*.edit ;;
    esac
done
echo "$refused of $all wrong bodies were refused"
[ "$refused" -eq "$all" ] && [ $failed -eq 0 ]
