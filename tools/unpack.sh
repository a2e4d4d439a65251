# The program that comes with the sources, packed in boot/. Read after tools/built.sh: by the starter, by .ci/run and by tools.
#
# boot/PROVED names the program, and the sources from which it was proved and built, by their sums. Where the sources that stand
# here have that sum, the program is unpacked, once for each user, and runs. It goes into the user's cache, or else into another
# folder that is the user's own: whole or not at all, with the sum that boot/PROVED names, and only where it starts.
packed=$top/boot/scadserve-x86_64-linux.xz

# Reads boot/PROVED: the sums of the program, of the packed one and of the sources, and the C library that the program needs.
read_boot() {
    boot_program='' boot_packed='' boot_sources='' boot_libc=''
    [ ! -e "$top/boot/PROVED" ] || while read -r word value && [ -n "$word" ]; do
        case $word in
        program) boot_program=$value ;;
        packed) boot_packed=$value ;;
        sources) boot_sources=$value ;;
        libc) boot_libc=$value ;;
        esac
    done <"$top/boot/PROVED"
}

# Writes the program to standard output. (xz takes half as long as Python, which is there where the tools run.)
unpack() {
    xz -dc "$packed" 2>/dev/null || python3 -I -S -c 'import lzma, sys
sys.stdout.buffer.write(lzma.open(sys.argv[1]).read())' "$packed" 2>/dev/null
}

# Whether the program in boot/ is that of the sources and starts here; `program` is the unpacked one then. Else `why` says why
# it is not taken, and is empty where there is none. What was found so is not summed again until one of the files is touched.
is_unpacked() {
    why=''
    read_boot
    [ -n "$boot_program" ] || return 1
    machine=$(uname -sm)
    if [ "${SCADSERVE_BOOT-}" = no ]; then
        why="SCADSERVE_BOOT=no leaves out the program in boot/"
    elif [ "$machine" != "Linux x86_64" ]; then
        why="the program in boot/ is for Linux x86_64, and this is $machine"
    fi
    [ -z "$why" ] || return 1
    cache=${XDG_CACHE_HOME:-${HOME:+$HOME/.cache}}
    set -- ${cache:+"$cache/scadserve"} ${XDG_RUNTIME_DIR:+"$XDG_RUNTIME_DIR/scadserve"} "${TMPDIR:-/tmp}/scadserve-$(id -u)"
    is_seen "$@" || is_found "$@" || return 1
    program=$unpacked
}

# Whether the program stands in one of these folders, and neither it nor a source was touched since it was found to be right.
is_seen() {
    unpacked='' stand=''
    for folder; do
        if [ -x "$folder/$boot_program/scadserve" ] && [ -O "$folder" ]; then
            unpacked=$folder/$boot_program/scadserve
            stand=$(as_all_stand "$unpacked")
            grep -qxF "$stand" "$unpacked.seen" 2>/dev/null
            return
        fi
    done
    return 1
}

# Whether one of these folders has or takes the program, and the sources are those that boot/PROVED names. Both are looked at
# side by side.
is_found() {
    stood=$unpacked stands_here=no
    answers=$(put_in_place "$@" & sum_of_sources; wait)
    while read -r word rest; do
        case $word in
        in) unpacked=$rest ;;
        not) why=$rest ;;
        "$boot_sources") stands_here=yes ;;
        *) why="the program in boot/ is of other sources" ;;
        esac
    done <<END
$answers
END
    [ -z "$why" ] && [ "$stands_here" = yes ] || return 1
    if [ "$stood" = "$unpacked" ] && [ -z "$(sources_and "$unpacked" -newerct '2 seconds ago' -print -quit)" ]; then
        { echo "$stand" >>"$unpacked.seen"; } 2>/dev/null || :
    fi
}

# Puts the program into the first of these folders that takes it, unless it stands there. Says `in FILE`, or `not` and why.
put_in_place() {
    if [ ! -f "$packed" ] || [ "$(sum_of "$packed")" != "$boot_packed" ]; then
        echo "not ${packed#"$top/"} is not the file that boot/PROVED names, so it is not run"
        return
    fi
    for folder; do
        place=$folder/$boot_program/scadserve
        (umask 077 && mkdir -p "${place%/*}") 2>/dev/null
        [ -O "$folder" ] && [ ! -L "$folder" ] || continue
        if [ ! -x "$place" ] || [ "$(sum_of "$place")" != "$boot_program" ]; then
            [ ! -e "$place" ] || echo "scadserve: $place was changed, so the program in boot/ is unpacked anew" >&2
            if ! unpack_as "$place"; then
                fault=$(fault_of_packed) || continue
                echo "not $fault"
                return
            fi
            [ "$folder" = "$1" ] || echo "scadserve: $1 takes no program, so the one in boot/ was unpacked into $folder" >&2
        fi
        fault=$(fault_of_start "$place")
        echo "${fault:+not }${fault:-in $place}"
        return
    done
    echo "not no folder takes the program in boot/: $*"
}

# Unpacks the program beside its place, and puts it there in one step, so that runs at the same time don't meet. Where a folder
# takes no file, or lets none run, there is no program afterwards. What is ended meanwhile leaves no file.
unpack_as() {
    new=$(mktemp "$1.XXXXXX" 2>/dev/null) || return 1
    trap 'rm -f "$new"; exit 143' HUP TERM
    if chmod u+x "$new" && [ -x "$new" ] && unpack >"$new" && [ "$(sum_of "$new")" = "$boot_program" ]; then
        mv -f "$new" "$1" && trap - HUP TERM && return
    fi
    rm -f "$new"
    trap - HUP TERM
    return 1
} 2>/dev/null

# Why no folder at all takes the packed program; the status is 1 where some folder may.
fault_of_packed() {
    if ! unpack >/dev/null; then
        echo "neither xz nor Python with its module lzma is here, one of which unpacks the program in boot/"
    elif [ "$(unpack | sha256sum | cut -c 1-64)" != "$boot_program" ]; then
        echo "${packed#"$top/"} has another program than boot/PROVED names, so it is not run"
    else
        return 1
    fi
}

# Why a program does not start, or nothing where it does and answers the empty script.
fault_of_start() {
    said=$("$1" run 2>&1 </dev/null) && return
    have=$(getconf GNU_LIBC_VERSION 2>/dev/null)
    have=${have#glibc }
    if [ "$(printf '%s\n' "$boot_libc" "${have:-0}" | sort -V | head -n 1)" != "$boot_libc" ]; then
        echo "the program in boot/ needs the GNU C library from $boot_libc on, and this machine has ${have:-none}"
    else
        echo "the program in boot/ does not start here: $(echo "$said" | head -n 1)"
    fi
}
