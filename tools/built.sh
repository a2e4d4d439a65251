# What is known of the program at crates/scadserve/out. Read by the starter, by .ci/run and by tools that need the program,
# which have set `top`, the folder of the sources.
#
# The program is that of the sources where a line of a record holds its sum and theirs. .ci/run writes the records: one beside
# the program, which goes where `rt ci` makes the program anew, and one for each user, so that a program is known again in
# another clone of the same sources. The sources are crates.txt, HANDLES and all files in src, specs and proofs of each crate.
program=$top/crates/scadserve/out/scadserve
record=$program.proved
users_record=${XDG_STATE_HOME:-${HOME:+$HOME/.local/state}}
users_record=${users_record:+$users_record/scadserve/proved}

# Runs find over the sources, with these words behind. (Where no crate has specs, say, that is not a failure.)
sources() {
    (cd "$top" && find crates.txt HANDLES crates/*/src crates/*/specs crates/*/proofs "$@" 2>/dev/null) || :
}

# (sha256sum writes its lines whole, so four of them side by side may share a pipe)
sum_of_sources() {
    sources ! -type d -print0 | (cd "$top" && xargs -0 -n 400 -P 4 sha256sum) | LC_ALL=C sort -k 2 | sha256sum | cut -c 1-64
}

sum_of() {
    sha256sum <"$1" | cut -c 1-64
}

sum_of_program() {
    sum_of "$program"
}

# The version of the C library that the program needs.
libc_of_program() {
    grep -ao 'GLIBC_[0-9.]*' "$program" | sort -uV | tail -n 1 | cut -d _ -f 2
}

# Runs find over a program and the sources, and over the folders above the sources, which may be moved as they are.
sources_and() {
    one=$1
    shift
    (cd "$top" &&
        find "$one" crates.txt HANDLES crates -path 'crates/*/out' ! -path 'crates/*/*/out' -prune -o "$@" 2>/dev/null)
}

# What tells whether a file or folder was touched: nobody can set the last time.
as_it_stands='%p %i %C@\n'

# What tells, in one line, whether a program, the sources or these folders were touched.
as_all_stand() {
    { echo "$top" && sources_and "$1" -printf "$as_it_stands"; } | sha256sum
}

# Whether the program is there and was proved and built from the sources. What was found so is not summed again until one of
# the files is touched. What was touched just now might be once more at the same time, so that is summed again.
is_built() {
    [ -x "$program" ] || return 1
    stand=$(as_all_stand "$program")
    if grep -qxF "$stand" "$program.seen" 2>/dev/null; then
        return 0
    fi
    pair="$(sum_of_program) $(sum_of_sources)"
    is_recorded "$pair" || { rt_ci_left_it && keep_record "$pair"; } || return 1
    if [ -z "$(sources_and "$program" -newerct '2 seconds ago' -print -quit)" ]; then
        { echo "$stand" >"$program.seen"; } 2>/dev/null || :
    fi
}

is_recorded() {
    grep -qxF "$1" "$record" 2>/dev/null || { [ -n "$users_record" ] && grep -qxF "$1" "$users_record" 2>/dev/null; }
}

# Notes that the program of the one sum was proved and built from the sources of the other.
keep_record() {
    echo "$1" >"$record" || return 1
    if [ -n "$users_record" ] && ! grep -qxF "$1" "$users_record" 2>/dev/null; then
        { mkdir -p "$(dirname "$users_record")" && echo "$1" >>"$users_record"; } || :
    fi 2>/dev/null
}

# Whether `rt ci`, of which nothing is recorded, left the program here, and no source was touched since it began. It makes each
# crate's out before it reads the crate, and the program's out/stdout as it runs the program, once all is proved. So each
# source was last changed before any out was born, and the program after that and before out/stdout was born. Times are whole
# seconds, and a source of the same second as the first out counts as changed. A file system that keeps no births has them at 0.
rt_ci_left_it() {
    (
        cd "$top" || exit 1
        crates=$(sed -n 's/^\([a-z0-9_]\{1,\}\)[^:#]*:.*/\1/p' crates.txt)
        [ -n "$crates" ] || exit 1
        born=$(for crate in $crates; do stat -c %W "crates/$crate/out" || echo 0; done 2>/dev/null | sort -n)
        first=$(echo "$born" | head -n 1)
        last=$(echo "$born" | tail -n 1)
        changed=$(sources -printf '%C@\n' | sort -n | tail -n 1)
        ran=$(stat -c %W crates/scadserve/out/stdout 2>/dev/null) || exit 1
        built=$(stat -c %Z crates/scadserve/out/scadserve) || exit 1
        [ "${changed%.*}" -lt "$first" ] && [ "$last" -le "$ran" ] && [ "$first" -le "$built" ] && [ "$built" -le "$ran" ]
    )
}
