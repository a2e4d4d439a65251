#!/bin/sh
# Runs the program on a script again and again, each time with one allocation more that succeeds before one is refused, with
# one and with eight workers, until a run is refused none. Each run has to end with the status of Done or of NoMemory, and
# the replies of a run that is done have to be those of the script without the commands that were answered `nomem`. Run by
# hand, after `rt ci` has built the program; it needs a C compiler for the one call that refuses.
set -u
top=$(cd "$(dirname "$0")/.." && pwd) || exit 1
program=$top/crates/scadserve/out/scadserve
if [ ! -x "$program" ]; then
    echo "refused-memory: 'rt ci' builds the program that this runs" >&2
    exit 2
fi
work=$(mktemp -d) || exit 1
trap 'rm -rf "$work"' EXIT
trap 'exit 1' HUP INT TERM

# Refuses the allocation of the number in REFUSED, and then leaves a file to tell so.
cat >"$work/refuse.c" <<'END'
#define _GNU_SOURCE
#include <dlfcn.h>
#include <errno.h>
#include <fcntl.h>
#include <stdatomic.h>
#include <stdlib.h>
#include <unistd.h>

static atomic_long count;
static long refused;

__attribute__((constructor)) static void begin(void) {
    const char *number = getenv("REFUSED");
    atomic_store(&count, 0);
    refused = number ? atol(number) : 0;
}

static int refuses(void) {
    if (refused == 0 || atomic_fetch_add(&count, 1) + 1 != refused) return 0;
    int told = open(getenv("TOLD"), O_CREAT | O_WRONLY, 0600);
    if (told >= 0) close(told);
    errno = ENOMEM;
    return 1;
}

#define REAL(name, type) static __typeof__(type) *real; if (!real) real = (__typeof__(type) *)dlsym(RTLD_NEXT, name)

void *malloc(size_t size) {
    REAL("malloc", void *(size_t));
    return refuses() ? NULL : real(size);
}

void *realloc(void *old, size_t size) {
    REAL("realloc", void *(void *, size_t));
    return refuses() ? NULL : real(old, size);
}

void *aligned_alloc(size_t align, size_t size) {
    REAL("aligned_alloc", void *(size_t, size_t));
    return refuses() ? NULL : real(align, size);
}

int posix_memalign(void **out, size_t align, size_t size) {
    REAL("posix_memalign", int(void **, size_t, size_t));
    return refuses() ? ENOMEM : real(out, align, size);
}
END
cc -O2 -shared -fPIC -o "$work/refuse.so" "$work/refuse.c" -ldl || exit 1

# The lines that client a puts, and two exports.
awk '/^a / { print }' "$top/examples/plate.script" >"$work/script"

# The replies without their numbers, and without those of commands for which memory ran out.
replies() {
    awk 'left > 0 { left--; print; next } /^== / { print; next } $2 == "nomem" { next }
        { if ($2 == "text" || $2 == "solid") left = $3; sub(/^[0-9]+ /, ""); print }' "$1"
}

# The script without the commands for which memory ran out.
answered() {
    awk 'FNR == NR {
            if (left > 0) left--
            else if ($2 == "nomem") gone[$1] = 1
            else if ($2 == "text" || $2 == "solid") left = $3
            next
        }
        !(FNR in gone) { print }' "$1" "$work/script"
}

for workers in 1 8; do
    number=0
    done=0
    wanting=0
    while :; do
        number=$((number + 1))
        rm -f "$work/told"
        REFUSED=$number TOLD=$work/told LD_PRELOAD=$work/refuse.so \
            "$program" run --workers $workers <"$work/script" >"$work/out"
        status=$?
        if [ $status -ne 0 ] && [ $status -ne 6 ]; then
            echo "refused-memory: status $status at allocation $number of $workers workers" >&2
            exit 1
        fi
        if [ $status -eq 6 ]; then
            wanting=$((wanting + 1))
        else
            done=$((done + 1))
            answered "$work/out" >"$work/left"
            "$program" run --workers $workers <"$work/left" >"$work/wanted" || exit 1
            replies "$work/out" >"$work/told_replies"
            replies "$work/wanted" >"$work/wanted_replies"
            if ! cmp -s "$work/told_replies" "$work/wanted_replies"; then
                echo "refused-memory: other replies at allocation $number of $workers workers" >&2
                exit 1
            fi
        fi
        [ -e "$work/told" ] || break
    done
    echo "$workers workers: $number runs, $done done and $wanting without memory, each as it must be"
done
