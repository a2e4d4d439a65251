# How the program and the benchmarks use the C library's memory: what one export frees is kept for the next, rather than
# given back to the system, and a thread's memory grows by 4 MiB at a time, rather than page by page, for which all threads
# would wait. A user who has other settings keeps them.
GLIBC_TUNABLES=${GLIBC_TUNABLES:-glibc.malloc.mmap_max=0:glibc.malloc.trim_threshold=1073741824:glibc.malloc.top_pad=4194304}
export GLIBC_TUNABLES

# Threads have the stack that `ulimit -s` says. Where it says that there is no limit, the C library gives them 2 MiB, which is
# less than the deepest sources need.
[ "$(ulimit -s)" != unlimited ] || ulimit -S -s 8192
