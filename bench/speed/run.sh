#!/bin/bash
# Times runs over a device beside runs in the tree in memory, and counts their memory and the system calls of a run on a
# file. Run by hand: it wants gcc, since memory is counted by a small library that stands before the C library's malloc,
# and strace.
#
# Prints what one mkdir of a hundred costs over a device in memory beside one in the tree in memory, and the first one of
# a run beside one of a hundred; how often a mkdir allocates, and how many bytes more are allocated after it; and how many
# writes and syncs a mkdir makes of a file. Each time is the least of 200 runs, without that of a run that makes none. The
# bytes are those that a run has at its most, with the reply to each call and without the list of calls; over a device in
# memory the device's record of its writes is among them, and on a file there is none.
set -eu
top=$(cd "$(dirname "$0")/../.." && pwd)
work=$(mktemp -d)
trap 'rm -rf "$work"' EXIT
"$top/bench/speed/program.py" measure_runs
program=$top/bench/speed/out/measure_runs

"$program" time > "$work/times"
awk '{ device[$1] = $2; memory[$1] = $3 } END {
    hundred = (device[100] - device[0]) / 100
    plain = (memory[100] - memory[0]) / 100
    printf "a mkdir over a device in memory: %.2f us, %.1f of one in the tree in memory (%.2f us)\n", hundred / 1000, hundred / plain, plain / 1000
    printf "the first mkdir of a run: %.2f of one of a hundred\n", (device[1] - device[0]) / hundred
}' "$work/times"

cat > "$work/count.c" <<'C'
#define _GNU_SOURCE
#include <dlfcn.h>
#include <malloc.h>
#include <stdio.h>
#include <stdlib.h>

static long count, live, peak;

static void *took(void *at) {
    if (at) {
        count++;
        live += malloc_usable_size(at);
        if (live > peak)
            peak = live;
    }
    return at;
}

#define REAL(name) static __typeof__(&name) real; if (!real) real = (__typeof__(&name))dlsym(RTLD_NEXT, #name)

void *malloc(size_t size) { REAL(malloc); return took(real(size)); }
void *aligned_alloc(size_t to, size_t size) { REAL(aligned_alloc); return took(real(to, size)); }
void *realloc(void *old, size_t size) {
    REAL(realloc);
    long before = old ? malloc_usable_size(old) : 0;
    void *at = real(old, size);
    if (at)
        live -= before;
    return took(at);
}
int posix_memalign(void **at, size_t to, size_t size) {
    REAL(posix_memalign);
    int answer = real(at, to, size);
    if (!answer)
        took(*at);
    return answer;
}
extern void *__libc_calloc(size_t, size_t);
void *calloc(size_t n, size_t size) { return took(__libc_calloc(n, size)); }
void free(void *at) {
    REAL(free);
    if (at)
        live -= malloc_usable_size(at);
    real(at);
}

__attribute__((destructor)) static void tell(void) {
    long allocations = count, bytes = peak;
    FILE *file = fopen(getenv("COUNTED"), "w");
    fprintf(file, "%ld %ld\n", allocations, bytes);
    fclose(file);
}
C
gcc -O1 -shared -fPIC -o "$work/count.so" "$work/count.c" -ldl

# How often a run of so many mkdir allocates, and the most bytes that it has.
memory() {
    COUNTED=$work/counted LD_PRELOAD=$work/count.so "$program" "$@"
    cat "$work/counted"
}

# The same of a hundred mkdir alone, at a place.
hundred() {
    local allocations bytes allocations_none bytes_none
    read -r allocations_none bytes_none <<< "$(memory "$@" 0)"
    read -r allocations bytes <<< "$(memory "$@" 100)"
    echo "$1 $2 $((allocations - allocations_none)) $((bytes - bytes_none))"
}
{
    hundred once nowhere
    hundred once device
    hundred once tree
    hundred file "$work/disk"
} | awk '
    $2 == "nowhere" { none = $3; list = $4; next }
    { place = $1 == "file" ? "file" : $2; calls[place] = ($3 - none) / 100; bytes[place] = ($4 - list) / 100 }
    END {
        form = "a mkdir %s: %.1f allocations, %.2f of one in the tree in memory (%.1f); %.0f bytes more, %.2f of it (%.0f)\n"
        printf form, "over a device in memory", calls["device"], calls["device"] / calls["tree"], calls["tree"], bytes["device"], bytes["device"] / bytes["tree"], bytes["tree"]
        printf form, "on a file", calls["file"], calls["file"] / calls["tree"], calls["tree"], bytes["file"], bytes["file"] / bytes["tree"], bytes["tree"]
    }'

# How often a run of so many mkdir on a file calls the system.
calls() {
    strace -f -c -o "$work/trace" "$program" file "$work/disk" "$1"
    awk '/write/ { writes += $4 } /sync/ { syncs += $4 } END { print writes, syncs }' "$work/trace"
}
read -r writes_none syncs_none <<< "$(calls 0)"
read -r writes syncs <<< "$(calls 100)"
awk -v w=$((writes - writes_none)) -v s=$((syncs - syncs_none)) 'BEGIN { printf "a mkdir on a file: %.2f writes, %.2f syncs\n", w / 100, s / 100 }'
