# Counts the memory that a program holds, for scripts that source this: `peak COMMAND..` runs it and prints the most bytes
# that it held at a time. It wants gcc, since they are counted by a small library that stands before the C library's malloc.

# peak_into FOLDER: makes the library there
peak_into() {
    cat > "$1/peak.c" <<'C'
#define _GNU_SOURCE
#include <dlfcn.h>
#include <malloc.h>
#include <stdio.h>
#include <stdlib.h>

static size_t held, most;

static void *noted(void *at) {
    if (at && (held += malloc_usable_size(at)) > most)
        most = held;
    return at;
}

#define REAL(name) static __typeof__(&name) real; if (!real) real = (__typeof__(&name))dlsym(RTLD_NEXT, #name)

void *malloc(size_t size) { REAL(malloc); return noted(real(size)); }
void *aligned_alloc(size_t to, size_t size) { REAL(aligned_alloc); return noted(real(to, size)); }
int posix_memalign(void **at, size_t to, size_t size) {
    REAL(posix_memalign);
    int status = real(at, to, size);
    if (!status) noted(*at);
    return status;
}
extern void *__libc_calloc(size_t, size_t);
void *calloc(size_t n, size_t size) { return noted(__libc_calloc(n, size)); }
void *realloc(void *old, size_t size) {
    REAL(realloc);
    size_t before = old ? malloc_usable_size(old) : 0;
    void *at = real(old, size);
    if (at) held -= before;
    return noted(at);
}
void free(void *at) {
    REAL(free);
    if (at) held -= malloc_usable_size(at);
    real(at);
}

__attribute__((destructor)) static void tell(void) { fprintf(stderr, "%zu\n", most); }
C
    gcc -O1 -shared -fPIC -o "$1/peak.so" "$1/peak.c" -ldl
    peak_library=$1/peak.so
}

peak() {
    LD_PRELOAD=$peak_library "$@" 2>&1 > /dev/null | tail -n 1
}
