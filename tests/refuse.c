// Refuses requests for memory: preloaded into a program, the request number REFUSE of malloc or realloc answers none; with STICKY so does each later
// one. The first refusal makes the file MET.
#define _GNU_SOURCE
#include <dlfcn.h>
#include <fcntl.h>
#include <stdatomic.h>
#include <stdlib.h>
#include <unistd.h>

static atomic_long requests;
static long refused;
static int is_sticky;
static void *(*real_malloc)(size_t);
static void *(*real_realloc)(void *, size_t);

static void find(void) {
    real_malloc = (void *(*)(size_t))dlsym(RTLD_NEXT, "malloc");
    real_realloc = (void *(*)(void *, size_t))dlsym(RTLD_NEXT, "realloc");
}

__attribute__((constructor)) static void begin(void) {
    const char *number = getenv("REFUSE");
    find();
    refused = number ? atol(number) : 0;
    is_sticky = getenv("STICKY") != NULL;
    atomic_store(&requests, 0);
}

// By calls that ask for no memory, since a program may end without its destructors.
static void tell(void) {
    const char *name = getenv("MET");
    int file = name ? open(name, O_WRONLY | O_CREAT | O_TRUNC, 0600) : -1;
    if (file >= 0) close(file);
}

static int is_refused(void) {
    long number = atomic_fetch_add(&requests, 1) + 1;
    if (refused > 0 && number == refused) tell();
    return refused > 0 && (number == refused || (is_sticky && number > refused));
}

void *malloc(size_t size) {
    if (!real_malloc) find();
    return is_refused() ? NULL : real_malloc(size);
}

void *realloc(void *block, size_t size) {
    if (!real_realloc) find();
    return is_refused() ? NULL : real_realloc(block, size);
}
