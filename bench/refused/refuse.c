/* Refuses the allocation whose number is in REFUSE, counted from 1, and then writes a byte to the file named in TOLD. */
#define _GNU_SOURCE
#include <dlfcn.h>
#include <errno.h>
#include <fcntl.h>
#include <stdlib.h>
#include <unistd.h>

static int refused(void) {
    static unsigned long asked, which = -1UL;
    if (which == -1UL) {
        const char *text = getenv("REFUSE");
        which = text ? strtoul(text, 0, 10) : 0;
    }
    if (++asked != which) return 0;
    const char *name = getenv("TOLD");
    int file = name ? open(name, O_WRONLY) : -1;
    if (file < 0 || write(file, "x", 1) != 1) abort();
    close(file);
    errno = ENOMEM;
    return 1;
}

void *malloc(size_t size) {
    static void *(*next)(size_t);
    if (!next) next = dlsym(RTLD_NEXT, "malloc");
    return refused() ? 0 : next(size);
}

void *realloc(void *old, size_t size) {
    static void *(*next)(void *, size_t);
    if (!next) next = dlsym(RTLD_NEXT, "realloc");
    return refused() ? 0 : next(old, size);
}
