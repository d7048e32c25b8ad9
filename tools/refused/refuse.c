/*
 * Makes one request for memory of a program fail: loaded by LD_PRELOAD, it returns NULL from the call of malloc, realloc or
 * aligned_alloc whose number is REFUSE_AT, and passes all others on. The numbers begin at 1.
 */
#define _GNU_SOURCE
#include <dlfcn.h>
#include <stdlib.h>
#include <string.h>

static unsigned long requests;

static int is_refused(void)
{
    static unsigned long refused;
    const char *number = requests++ ? NULL : getenv("REFUSE_AT");
    if (number)
        refused = strtoul(number, NULL, 10);
    return requests == refused;
}

/* The C library's function of this name. ISO C has no cast from the object pointer that dlsym returns. */
static void find(const char *name, void *function)
{
    void *found = dlsym(RTLD_NEXT, name);
    memcpy(function, &found, sizeof found);
}

void *malloc(size_t size)
{
    static void *(*real)(size_t);
    if (!real)
        find("malloc", &real);
    return is_refused() ? NULL : real(size);
}

void *realloc(void *old, size_t size)
{
    static void *(*real)(void *, size_t);
    if (!real)
        find("realloc", &real);
    return is_refused() ? NULL : real(old, size);
}

void *aligned_alloc(size_t alignment, size_t size)
{
    static void *(*real)(size_t, size_t);
    if (!real)
        find("aligned_alloc", &real);
    return is_refused() ? NULL : real(alignment, size);
}
