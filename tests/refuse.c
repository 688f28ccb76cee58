/* Stands before the C library's allocator (LD_PRELOAD) and refuses requests for memory.
 *
 *   REFUSE=N        the N-th request is refused, counted from 1
 *   REFUSE_LATER=1  and all that come after it
 *   REFUSE_COUNT=F  how many requests there were is written to the file F at the end
 */
#define _GNU_SOURCE
#include <dlfcn.h>
#include <stdio.h>
#include <stdlib.h>

static unsigned long requests, refused_at;
static int refuses_later;
static void *(*next_malloc)(size_t);
static void *(*next_realloc)(void *, size_t);

__attribute__((constructor)) static void begin(void)
{
    const char *at = getenv("REFUSE"), *later = getenv("REFUSE_LATER");

    next_malloc = (void *(*)(size_t))dlsym(RTLD_NEXT, "malloc");
    next_realloc = (void *(*)(void *, size_t))dlsym(RTLD_NEXT, "realloc");
    refused_at = at ? strtoul(at, NULL, 10) : 0;
    refuses_later = later != NULL;
    requests = 0;
}

static int is_refused(void)
{
    requests++;
    return refused_at && (requests == refused_at || (refuses_later && requests > refused_at));
}

void *malloc(size_t size)
{
    if (!next_malloc)
        next_malloc = (void *(*)(size_t))dlsym(RTLD_NEXT, "malloc");
    return is_refused() ? NULL : next_malloc(size);
}

void *realloc(void *old, size_t size)
{
    if (!next_realloc)
        next_realloc = (void *(*)(void *, size_t))dlsym(RTLD_NEXT, "realloc");
    return is_refused() ? NULL : next_realloc(old, size);
}

__attribute__((destructor)) static void end(void)
{
    const char *name = getenv("REFUSE_COUNT");
    unsigned long count = requests;
    FILE *file;

    refused_at = 0;
    if (!name || !(file = fopen(name, "w")))
        return;
    fprintf(file, "%lu\n", count);
    fclose(file);
}
