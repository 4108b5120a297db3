/* Refuses one request for memory: loaded before a program (LD_PRELOAD), it counts the calls of malloc and realloc, and the
   one with the number REFUSED, from 1, answers that there is no memory. The count stands in the file COUNT, 8 bytes. */
#include <fcntl.h>
#include <stdatomic.h>
#include <stddef.h>
#include <stdlib.h>
#include <sys/mman.h>
#include <unistd.h>

extern void *__libc_malloc(size_t size);
extern void *__libc_realloc(void *old, size_t size);

static atomic_ulong before_main;
static atomic_ulong *count = &before_main;
static unsigned long refused;

__attribute__((constructor)) static void begin(void)
{
    const char *number = getenv("REFUSED"), *name = getenv("COUNT");
    int file = name ? open(name, O_RDWR) : -1;
    void *kept = file < 0 ? MAP_FAILED : mmap(NULL, sizeof *count, PROT_READ | PROT_WRITE, MAP_SHARED, file, 0);
    if (kept != MAP_FAILED)
        count = kept;
    if (file >= 0)
        close(file);
    refused = number ? strtoul(number, NULL, 10) : 0;
}

static int is_refused(void)
{
    return atomic_fetch_add(count, 1) + 1 == refused;
}

void *malloc(size_t size)
{
    return is_refused() ? NULL : __libc_malloc(size);
}

void *realloc(void *old, size_t size)
{
    return is_refused() ? NULL : __libc_realloc(old, size);
}
