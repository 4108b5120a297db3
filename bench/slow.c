/* Makes a disk slow: loaded before a program (LD_PRELOAD), fsync and fdatasync sleep for SYNC_SLEEP microseconds before they do what
   they do else. How often both were called stands in the file SYNC_COUNT, 8 bytes. */
#include <errno.h>
#include <fcntl.h>
#include <stdatomic.h>
#include <stdlib.h>
#include <sys/mman.h>
#include <sys/prctl.h>
#include <sys/syscall.h>
#include <time.h>
#include <unistd.h>

static atomic_ulong alone;
static atomic_ulong *count = &alone;
static struct timespec sleeps;

__attribute__((constructor)) static void begin(void)
{
    const char *microseconds = getenv("SYNC_SLEEP"), *name = getenv("SYNC_COUNT");
    unsigned long each = microseconds ? strtoul(microseconds, NULL, 10) : 0;
    int file = name ? open(name, O_RDWR) : -1;
    void *kept = file < 0 ? MAP_FAILED : mmap(NULL, sizeof *count, PROT_READ | PROT_WRITE, MAP_SHARED, file, 0);
    if (kept != MAP_FAILED)
        count = kept;
    if (file >= 0)
        close(file);
    sleeps = (struct timespec){each / 1000000, each % 1000000 * 1000};
    /* (else a sleep takes 50 microseconds more) */
    prctl(PR_SET_TIMERSLACK, 1, 0, 0, 0);
}

static void wait_for_disk(void)
{
    struct timespec left = sleeps;
    atomic_fetch_add(count, 1);
    if (sleeps.tv_sec || sleeps.tv_nsec)
        while (nanosleep(&left, &left) && errno == EINTR)
            ;
}

int fsync(int file)
{
    wait_for_disk();
    return syscall(SYS_fsync, file);
}

int fdatasync(int file)
{
    wait_for_disk();
    return syscall(SYS_fdatasync, file);
}
