/* Writes down what a program does to the files of a folder, from which bench/power-cuts makes these files as a cut of the power leaves
   them. Loaded before a program (LD_PRELOAD), it appends a record to the file CUTS_LOG for each of these, in the order in which they
   come, those of all threads:

   O  a file of the folder CUTS_FOLDER, or the folder itself, is opened for the first time: its path
   W  bytes that are written at a place of a file
   T  a file gets a length
   S  a sync of a file begins; the place is its number, from 1
   E  a sync is done: what was written before its S is on the disk
   F  a sync has failed
   R  bytes that are sent over a socket, or written to the standard output

   A record is its kind, the file's number (of R the handle), a place, a number of bytes, and these bytes. One lock is held while
   a record and what it tells of are made, but not while a sync goes on: this takes CUTS_SLEEP microseconds, and the real one isn't
   made, so the files are those that a kill leaves. A file is known by its inode, through whatever handle it comes.

   To show that what is wrong is found, the disk has a fault where these end the file's path: with CUTS_DROP syncs are told to be done and
   never are, with CUTS_LATE each one is done only when the next one is told to be. CUTS_FAIL=n has the n-th sync fail. */
#define _GNU_SOURCE
#include <errno.h>
#include <fcntl.h>
#include <limits.h>
#include <pthread.h>
#include <stdarg.h>
#include <stdint.h>
#include <stdio.h>
#include <stdlib.h>
#include <string.h>
#include <sys/socket.h>
#include <sys/stat.h>
#include <sys/syscall.h>
#include <sys/uio.h>
#include <time.h>
#include <unistd.h>

enum { MOST = 64 };

struct record {
    uint32_t kind, file;
    uint64_t place, size;
};

struct known {
    dev_t device;
    ino_t inode;
    int drops, is_late;
    uint64_t pending;
};

static pthread_mutex_t lock = PTHREAD_MUTEX_INITIALIZER;
static struct known files[MOST];
static int count, output = -1;
static uint64_t syncs, fails;
static const char *folder = "", *dropped, *late;
static struct timespec sleeps;

static void note(uint32_t kind, uint32_t file, uint64_t place, const void *bytes, size_t size)
{
    struct record record = {kind, file, place, size};
    struct iovec parts[] = {{&record, sizeof record}, {(void *)bytes, size}};
    if (output >= 0 && writev(output, parts, 2) != (ssize_t)(sizeof record + size))
        abort();
}

static unsigned long number(const char *name)
{
    const char *value = getenv(name);
    return value ? strtoul(value, NULL, 10) : 0;
}

__attribute__((constructor)) static void begin(void)
{
    const char *name = getenv("CUTS_LOG");
    unsigned long each = number("CUTS_SLEEP");
    output = name ? syscall(SYS_openat, AT_FDCWD, name, O_WRONLY | O_CREAT | O_APPEND | O_CLOEXEC, 0644) : -1;
    folder = getenv("CUTS_FOLDER") ? getenv("CUTS_FOLDER") : "";
    dropped = getenv("CUTS_DROP");
    late = getenv("CUTS_LATE");
    fails = number("CUTS_FAIL");
    sleeps = (struct timespec){each / 1000000, each % 1000000 * 1000};
}

static int ends(const char *path, const char *end)
{
    return end && strlen(path) >= strlen(end) && !strcmp(path + strlen(path) - strlen(end), end);
}

/* The number of a file that was opened, -1 where it is none of the folder's. With the lock. */
static int place_of(int handle)
{
    struct stat found;
    if (count && !fstat(handle, &found))
        for (int at = 0; at < count; at++)
            if (files[at].inode == found.st_ino && files[at].device == found.st_dev)
                return at;
    return -1;
}

/* Notes a file that is opened for the first time. With the lock. */
static void meet(int handle)
{
    char link[64], path[PATH_MAX];
    struct stat found;
    snprintf(link, sizeof link, "/proc/self/fd/%d", handle);
    ssize_t size = readlink(link, path, sizeof path - 1);
    if (size < 0 || fstat(handle, &found) || place_of(handle) >= 0)
        return;
    path[size] = 0;
    if (!*folder || strncmp(path, folder, strlen(folder)) || !(S_ISREG(found.st_mode) || S_ISDIR(found.st_mode)))
        return;
    if (count == MOST)
        abort();
    files[count] = (struct known){found.st_dev, found.st_ino, ends(path, dropped), ends(path, late), 0};
    note('O', count, 0, path, size);
    count++;
}

int openat(int at, const char *path, int flags, ...)
{
    va_list more;
    va_start(more, flags);
    mode_t mode = flags & (O_CREAT | O_TMPFILE) ? va_arg(more, mode_t) : 0;
    va_end(more);
    pthread_mutex_lock(&lock);
    int handle = syscall(SYS_openat, at, path, flags, mode);
    int error = errno;
    if (handle >= 0)
        meet(handle);
    pthread_mutex_unlock(&lock);
    errno = error;
    return handle;
}

int open(const char *path, int flags, ...)
{
    va_list more;
    va_start(more, flags);
    mode_t mode = flags & (O_CREAT | O_TMPFILE) ? va_arg(more, mode_t) : 0;
    va_end(more);
    return openat(AT_FDCWD, path, flags, mode);
}

ssize_t pwrite(int handle, const void *bytes, size_t size, off_t place)
{
    pthread_mutex_lock(&lock);
    int file = place_of(handle);
    if (file >= 0)
        note('W', file, place, bytes, size);
    ssize_t done = syscall(SYS_pwrite64, handle, bytes, size, place);
    pthread_mutex_unlock(&lock);
    return done;
}

ssize_t write(int handle, const void *bytes, size_t size)
{
    pthread_mutex_lock(&lock);
    int file = place_of(handle);
    struct stat found;
    if (file >= 0 && !fstat(handle, &found))
        note('W', file, fcntl(handle, F_GETFL) & O_APPEND ? found.st_size : lseek(handle, 0, SEEK_CUR), bytes, size);
    if (file < 0 && handle == STDOUT_FILENO)
        note('R', handle, 0, bytes, size);
    if (file < 0)
        pthread_mutex_unlock(&lock);
    ssize_t done = syscall(SYS_write, handle, bytes, size);
    if (file >= 0)
        pthread_mutex_unlock(&lock);
    return done;
}

int ftruncate(int handle, off_t size)
{
    pthread_mutex_lock(&lock);
    int file = place_of(handle);
    if (file >= 0)
        note('T', file, size, NULL, 0);
    int done = syscall(SYS_ftruncate, handle, size);
    pthread_mutex_unlock(&lock);
    return done;
}

static int synced(int handle)
{
    pthread_mutex_lock(&lock);
    int file = place_of(handle);
    uint64_t mine = ++syncs;
    if (file >= 0)
        note('S', file, mine, NULL, 0);
    pthread_mutex_unlock(&lock);
    struct timespec left = sleeps;
    if (sleeps.tv_sec || sleeps.tv_nsec)
        while (nanosleep(&left, &left) && errno == EINTR)
            ;
    pthread_mutex_lock(&lock);
    int has_failed = mine == fails;
    if (file >= 0 && has_failed) {
        note('F', file, mine, NULL, 0);
    } else if (file >= 0 && !files[file].drops) {
        uint64_t done = files[file].is_late ? files[file].pending : mine;
        files[file].pending = mine;
        if (done)
            note('E', file, done, NULL, 0);
    }
    pthread_mutex_unlock(&lock);
    if (has_failed)
        errno = EIO;
    return has_failed ? -1 : 0;
}

int fsync(int handle)
{
    return synced(handle);
}

int fdatasync(int handle)
{
    return synced(handle);
}

ssize_t send(int handle, const void *bytes, size_t size, int flags)
{
    pthread_mutex_lock(&lock);
    note('R', handle, 0, bytes, size);
    pthread_mutex_unlock(&lock);
    return sendto(handle, bytes, size, flags, NULL, 0);
}

int open64(const char *, int, ...) __attribute__((alias("open")));
int openat64(int, const char *, int, ...) __attribute__((alias("openat")));
ssize_t pwrite64(int, const void *, size_t, off_t) __attribute__((alias("pwrite")));
ssize_t __write(int, const void *, size_t) __attribute__((alias("write")));
int ftruncate64(int, off_t) __attribute__((alias("ftruncate")));
