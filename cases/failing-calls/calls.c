// Stands between the program and the C library, and has one kind of its calls fail or do less, or ends the program at
// one that changes a file. CALLS says which:
//
//   read|write|pwrite MOST GOOD ERROR TIMES
//            such a call (read of any file, write to standard output) takes at most MOST bytes; behind GOOD of them
//            TIMES (-1: all) fail with this error
//   kill PERCENT GOOD
//            the program ends at the call that changes a file behind GOOD of them: of a pwrite so many of a hundred
//            bytes are done, of any other call nothing
//   loss PERCENT GOOD
//            likewise, and before these bytes all is undone that was written to a file and not synced, as where the
//            power fails
//
// The exit status of a program that was ended is STOPPED, and 1 more if that call has bytes to be halved, and 2 more if
// something was not synced.
#define _GNU_SOURCE
#include <dlfcn.h>
#include <errno.h>
#include <fcntl.h>
#include <stdarg.h>
#include <stdio.h>
#include <stdlib.h>
#include <string.h>
#include <sys/stat.h>
#include <sys/types.h>
#include <unistd.h>

enum { STOPPED = 96, MOST_UNSYNCED = 4096 };

#define NEXT(name) ((__typeof__(&name)) dlsym(RTLD_NEXT, #name))

// What a file held before it was changed: so many bytes in all, and of these those that were changed.
struct held {
    int file;
    off_t all, place;
    ssize_t size;
    char *bytes;
};

static char failing[8];
static long most, good, error, times, calls;
static int is_kill, is_loss, count;
static struct held unsynced[MOST_UNSYNCED];

__attribute__((constructor)) static void begin(void)
{
    const char *told = getenv("CALLS");
    if (told) sscanf(told, "%7s %ld %ld %ld %ld", failing, &most, &good, &error, &times);
    is_loss = !strcmp(failing, "loss");
    is_kill = is_loss || !strcmp(failing, "kill");
}

// ---- calls that fail

// How many of the bytes the call takes, or -1 where it fails.
static ssize_t taken(const char *name, size_t size)
{
    if (strcmp(name, failing)) return size;
    long number = calls++;
    if (number >= good && (times < 0 || number < good + times)) return errno = error, -1;
    return size < (size_t) most ? (ssize_t) size : most;
}

ssize_t read(int file, void *to, size_t size)
{
    ssize_t part = taken("read", size);
    return part < 0 ? -1 : NEXT(read)(file, to, part);
}

ssize_t write(int file, const void *from, size_t size)
{
    ssize_t part = file == STDOUT_FILENO ? taken("write", size) : (ssize_t) size;
    return part <= 0 ? part : NEXT(write)(file, from, part);
}

ssize_t __write(int file, const void *from, size_t size) { return write(file, from, size); }

// ---- the end of the program

// Keeps what a file holds in a place that is about to be changed.
static void keep(int file, off_t place, off_t end)
{
    struct stat about;
    if (!is_kill || fstat(file, &about)) return;
    if (count == MOST_UNSYNCED) abort();
    off_t last = end < about.st_size ? end : about.st_size;
    struct held *held = &unsynced[count++];
    *held = (struct held) {file, about.st_size, place, last > place ? last - place : 0, NULL};
    held->bytes = malloc(held->size + 1);
    if (!held->bytes || pread(file, held->bytes, held->size, place) != held->size) abort();
}

static void forget(int file)
{
    int left = 0;
    for (int at = 0; at < count; at++) {
        if (unsynced[at].file == file) free(unsynced[at].bytes);
        else unsynced[left++] = unsynced[at];
    }
    count = left;
}

static void undo(void)
{
    while (count) {
        struct held *held = &unsynced[--count];
        if (NEXT(pwrite)(held->file, held->bytes, held->size, held->place) != held->size) abort();
        if (NEXT(ftruncate)(held->file, held->all)) abort();
    }
}

// Ends the program if this call of those that change a file is the one: it may write so many bytes.
static void change(int file, const void *from, size_t size, off_t place)
{
    if (!is_kill || calls++ != good) return;
    int status = STOPPED + (size > 1) + 2 * (count > 0);
    if (is_loss) undo();
    if (size && NEXT(pwrite)(file, from, size * most / 100, place) < 0) abort();
    _exit(status);
}

ssize_t pwrite(int file, const void *from, size_t size, off_t place)
{
    change(file, from, size, place);
    keep(file, place, place + size);
    ssize_t part = taken("pwrite", size);
    return part < 0 ? -1 : NEXT(pwrite)(file, from, part, place);
}

ssize_t pwrite64(int file, const void *from, size_t size, off_t place) { return pwrite(file, from, size, place); }

int ftruncate(int file, off_t size)
{
    struct stat about;
    change(file, NULL, 0, 0);
    if (!fstat(file, &about)) keep(file, size, about.st_size);
    return NEXT(ftruncate)(file, size);
}

int fsync(int file)
{
    change(file, NULL, 0, 0);
    forget(file);
    return NEXT(fsync)(file);
}

int fdatasync(int file)
{
    change(file, NULL, 0, 0);
    forget(file);
    return NEXT(fdatasync)(file);
}

int open(const char *path, int flags, ...)
{
    va_list more;
    va_start(more, flags);
    mode_t mode = flags & (O_CREAT | O_TMPFILE) ? va_arg(more, mode_t) : 0;
    va_end(more);
    if (flags & O_CREAT) change(-1, NULL, 0, 0);
    return NEXT(open)(path, flags, mode);
}

// What is drawn by lot is the same in each run that ends, so that what it leaves is too.
int getentropy(void *to, size_t size)
{
    return is_kill ? memset(to, 7, size), 0 : NEXT(getentropy)(to, size);
}

int rename(const char *from, const char *to)
{
    change(-1, NULL, 0, 0);
    return NEXT(rename)(from, to);
}

int unlink(const char *path)
{
    change(-1, NULL, 0, 0);
    return NEXT(unlink)(path);
}
