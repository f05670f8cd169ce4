// Stands between the program and the C library, and has one of its calls fail. tools/faults builds and loads it.
//
// FAULT says which, by its number among the program's own calls:
//
//   growth N        the Nth growth of memory (malloc, realloc) is refused, and no other
//   growths N       that one and all behind it are
//   call N HOW      the Nth call of the system; HOW is EIO, ENOSPC, EINTR (it fails so, and does nothing), short (it
//                   reads or writes half of what it was asked), before, within, behind (the program is killed there)
//   places          none, and the place of each growth is noted
//
// FAULT_NOTES names a file that holds struct notes: it is mapped, so a kill takes nothing of it away. What the loader
// and the C library call for themselves is never counted: the caller's place tells whose call it is.
#define _GNU_SOURCE
#include <dlfcn.h>
#include <errno.h>
#include <fcntl.h>
#include <link.h>
#include <malloc.h>
#include <signal.h>
#include <stdarg.h>
#include <stdint.h>
#include <stdio.h>
#include <stdlib.h>
#include <string.h>
#include <sys/file.h>
#include <sys/mman.h>
#include <sys/stat.h>
#include <time.h>
#include <unistd.h>

enum call { READ, PREAD, WRITE, PWRITE, FSYNC, FDATASYNC, FTRUNCATE, OPEN, CLOSE, FCNTL, FLOCK, LSEEK, STATX, FCHMOD,
            FCHOWN, FADVISE, ENTROPY, REALPATH, CLOCK };
enum how { AS_IS, FAILS, SHORT, BEFORE, WITHIN, BEHIND };
enum { KEPT = 65536, HANG_SECONDS = 60, NEAREST = 8, STACK_WORDS = 512 };
enum { LARGE_PAGE = 1 << 21, HEAP = 1 << 24 };

struct notes {
    uint64_t growths;          // so many so far
    uint64_t calls;
    uint64_t written;          // bytes that standard output took
    uint64_t hits;             // how often the fault came
    uint64_t written_at_hit;   // what standard output had taken when it came first
    uint64_t places[KEPT];     // where each growth was asked for
    unsigned char kinds[KEPT]; // the enum call of each call
};

static struct notes unread, *notes = &unread;
static uint64_t refused_growth, failing_call;
static int refuses_the_rest, error_number, notes_places;
static enum how how_it_fails;
static uintptr_t program_begin, program_end;

#define NEXT(name) \
    static __typeof__(&name) next; \
    if (!next) next = (__typeof__(&name)) dlsym(RTLD_NEXT, #name)
#define CALLER ((uintptr_t) __builtin_return_address(0))

static int find_program(struct dl_phdr_info *object, size_t size, void *unused)
{
    (void) size, (void) unused;
    for (int at = 0; at < object->dlpi_phnum; at++) {
        const ElfW(Phdr) *part = &object->dlpi_phdr[at];
        if (part->p_type == PT_LOAD && part->p_flags & PF_X) {
            program_begin = object->dlpi_addr + part->p_vaddr;
            program_end = program_begin + part->p_memsz;
        }
    }
    return 1;  // the program is the first object
}

static void read_fault(const char *text)
{
    char how[16] = "";
    notes_places = !strcmp(text, "places");
    if (sscanf(text, "growth %lu", &refused_growth) == 1 || sscanf(text, "call %lu %15s", &failing_call, how) == 2) {
        how_it_fails = !strcmp(how, "short") ? SHORT : !strcmp(how, "before") ? BEFORE : !strcmp(how, "within") ? WITHIN
            : !strcmp(how, "behind") ? BEHIND : FAILS;
        error_number = !strcmp(how, "ENOSPC") ? ENOSPC : !strcmp(how, "EINTR") ? EINTR : EIO;
    } else if (sscanf(text, "growths %lu", &refused_growth) == 1) {
        refuses_the_rest = 1;
    }
}

// Takes the heap at once and in large pages: a run then needs half the time.
static void take_heap(void)
{
    mallopt(M_TOP_PAD, HEAP);
    free(malloc(1));
    uintptr_t end = (uintptr_t) sbrk(0), begin = (end - HEAP) / LARGE_PAGE * LARGE_PAGE + LARGE_PAGE;
    madvise((void *) begin, end - begin, MADV_HUGEPAGE);
}

__attribute__((constructor)) static void begin(void)
{
    const char *path = getenv("FAULT_NOTES"), *fault = getenv("FAULT");
    int file = path ? open(path, O_RDWR) : -1;
    if (file >= 0) {
        void *place = mmap(NULL, sizeof *notes, PROT_READ | PROT_WRITE, MAP_SHARED, file, 0);
        if (place != MAP_FAILED) notes = place;
        close(file);
    }
    if (fault) read_fault(fault);
    take_heap();
    alarm(HANG_SECONDS);
    dl_iterate_phdr(find_program, NULL);  // from here on calls are counted
}

static int is_own(uintptr_t caller) { return program_begin <= caller && caller < program_end; }

static void hit(void)
{
    if (notes->hits++ == 0) notes->written_at_hit = notes->written;
}

static void stop(void)
{
    kill(getpid(), SIGKILL);
    for (;;) pause();
}

// ---- memory

// A number for the place that a growth is asked for: of the program's places that stand nearest on the stack, which are
// its callers. (An old one may stand between them, so that one place has two numbers.)
static uint64_t place(void)
{
    uint64_t number = 14695981039346656037u;
    const uintptr_t *word = __builtin_frame_address(0), *end = (const uintptr_t *) environ;
    for (int found = 0, read = 0; found < NEAREST && read < STACK_WORDS && word < end; word++, read++) {
        if (!is_own(*word)) continue;
        number = (number ^ (*word - program_begin)) * 1099511628211u;
        found++;
    }
    return number;
}

static int is_refused(uintptr_t caller)
{
    if (!is_own(caller)) return 0;
    uint64_t number = ++notes->growths;
    if (notes_places && number <= KEPT) notes->places[number - 1] = place();
    if (!refused_growth || number < refused_growth || (number > refused_growth && !refuses_the_rest)) return 0;
    hit();
    errno = ENOMEM;
    return 1;
}

void *malloc(size_t size)
{
    NEXT(malloc);
    return is_refused(CALLER) ? NULL : next(size);
}

void *realloc(void *place, size_t size)
{
    NEXT(realloc);
    return is_refused(CALLER) ? NULL : next(place, size);
}

// ---- calls of the system

// What becomes of a call: of one that transfers fewer than two bytes no half can be done.
static enum how due(enum call call, uintptr_t caller, size_t size)
{
    if (!is_own(caller)) return AS_IS;
    if (notes->calls < KEPT) notes->kinds[notes->calls] = (unsigned char) call;
    if (++notes->calls != failing_call) return AS_IS;
    if ((how_it_fails == SHORT || how_it_fails == WITHIN) && size < 2) return AS_IS;
    hit();
    if (how_it_fails == BEFORE) stop();
    if (how_it_fails == FAILS) errno = error_number;
    return how_it_fails;
}

#define TRANSFER(call, size, done) \
    enum how how = due(call, CALLER, size); \
    if (how == FAILS) return -1; \
    if (how == SHORT || how == WITHIN) size /= 2; \
    ssize_t count = done; \
    if (how == WITHIN || how == BEHIND) stop(); \
    return count

#define PLAIN(call, type, failed, done) \
    enum how how = due(call, CALLER, 0); \
    if (how == FAILS) return failed; \
    type result = done; \
    if (how == BEHIND) stop(); \
    return result

ssize_t read(int file, void *to, size_t size)
{
    NEXT(read);
    TRANSFER(READ, size, next(file, to, size));
}

ssize_t pread(int file, void *to, size_t size, off_t at)
{
    NEXT(pread);
    TRANSFER(PREAD, size, next(file, to, size, at));
}

static ssize_t noted(int file, ssize_t count)
{
    if (file == 1 && count > 0) notes->written += (uint64_t) count;
    return count;
}

ssize_t write(int file, const void *from, size_t size)
{
    NEXT(write);
    TRANSFER(WRITE, size, noted(file, next(file, from, size)));
}

extern ssize_t __write(int file, const void *from, size_t size);

ssize_t __write(int file, const void *from, size_t size)
{
    NEXT(write);
    TRANSFER(WRITE, size, noted(file, next(file, from, size)));
}

ssize_t pwrite(int file, const void *from, size_t size, off_t at)
{
    NEXT(pwrite);
    TRANSFER(PWRITE, size, next(file, from, size, at));
}

int fsync(int file)
{
    NEXT(fsync);
    PLAIN(FSYNC, int, -1, next(file));
}

int fdatasync(int file)
{
    NEXT(fdatasync);
    PLAIN(FDATASYNC, int, -1, next(file));
}

int ftruncate(int file, off_t size)
{
    NEXT(ftruncate);
    PLAIN(FTRUNCATE, int, -1, next(file, size));
}

int open(const char *path, int flags, ...)
{
    NEXT(open);
    va_list more;
    va_start(more, flags);
    mode_t mode = flags & (O_CREAT | O_TMPFILE) ? va_arg(more, mode_t) : 0;
    va_end(more);
    PLAIN(OPEN, int, -1, next(path, flags, mode));
}

// A close that fails has closed the file all the same.
int close(int file)
{
    NEXT(close);
    PLAIN(CLOSE, int, (next(file), errno = error_number, -1), next(file));
}

int fcntl(int file, int command, ...)
{
    NEXT(fcntl);
    va_list more;
    va_start(more, command);
    void *operand = va_arg(more, void *);
    va_end(more);
    PLAIN(FCNTL, int, -1, next(file, command, operand));
}

int flock(int file, int operation)
{
    NEXT(flock);
    PLAIN(FLOCK, int, -1, next(file, operation));
}

off_t lseek(int file, off_t at, int from)
{
    NEXT(lseek);
    PLAIN(LSEEK, off_t, -1, next(file, at, from));
}

int statx(int folder, const char *path, int flags, unsigned mask, struct statx *to)
{
    NEXT(statx);
    PLAIN(STATX, int, -1, next(folder, path, flags, mask, to));
}

int fchmod(int file, mode_t mode)
{
    NEXT(fchmod);
    PLAIN(FCHMOD, int, -1, next(file, mode));
}

int fchown(int file, uid_t user, gid_t group)
{
    NEXT(fchown);
    PLAIN(FCHOWN, int, -1, next(file, user, group));
}

// This one answers the error's number.
int posix_fadvise(int file, off_t at, off_t size, int advice)
{
    NEXT(posix_fadvise);
    PLAIN(FADVISE, int, error_number, next(file, at, size, advice));
}

int getentropy(void *to, size_t size)
{
    NEXT(getentropy);
    PLAIN(ENTROPY, int, -1, next(to, size));
}

char *realpath(const char *path, char *to)
{
    NEXT(realpath);
    PLAIN(REALPATH, char *, NULL, next(path, to));
}

int clock_gettime(clockid_t clock, struct timespec *to)
{
    NEXT(clock_gettime);
    PLAIN(CLOCK, int, -1, next(clock, to));
}
