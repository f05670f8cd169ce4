// Stands between the program and the C library, and puts another file in a book's place right before the book is
// locked: the file that INSTEAD names gets the name BOOK.
#define _GNU_SOURCE
#include <dlfcn.h>
#include <fcntl.h>
#include <stdarg.h>
#include <stdio.h>
#include <stdlib.h>

int fcntl(int file, int command, ...)
{
    static int is_done;
    va_list more;
    va_start(more, command);
    void *given = va_arg(more, void *);
    va_end(more);
    if (command == F_OFD_SETLK && !is_done) {
        is_done = 1;
        if (rename(getenv("INSTEAD"), getenv("BOOK"))) perror("rename");
    }
    return ((__typeof__(&fcntl)) dlsym(RTLD_NEXT, "fcntl"))(file, command, given);
}
