/* Refuses one call on files of a program that runs with this preloaded, or ends the program there as a kill would.

   REFUSED_CALL=N   refuses the Nth call; a write that is refused takes half of its bytes first
   REFUSED_KILL=1   ends the program at that call in place of refusing it
   REFUSED_EDIT=F   before the first new file is stored, the line `edit = 1` is added to the file F, as an editor may do
   REFUSED_TOLD=F   the file that is made when the call comes, with its name */
#define _GNU_SOURCE
#include <dlfcn.h>
#include <errno.h>
#include <fcntl.h>
#include <stdarg.h>
#include <stdio.h>
#include <stdlib.h>
#include <string.h>
#include <sys/stat.h>
#include <sys/types.h>
#include <unistd.h>

static long calls;

static long limit(void) {
    const char *at = getenv("REFUSED_CALL");
    return at ? atol(at) : 0;
}

static void *real(const char *name) { return dlsym(RTLD_NEXT, name); }

/* Whether this call is the one. If the program is to be killed there, it doesn't return. */
static int refused(const char *name) {
    if (++calls != limit()) return 0;
    const char *told = getenv("REFUSED_TOLD");
    int (*plain_open)(const char *, int, ...) = real("open");
    ssize_t (*plain_write)(int, const void *, size_t) = real("write");
    int fd = told ? plain_open(told, O_WRONLY | O_CREAT | O_TRUNC, 0600) : -1;
    if (fd >= 0) plain_write(fd, name, strlen(name));
    if (getenv("REFUSED_KILL")) _exit(137);
    errno = strcmp(name, "write") == 0 ? ENOSPC : EIO;
    return 1;
}

#define CALL(gives, name, wants, has)                \
    gives name wants {                               \
        if (refused(#name)) return (gives) - 1;      \
        gives(*plain) wants = real(#name);           \
        return plain has;                            \
    }

static void edit(void) {
    static int done;
    const char *at = done++ ? NULL : getenv("REFUSED_EDIT");
    int (*plain_open)(const char *, int, ...) = real("open");
    ssize_t (*plain_write)(int, const void *, size_t) = real("write");
    int fd = at ? plain_open(at, O_WRONLY | O_APPEND) : -1;
    if (fd >= 0) plain_write(fd, "edit = 1\n", 9);
}

int fsync(int fd) {
    edit();
    int (*plain)(int) = real("fsync");
    return refused("fsync") ? -1 : plain(fd);
}

CALL(int, fchmod, (int fd, mode_t mode), (fd, mode))
CALL(int, chown, (const char *path, uid_t user, gid_t group), (path, user, group))
CALL(int, rename, (const char *from, const char *to), (from, to))
CALL(int, unlink, (const char *path), (path))
CALL(ssize_t, read, (int fd, void *bytes, size_t count), (fd, bytes, count))
CALL(ssize_t, getdents64, (int fd, void *bytes, size_t count), (fd, bytes, count))
CALL(int, statx, (int fd, const char *path, int flags, unsigned mask, struct statx *found), (fd, path, flags, mask, found))

char *realpath(const char *path, char *into) {
    if (refused("realpath")) return NULL;
    char *(*plain)(const char *, char *) = real("realpath");
    return plain(path, into);
}

ssize_t write(int fd, const void *bytes, size_t count) {
    ssize_t (*plain)(int, const void *, size_t) = real("write");
    if (calls + 1 == limit()) plain(fd, bytes, count / 2);
    return refused("write") ? -1 : plain(fd, bytes, count);
}

static mode_t mode_in(int flags, va_list more) { return flags & O_CREAT ? va_arg(more, mode_t) : 0; }

int open(const char *path, int flags, ...) {
    va_list more;
    va_start(more, flags);
    mode_t mode = mode_in(flags, more);
    va_end(more);
    if (refused("open")) return -1;
    int (*plain)(const char *, int, ...) = real("open");
    return plain(path, flags, mode);
}

int openat(int fd, const char *path, int flags, ...) {
    va_list more;
    va_start(more, flags);
    mode_t mode = mode_in(flags, more);
    va_end(more);
    if (refused("openat")) return -1;
    int (*plain)(int, const char *, int, ...) = real("openat");
    return plain(fd, path, flags, mode);
}
