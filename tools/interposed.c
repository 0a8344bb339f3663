/* Stands before the C library's calls of a program that try_program.py runs. The environment says what they do:
 *   MOST=N            a write takes N bytes at most
 *   INTERRUPTED=1     every second read or write is interrupted
 *   REFUSED=CALL:N    the Nth call of this name is refused: pread, pwrite, write, ftruncate, open, malloc
 *   LOG=FILE          each call is told there: its name, its descriptor or flags, its count, its place
 */
#define _GNU_SOURCE
#include <errno.h>
#include <fcntl.h>
#include <stdarg.h>
#include <stdio.h>
#include <stdlib.h>
#include <string.h>
#include <sys/syscall.h>
#include <unistd.h>

extern void *__libc_malloc(size_t);
extern void *__libc_realloc(void *, size_t);

static const char *refused_name;
static long refused_number, made, interruptions, most;
static int is_ready, is_interrupted, log_to = -1;

__attribute__((constructor)) static void begin(void) {
    const char *text;
    if ((text = getenv("MOST"))) most = atol(text);
    is_interrupted = getenv("INTERRUPTED") != NULL;
    if ((text = getenv("REFUSED"))) refused_name = text, refused_number = atol(strchr(text, ':') + 1);
    if ((text = getenv("LOG"))) {
        /* Above the descriptors that the program gets. */
        int opened = syscall(SYS_openat, AT_FDCWD, text, O_WRONLY | O_CREAT | O_APPEND, 0666);
        log_to = syscall(SYS_fcntl, opened, F_DUPFD, 500);
        syscall(SYS_close, opened);
    }
    is_ready = 1;
}

static int is_refused(const char *name) {
    size_t length = strlen(name);
    return is_ready && refused_name && !strncmp(refused_name, name, length) && refused_name[length] == ':'
        && ++made == refused_number;
}

static void tell(const char *name, long what, long count, long place) {
    char line[128];
    if (log_to < 0) return;
    syscall(SYS_write, log_to, line, snprintf(line, sizeof line, "%s %ld %ld %ld\n", name, what, count, place));
}

/* Whether a read or a write fails, with errno set. */
static int fails(const char *name, int error) {
    if (is_interrupted && ++interruptions % 2) return errno = EINTR, 1;
    if (is_refused(name)) return errno = error, 1;
    return 0;
}

static size_t at_most(size_t count) { return most && count > (size_t)most ? (size_t)most : count; }

ssize_t write(int fd, const void *bytes, size_t count) {
    if (fails("write", ENOSPC)) return -1;
    tell("write", fd, count, 0);
    return syscall(SYS_write, fd, bytes, at_most(count));
}

ssize_t pwrite(int fd, const void *bytes, size_t count, off_t at) {
    if (fails("pwrite", ENOSPC)) return -1;
    tell("pwrite", fd, count, at);
    return syscall(SYS_pwrite64, fd, bytes, at_most(count), at);
}

ssize_t pread(int fd, void *bytes, size_t count, off_t at) {
    if (fails("pread", EIO)) return -1;
    tell("pread", fd, count, at);
    return syscall(SYS_pread64, fd, bytes, at_most(count), at);
}

int ftruncate(int fd, off_t length) {
    if (is_refused("ftruncate")) return errno = ENOSPC, -1;
    tell("ftruncate", fd, length, 0);
    return syscall(SYS_ftruncate, fd, length);
}

int open(const char *path, int flags, ...) {
    va_list rest;
    va_start(rest, flags);
    mode_t mode = flags & O_CREAT ? va_arg(rest, mode_t) : 0;
    va_end(rest);
    if (is_refused("open")) return errno = EACCES, -1;
    tell("open", flags & O_ACCMODE, flags, 0);
    return syscall(SYS_openat, AT_FDCWD, path, flags, mode);
}

void *malloc(size_t count) {
    if (is_refused("malloc")) return errno = ENOMEM, NULL;
    return __libc_malloc(count);
}

void *realloc(void *old, size_t count) {
    if (is_refused("malloc")) return errno = ENOMEM, NULL;
    return __libc_realloc(old, count);
}
