/*
 * Lets calls of a program fail, or kills it at one. It is loaded before the C library (LD_PRELOAD), for refusing.py beside it.
 *
 * REFUSE is "KIND FIRST LAST HOW". The calls of KIND are counted from 1. Those from FIRST to LAST fail with the error number HOW; where
 * HOW is 0 they kill the program. The kinds are
 *
 *   memory  allocations and growths
 *   input   reads of standard input
 *   output  writes to standard output
 *   receive taking a connection, and each read of one
 *   send    each write of a connection
 *   file    opening a file, and each read, write, sync, change of length and lock of one
 *
 * REFUSED names a file that is made at the first call that is refused, so that a run which met none can be told. PIECE is the most bytes
 * that a read or a write of a stream or a connection takes.
 */
#define _GNU_SOURCE
#include <errno.h>
#include <fcntl.h>
#include <signal.h>
#include <stdarg.h>
#include <stdlib.h>
#include <string.h>
#include <sys/socket.h>
#include <sys/stat.h>
#include <sys/syscall.h>
#include <unistd.h>

enum kind { NONE, MEMORY, INPUT, OUTPUT, RECEIVE, SEND, FILES };

static enum kind wanted = NONE;
static long first, last, met;
static size_t piece = (size_t)-1;
static int how;

__attribute__((constructor)) static void read_wish(void) {
    static const char *const names[] = {"", "memory ", "input ", "output ", "receive ", "send ", "file "};
    static int is_read = 0;
    const char *wish;
    char *rest;
    int kind;
    if (is_read)
        return;
    is_read = 1;
    wish = getenv("PIECE");
    if (wish)
        piece = (size_t)strtol(wish, NULL, 10);
    wish = getenv("REFUSE");
    for (kind = MEMORY; wish && kind <= FILES; kind++) {
        size_t length = strlen(names[kind]);
        if (strncmp(wish, names[kind], length) == 0) {
            first = strtol(wish + length, &rest, 10);
            last = strtol(rest, &rest, 10);
            how = (int)strtol(rest, &rest, 10);
            wanted = kind;
        }
    }
}

/* Whether this call is refused; errno says why. */
static int is_refused(enum kind kind) {
    const char *told;
    read_wish();
    if (kind == NONE || kind != wanted)
        return 0;
    met++;
    if (met < first || met > last)
        return 0;
    told = getenv("REFUSED");
    if (told && met == first)
        syscall(SYS_close, syscall(SYS_openat, AT_FDCWD, told, O_CREAT | O_WRONLY, 0600));
    if (how == 0)
        syscall(SYS_kill, syscall(SYS_getpid), SIGKILL);
    errno = how;
    return 1;
}

static int is_file(int descriptor) {
    struct stat found;
    return descriptor > 2 && fstat(descriptor, &found) == 0 && S_ISREG(found.st_mode);
}

static size_t pieces(size_t count) { return count < piece ? count : piece; }

/* ---- memory */
extern void *__libc_malloc(size_t), *__libc_calloc(size_t, size_t), *__libc_realloc(void *, size_t);

void *malloc(size_t size) { return is_refused(MEMORY) ? NULL : __libc_malloc(size); }

void *calloc(size_t count, size_t size) { return is_refused(MEMORY) ? NULL : __libc_calloc(count, size); }

void *realloc(void *block, size_t size) { return is_refused(MEMORY) ? NULL : __libc_realloc(block, size); }

/* ---- files, streams and sockets */
int open(const char *path, int flags, ...) {
    va_list more;
    mode_t mode;
    va_start(more, flags);
    mode = va_arg(more, mode_t);
    va_end(more);
    return is_refused(FILES) ? -1 : (int)syscall(SYS_openat, AT_FDCWD, path, flags, mode);
}

ssize_t read(int descriptor, void *bytes, size_t count) {
    if (is_refused(descriptor == 0 ? INPUT : is_file(descriptor) ? FILES : NONE))
        return -1;
    return syscall(SYS_read, descriptor, bytes, descriptor == 0 ? pieces(count) : count);
}

ssize_t write(int descriptor, const void *bytes, size_t count) {
    if (is_refused(descriptor == 1 ? OUTPUT : is_file(descriptor) ? FILES : NONE))
        return -1;
    return syscall(SYS_write, descriptor, bytes, descriptor == 1 ? pieces(count) : count);
}

ssize_t pread(int descriptor, void *bytes, size_t count, off_t from) {
    return is_refused(FILES) ? -1 : syscall(SYS_pread64, descriptor, bytes, count, from);
}

ssize_t pwrite(int descriptor, const void *bytes, size_t count, off_t from) {
    return is_refused(FILES) ? -1 : syscall(SYS_pwrite64, descriptor, bytes, count, from);
}

int fsync(int descriptor) { return is_refused(FILES) ? -1 : (int)syscall(SYS_fsync, descriptor); }

int fdatasync(int descriptor) { return is_refused(FILES) ? -1 : (int)syscall(SYS_fdatasync, descriptor); }

int ftruncate(int descriptor, off_t length) { return is_refused(FILES) ? -1 : (int)syscall(SYS_ftruncate, descriptor, length); }

int flock(int descriptor, int operation) { return is_refused(FILES) ? -1 : (int)syscall(SYS_flock, descriptor, operation); }

int statx(int folder, const char *restrict path, int flags, unsigned int mask, struct statx *restrict found) {
    return is_refused(FILES) ? -1 : (int)syscall(SYS_statx, folder, path, flags, mask, found);
}

int accept4(int descriptor, struct sockaddr *restrict address, socklen_t *restrict length, int flags) {
    return is_refused(RECEIVE) ? -1 : (int)syscall(SYS_accept4, descriptor, address, length, flags);
}

ssize_t recv(int descriptor, void *bytes, size_t count, int flags) {
    return is_refused(RECEIVE) ? -1 : syscall(SYS_recvfrom, descriptor, bytes, pieces(count), flags, NULL, NULL);
}

ssize_t send(int descriptor, const void *bytes, size_t count, int flags) {
    return is_refused(SEND) ? -1 : syscall(SYS_sendto, descriptor, bytes, pieces(count), flags, NULL, 0);
}
