// Makes calls of the C library fail, for faults.py, in a program that is started with LD_PRELOAD.
//
// FAULT_CALL is which kind of call: alloc, open, look, lock, read, write, sync, seek, truncate or rename; with FAULT_FILE only those of the file or the stream
// of this name. FAULT_AT is which of them fails, counted from 1, or 0 for each. FAULT_KIND is how: `error`, `on` (and so does each that follows), `none` (a
// write takes nothing), `short` (one byte passes, without an error), `byte` (one byte passes at each other call), or `count` (none fails). The file FAULT_MET is
// made when a call is met, and has the name of the call's file, or of the stream; of calls that are counted it is made at the program's end, and has their number.
//
// The library notes in the file FAULT_TRACE what the program does to files and streams, a line each, for power_cuts.py: `open NAME` of a file that may be
// made, `lock NAME`, `read NAME`, `write NAME PLACE HEX`, `cut NAME SIZE`, `sync NAME`, `rename OLD NEW` and `unlink NAME`.
#define _GNU_SOURCE
#include <errno.h>
#include <fcntl.h>
#include <stdarg.h>
#include <stdio.h>
#include <stdlib.h>
#include <string.h>
#include <sys/stat.h>
#include <sys/syscall.h>
#include <sys/types.h>
#include <unistd.h>

// The system's calls are made directly, and memory is taken as the C library takes it: to look up the functions that stand behind these
// here would take memory itself.
extern void *__libc_malloc(size_t);
extern void *__libc_calloc(size_t, size_t);
extern void *__libc_realloc(void *, size_t);
extern void *__libc_memalign(size_t, size_t);

static const char *call, *kind, *met, *only, *traced;
static long at, seen;
// Whether a call that does not pass as it is passes one byte.
static int is_byte;

__attribute__((constructor)) static void begin(void) {
    const char *which = getenv("FAULT_AT");
    call = getenv("FAULT_CALL");
    kind = getenv("FAULT_KIND");
    met = getenv("FAULT_MET");
    only = getenv("FAULT_FILE");
    traced = getenv("FAULT_TRACE");
    at = which ? atol(which) : 0;
}

static void leave(const char *name) {
    int fd = met ? (int)syscall(SYS_openat, AT_FDCWD, met, O_WRONLY | O_CREAT | O_TRUNC, 0644) : -1;
    if (fd < 0) return;
    syscall(SYS_write, fd, name, strlen(name));
    syscall(SYS_close, fd);
}

__attribute__((destructor)) static void end(void) {
    char number[24];
    if (!kind || strcmp(kind, "count")) return;
    snprintf(number, sizeof number, "%ld", seen);
    leave(number);
}

// Whether this call does not pass as it is.
static int fails(const char *name, const char *file) {
    if (!call || strcmp(call, name) || (only && strcmp(only, file))) return 0;
    seen++;
    if (!strcmp(kind, "count")) return 0;
    int is_it = seen == at || !at;
    if (is_it) leave(file);
    is_byte = !strcmp(kind, "short") ? is_it : !strcmp(kind, "byte") && !is_it;
    return is_it || is_byte || (seen > at && !strcmp(kind, "on"));
}

// The last part of a path.
static const char *last_of(const char *path) { return strrchr(path, '/') ? strrchr(path, '/') + 1 : path; }

// The name of an open file, or of a stream.
static const char *name_of(int fd) {
    static const char *streams[] = {"input", "output", "error output"};
    static char link[64], file[4097];
    if (0 <= fd && fd <= 2) return streams[fd];
    snprintf(link, sizeof link, "/proc/self/fd/%d", fd);
    memset(file, 0, sizeof file);
    readlink(link, file, sizeof file - 1);
    return last_of(file);
}

static int fails_on(const char *name, int fd) { return call && !strcmp(call, name) && fails(name, name_of(fd)); }

// Notes what was done, and passes its answer on.
static long noted(long answer, const char *format, const char *name, const char *more) {
    static char line[3 * 4096];
    int fd = traced && answer >= 0 ? (int)syscall(SYS_openat, AT_FDCWD, traced, O_WRONLY | O_CREAT | O_APPEND, 0644) : -1;
    if (fd < 0) return answer;
    snprintf(line, sizeof line, format, name, more);
    syscall(SYS_write, fd, line, strlen(line));
    syscall(SYS_close, fd);
    return answer;
}

// The same of a write, which took its answer of these bytes at a place.
static long noted_write(long answer, int fd, long place, const unsigned char *bytes) {
    static char more[2 * 4096 + 32];
    if (!traced || answer <= 0) return answer;
    int end = snprintf(more, sizeof more, "%ld ", place < 0 ? 0 : place);
    for (long i = 0; i < answer && i < 4096; i++) end += snprintf(more + end, 3, "%02x", bytes[i]);
    return noted(answer, "write %s %s\n", name_of(fd), more);
}

static long failed(int why) {
    errno = why;
    return -1;
}

// How many bytes of so many pass.
static size_t passing(size_t count) { return count && is_byte ? 1 : 0; }

void *malloc(size_t size) { return fails("alloc", "memory") ? (errno = ENOMEM, NULL) : __libc_malloc(size); }
void *calloc(size_t count, size_t size) { return fails("alloc", "memory") ? (errno = ENOMEM, NULL) : __libc_calloc(count, size); }
void *realloc(void *old, size_t size) { return fails("alloc", "memory") ? (errno = ENOMEM, NULL) : __libc_realloc(old, size); }
void *aligned_alloc(size_t align, size_t size) { return fails("alloc", "memory") ? (errno = ENOMEM, NULL) : __libc_memalign(align, size); }
int posix_memalign(void **to, size_t align, size_t size) {
    *to = aligned_alloc(align, size);
    return *to ? 0 : ENOMEM;
}

ssize_t read(int fd, void *to, size_t count) {
    if (!fails_on("read", fd)) return noted(syscall(SYS_read, fd, to, count), "read %s\n", traced ? name_of(fd) : "", "");
    return passing(count) ? syscall(SYS_read, fd, to, (size_t)1) : failed(EIO);
}
ssize_t pread(int fd, void *to, size_t count, off_t where) {
    if (!fails_on("read", fd)) return syscall(SYS_pread64, fd, to, count, where);
    return passing(count) ? syscall(SYS_pread64, fd, to, (size_t)1, where) : failed(EIO);
}

ssize_t write(int fd, const void *from, size_t count) {
    long place = traced ? syscall(SYS_lseek, fd, 0L, SEEK_CUR) : 0;
    if (!fails_on("write", fd)) return noted_write(syscall(SYS_write, fd, from, count), fd, place, from);
    if (!strcmp(kind, "none")) return 0;
    return passing(count) ? noted_write(syscall(SYS_write, fd, from, (size_t)1), fd, place, from) : failed(ENOSPC);
}
ssize_t pwrite(int fd, const void *from, size_t count, off_t where) {
    if (!fails_on("write", fd)) return noted_write(syscall(SYS_pwrite64, fd, from, count, where), fd, where, from);
    if (!strcmp(kind, "none")) return 0;
    return passing(count) ? noted_write(syscall(SYS_pwrite64, fd, from, (size_t)1, where), fd, where, from) : failed(ENOSPC);
}

int openat(int folder, const char *name, int flags, ...) {
    va_list more;
    va_start(more, flags);
    int mode = flags & (O_CREAT | O_TMPFILE) ? va_arg(more, int) : 0;
    va_end(more);
    if (fails("open", last_of(name))) return (int)failed(EMFILE);
    long opened = syscall(SYS_openat, folder, name, flags, mode);
    return (int)(flags & O_CREAT ? noted(opened, "open %s\n", last_of(name), "") : opened);
}
int open(const char *name, int flags, ...) {
    va_list more;
    va_start(more, flags);
    int mode = flags & (O_CREAT | O_TMPFILE) ? va_arg(more, int) : 0;
    va_end(more);
    return openat(AT_FDCWD, name, flags, mode);
}

int statx(int fd, const char *restrict name, int flags, unsigned mask, struct statx *restrict to) {
    // By a name where there is one, and else the open file.
    return (int)((*name ? fails("look", "a name") : fails_on("look", fd)) ? failed(EIO) : syscall(SYS_statx, fd, name, flags, mask, to));
}
int flock(int fd, int how) {
    return (int)(fails_on("lock", fd) ? failed(ENOLCK) : noted(syscall(SYS_flock, fd, how), "lock %s\n", traced ? name_of(fd) : "", ""));
}

// Syncs that are counted aren't made: there may be many.
static int is_counted(void) { return call && !strcmp(call, "sync") && !strcmp(kind, "count"); }
static int synced(int fd, long how) {
    return (int)(fails_on("sync", fd) ? failed(EIO) : noted(is_counted() ? 0 : syscall(how, fd), "sync %s\n", traced ? name_of(fd) : "", ""));
}
int fsync(int fd) { return synced(fd, SYS_fsync); }
int fdatasync(int fd) { return synced(fd, SYS_fdatasync); }
off_t lseek(int fd, off_t where, int from) { return fails_on("seek", fd) ? failed(EIO) : syscall(SYS_lseek, fd, where, from); }
int rename(const char *old, const char *new) {
    return (int)(fails("rename", last_of(new)) ? failed(EIO) : noted(syscall(SYS_rename, old, new), "rename %s %s\n", last_of(old), last_of(new)));
}
int unlink(const char *name) { return (int)noted(syscall(SYS_unlink, name), "unlink %s\n", last_of(name), ""); }
int ftruncate(int fd, off_t size) {
    char most[24];
    snprintf(most, sizeof most, "%ld", (long)size);
    return (int)(fails_on("truncate", fd) ? failed(EIO) : noted(syscall(SYS_ftruncate, fd, size), "cut %s %s\n", traced ? name_of(fd) : "", most));
}

// The same by the names that the C library has for them too.
ssize_t __write(int, const void *, size_t) __attribute__((alias("write")));
ssize_t pread64(int, void *, size_t, off_t) __attribute__((alias("pread")));
ssize_t pwrite64(int, const void *, size_t, off_t) __attribute__((alias("pwrite")));
int open64(const char *, int, ...) __attribute__((alias("open")));
int openat64(int, const char *, int, ...) __attribute__((alias("openat")));
off_t lseek64(int, off_t, int) __attribute__((alias("lseek")));
int ftruncate64(int, off_t) __attribute__((alias("ftruncate")));
