// Stands between a program and the system, and refuses what the environment says:
//   REFUSE=N          the allocation with this number, from 1
//   REFUSE_FROM=N     all allocations from this number on
//   END_FROM=N        nothing, but the process ends with status 99 where it asks for an allocation with this number
//   REFUSE_THREAD=N   the thread with this number
//   REFUSE_IO=N       the read or write with this number: an error of the device
//   REFUSE_FILE=N     the file that is opened, given permissions, brought to the disk or renamed with this number, or
//                     the directory that is made: the same
//   INTERRUPT_IO=N    each read or write whose number is a multiple of this: it has to be made again
//   SHORT_IO=N        nothing, but a read or a write takes so many bytes at most
//   SKIP_SYNC=1       nothing, but the system is not asked to bring files to the disk, which takes its time
#define _GNU_SOURCE
#include <dlfcn.h>
#include <errno.h>
#include <fcntl.h>
#include <pthread.h>
#include <stdarg.h>
#include <stdatomic.h>
#include <stdlib.h>
#include <sys/stat.h>
#include <sys/types.h>
#include <unistd.h>

static atomic_long allocations, threads, transfers, files;
static long refused, refused_from, end_from, refused_thread, refused_io, refused_file, interrupted_io, short_io, skip_sync;

static long number_in(const char *name) {
    const char *number = getenv(name);
    return number ? atol(number) : 0;
}

__attribute__((constructor)) static void begin(void) {
    refused = number_in("REFUSE");
    refused_from = number_in("REFUSE_FROM");
    end_from = number_in("END_FROM");
    refused_thread = number_in("REFUSE_THREAD");
    refused_io = number_in("REFUSE_IO");
    refused_file = number_in("REFUSE_FILE");
    interrupted_io = number_in("INTERRUPT_IO");
    short_io = number_in("SHORT_IO");
    skip_sync = number_in("SKIP_SYNC");
}

static int is_refused(void) {
    if (!refused && !refused_from && !end_from) return 0;
    long number = atomic_fetch_add(&allocations, 1) + 1;
    if (end_from && number >= end_from) _exit(99);
    return number == refused || (refused_from && number >= refused_from);
}

void *malloc(size_t size) {
    static void *(*next)(size_t);
    if (!next) next = dlsym(RTLD_NEXT, "malloc");
    if (is_refused()) return errno = ENOMEM, NULL;
    return next(size);
}

void *realloc(void *old, size_t size) {
    static void *(*next)(void *, size_t);
    if (!next) next = dlsym(RTLD_NEXT, "realloc");
    if (is_refused()) return errno = ENOMEM, NULL;
    return next(old, size);
}

void *aligned_alloc(size_t alignment, size_t size) {
    static void *(*next)(size_t, size_t);
    if (!next) next = dlsym(RTLD_NEXT, "aligned_alloc");
    if (is_refused()) return errno = ENOMEM, NULL;
    return next(alignment, size);
}

int posix_memalign(void **memory, size_t alignment, size_t size) {
    static int (*next)(void **, size_t, size_t);
    if (!next) next = dlsym(RTLD_NEXT, "posix_memalign");
    if (is_refused()) return ENOMEM;
    return next(memory, alignment, size);
}

int pthread_create(pthread_t *thread, const pthread_attr_t *attributes, void *(*start)(void *), void *argument) {
    static int (*next)(pthread_t *, const pthread_attr_t *, void *(*)(void *), void *);
    if (!next) next = dlsym(RTLD_NEXT, "pthread_create");
    if (atomic_fetch_add(&threads, 1) + 1 == refused_thread) return EAGAIN;
    return next(thread, attributes, start, argument);
}

// How many of so many bytes a read or a write may take. 0: it fails, and errno says why.
static size_t taken(size_t bytes) {
    long number = atomic_fetch_add(&transfers, 1) + 1;
    if (number == refused_io) return errno = EIO, 0;
    if (interrupted_io && number % interrupted_io == 0) return errno = EINTR, 0;
    return short_io && bytes > (size_t)short_io ? (size_t)short_io : bytes;
}

ssize_t read(int file, void *bytes, size_t count) {
    static ssize_t (*next)(int, void *, size_t);
    if (!next) next = dlsym(RTLD_NEXT, "read");
    size_t most = taken(count);
    return most || !count ? next(file, bytes, most) : -1;
}

ssize_t write(int file, const void *bytes, size_t count) {
    static ssize_t (*next)(int, const void *, size_t);
    if (!next) next = dlsym(RTLD_NEXT, "write");
    size_t most = taken(count);
    return most || !count ? next(file, bytes, most) : -1;
}

ssize_t __write(int file, const void *bytes, size_t count) { return write(file, bytes, count); }

static int is_file_refused(void) {
    if (atomic_fetch_add(&files, 1) + 1 != refused_file) return 0;
    errno = EIO;
    return 1;
}

int open(const char *path, int flags, ...) {
    static int (*next)(const char *, int, ...);
    va_list rest;
    va_start(rest, flags);
    mode_t mode = flags & O_CREAT ? va_arg(rest, mode_t) : 0;
    va_end(rest);
    if (!next) next = dlsym(RTLD_NEXT, "open");
    return is_file_refused() ? -1 : next(path, flags, mode);
}

int fchmod(int file, mode_t mode) {
    static int (*next)(int, mode_t);
    if (!next) next = dlsym(RTLD_NEXT, "fchmod");
    return is_file_refused() ? -1 : next(file, mode);
}

int fsync(int file) {
    static int (*next)(int);
    if (!next) next = dlsym(RTLD_NEXT, "fsync");
    if (is_file_refused()) return -1;
    return skip_sync ? 0 : next(file);
}

int mkdir(const char *path, mode_t mode) {
    static int (*next)(const char *, mode_t);
    if (!next) next = dlsym(RTLD_NEXT, "mkdir");
    return is_file_refused() ? -1 : next(path, mode);
}

int rename(const char *from, const char *to) {
    static int (*next)(const char *, const char *);
    if (!next) next = dlsym(RTLD_NEXT, "rename");
    return is_file_refused() ? -1 : next(from, to);
}
