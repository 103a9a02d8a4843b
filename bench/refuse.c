/* Refuses calls of the program that bench/refused runs. The library is loaded before the C library (LD_PRELOAD).
 *
 * REFUSE is `KIND N`: the call of the kind with this number, from 1, fails; `short` moves one byte of several. With 0 none does, and
 * with -1 each one. REFUSED is a descriptor: a byte is written there for each call that is refused, or, with 0, for each call.
 */
#define _GNU_SOURCE
#include <dlfcn.h>
#include <errno.h>
#include <fcntl.h>
#include <pthread.h>
#include <stdarg.h>
#include <stdatomic.h>
#include <stdlib.h>
#include <string.h>
#include <sys/syscall.h>
#include <unistd.h>

extern void *__libc_malloc(size_t size);
extern void *__libc_realloc(void *old, size_t size);


enum kind { NONE, ALLOC, IO, SHORT, THREAD };
static enum kind refused_kind;
static long refused_number;
static int mark = -1;
static atomic_long calls;

__attribute__((constructor)) static void begin(void) {
    const char *asked = getenv("REFUSE"), *file = getenv("REFUSED");
    static const char *const names[] = {"", "alloc ", "io ", "short ", "thread "};
    for (int k = ALLOC; asked && k <= THREAD; k++) {
        if (!strncmp(asked, names[k], strlen(names[k]))) {
            refused_kind = k;
            refused_number = atol(asked + strlen(names[k]));
        }
    }
    mark = file ? atoi(file) : -1;
}

/* Whether this call is refused. */
static int is_refused(enum kind kind) {
    if (kind != refused_kind) return 0;
    long number = atomic_fetch_add(&calls, 1) + 1;
    int so = refused_number < 0 || refused_number == number;
    if (so || refused_number == 0) syscall(SYS_write, mark, "x", 1);
    return so;
}

void *malloc(size_t size) {
    if (is_refused(ALLOC)) return errno = ENOMEM, NULL;
    return __libc_malloc(size);
}

void *realloc(void *old, size_t size) {
    if (is_refused(ALLOC)) return errno = ENOMEM, NULL;
    return __libc_realloc(old, size);
}

int open(const char *name, int flags, ...) {
    va_list more;
    va_start(more, flags);
    int mode = flags & (O_CREAT | O_TMPFILE) ? va_arg(more, int) : 0;
    va_end(more);
    if (is_refused(IO)) return errno = EIO, -1;
    return syscall(SYS_openat, AT_FDCWD, name, flags, mode);
}

ssize_t read(int file, void *into, size_t count) {
    if (is_refused(IO)) return errno = EIO, -1;
    if (count > 1 && is_refused(SHORT)) count = 1;
    return syscall(SYS_read, file, into, count);
}

ssize_t write(int file, const void *from, size_t count) {
    if (is_refused(IO)) return errno = EIO, -1;
    if (count > 1 && is_refused(SHORT)) count = 1;
    return syscall(SYS_write, file, from, count);
}

int pthread_create(pthread_t *thread, const pthread_attr_t *attributes, void *(*work)(void *), void *given) {
    static int (*real)(pthread_t *, const pthread_attr_t *, void *(*)(void *), void *);
    if (is_refused(THREAD)) return EAGAIN;
    if (!real) real = (int (*)(pthread_t *, const pthread_attr_t *, void *(*)(void *), void *))dlsym(RTLD_NEXT, "pthread_create");
    return real(thread, attributes, work, given);
}
