/* Loaded before a program, refuses one of its calls, of the number that a variable of the environment tells, and says so on standard
   error unless REFUSED_QUIETLY is 1: a growth (REFUSED_GROWTH), a thread (REFUSED_THREAD), a read, a write or an accepted connection, which fails (FAILED_CALL)
   or is interrupted (INTERRUPTED_CALL); or has a read or a write of several bytes move one (SHORT_CALL). For Linux with glibc. */
#define _GNU_SOURCE
#include <dlfcn.h>
#include <errno.h>
#include <pthread.h>
#include <stdlib.h>
#include <sys/socket.h>
#include <sys/syscall.h>
#include <unistd.h>
void *__libc_malloc(size_t);
void *__libc_realloc(void *, size_t);
static long growths, threads, failed, interrupted, shortened, quiet;
static long number(const char *name) {
    const char *told = getenv(name);
    return told ? atol(told) : 0;
}
__attribute__((constructor)) static void begin(void) {
    growths = number("REFUSED_GROWTH");
    threads = number("REFUSED_THREAD");
    failed = number("FAILED_CALL");
    interrupted = number("INTERRUPTED_CALL");
    shortened = number("SHORT_CALL");
    quiet = number("REFUSED_QUIETLY");
}
static int is_met(long *left, int why) {
    if (__atomic_load_n(left, __ATOMIC_RELAXED) <= 0 || __atomic_sub_fetch(left, 1, __ATOMIC_RELAXED) != 0) return 0;
    if (!quiet && syscall(SYS_write, 2, "refused\n", 8) < 0) abort();
    errno = why;
    return 1;
}
static int fails(int why) { return is_met(&failed, why) || is_met(&interrupted, EINTR); }
static size_t moved(size_t size) { return size > 1 && is_met(&shortened, 0) ? 1 : size; }
void *malloc(size_t size) { return is_met(&growths, ENOMEM) ? 0 : __libc_malloc(size); }
void *realloc(void *from, size_t size) { return is_met(&growths, ENOMEM) ? 0 : __libc_realloc(from, size); }
int pthread_create(pthread_t *made, const pthread_attr_t *how, void *(*begins)(void *), void *with) {
    int (*real)(pthread_t *, const pthread_attr_t *, void *(*)(void *), void *) = dlsym(RTLD_NEXT, "pthread_create");
    return is_met(&threads, EAGAIN) ? EAGAIN : real(made, how, begins, with);
}
ssize_t read(int from, void *to, size_t size) { return fails(EIO) ? -1 : syscall(SYS_read, from, to, moved(size)); }
ssize_t write(int to, const void *from, size_t size) { return fails(EIO) ? -1 : syscall(SYS_write, to, from, moved(size)); }
ssize_t recv(int from, void *to, size_t size, int how) { return fails(ECONNRESET) ? -1 : syscall(SYS_recvfrom, from, to, moved(size), how, 0, 0); }
ssize_t send(int to, const void *from, size_t size, int how) { return fails(EPIPE) ? -1 : syscall(SYS_sendto, to, from, moved(size), how, 0, 0); }
int accept4(int at, struct sockaddr *who, socklen_t *size, int how) { return fails(EMFILE) ? -1 : syscall(SYS_accept4, at, who, size, how); }
