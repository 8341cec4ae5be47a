/* Loaded before a program, records in the file that RECORD_OF_CALLS names, if there is one, what the program does to files and what it
   tells, in order; and has each sync take as many microseconds more as SLOWED_SYNC tells.
   Each record is a line, `KIND NUMBER AT THREAD SIZE`, and then SIZE bytes and a line end: write (W inode at, its bytes), cut (C inode
   length), the end of either (E), a sync begins (B inode), sync (S inode), that of a folder (D inode), told (T descriptor, the bytes),
   named (N inode, a path), renamed (M inode, the new path), taken away (U, a path) and failed (F). A write, a cut and what is told are
   recorded before the call, so that a crash in it is thought of; a sync and a name after it. For Linux with glibc. */
#define _GNU_SOURCE
#include <dlfcn.h>
#include <fcntl.h>
#include <pthread.h>
#include <stdarg.h>
#include <stdio.h>
#include <stdlib.h>
#include <string.h>
#include <sys/socket.h>
#include <sys/stat.h>
#include <sys/syscall.h>
#include <sys/uio.h>
#include <unistd.h>
static int record = -1, slowed;
static pthread_mutex_t order = PTHREAD_MUTEX_INITIALIZER;
__attribute__((constructor)) static void begin(void) {
    const char *path = getenv("RECORD_OF_CALLS"), *more = getenv("SLOWED_SYNC");
    slowed = more ? atoi(more) : 0;
    if (path) record = syscall(SYS_openat, AT_FDCWD, path, O_WRONLY | O_CREAT | O_APPEND | O_CLOEXEC, 0600);
}
static void note(char kind, unsigned long number, unsigned long at, const void *bytes, size_t size) {
    char head[100];
    if (record < 0) return;
    int length = snprintf(head, sizeof head, "%c %lu %lu %ld %zu\n", kind, number, at, syscall(SYS_gettid), size);
    struct iovec parts[3] = {{head, length}, {(void *)bytes, size}, {"\n", 1}};
    pthread_mutex_lock(&order);
    if (syscall(SYS_writev, record, parts, 3) != (long)(parts[0].iov_len + size + 1)) abort();
    pthread_mutex_unlock(&order);
}
static struct stat told_of(int file) {
    struct stat told = {0};
    if (fstat(file, &told) < 0) told.st_mode = 0;
    return told;
}
static long done(long result, long wanted) {
    if (result != wanted) note('F', 0, 0, "", 0);
    return result;
}
static long ended(long result, long wanted) {
    note('E', 0, 0, "", 0);
    return done(result, wanted);
}
static void note_name(char kind, int folder, const char *path) {
    struct stat told = {0};
    char whole[8192];
    if (path[0] != '/' && folder != AT_FDCWD) snprintf(whole, sizeof whole, "/proc/self/fd/%d/%s", folder, path);
    else snprintf(whole, sizeof whole, "%s", path);
    if (kind != 'U' && stat(whole, &told) < 0) return;
    note(kind, told.st_ino, 0, path, strlen(path));
}
ssize_t pwrite64(int to, const void *from, size_t size, off64_t at) {
    note('W', told_of(to).st_ino, at, from, size);
    return ended(syscall(SYS_pwrite64, to, from, size, at), size);
}
ssize_t pwrite(int to, const void *from, size_t size, off_t at) { return pwrite64(to, from, size, at); }
ssize_t write(int to, const void *from, size_t size) {
    struct stat told = told_of(to);
    if (to == 1 || S_ISSOCK(told.st_mode)) note('T', to, 0, from, size);
    else if (to != 2 && S_ISREG(told.st_mode)) {
        note('W', told.st_ino, lseek(to, 0, SEEK_CUR), from, size);
        return ended(syscall(SYS_write, to, from, size), size);
    }
    return syscall(SYS_write, to, from, size);
}
ssize_t send(int to, const void *from, size_t size, int how) {
    note('T', to, 0, from, size);
    return syscall(SYS_sendto, to, from, size, how, 0, 0);
}
int ftruncate64(int file, off64_t size) {
    note('C', told_of(file).st_ino, size, "", 0);
    return ended(syscall(SYS_ftruncate, file, size), 0);
}
int ftruncate(int file, off_t size) { return ftruncate64(file, size); }
static int synced(long call, int file) {
    struct stat told = told_of(file);
    note('B', told.st_ino, 0, "", 0);
    if (slowed) usleep(slowed);
    int result = done(syscall(call, file), 0);
    note(S_ISDIR(told.st_mode) ? 'D' : 'S', told.st_ino, 0, "", 0);
    return result;
}
int fsync(int file) { return synced(SYS_fsync, file); }
int fdatasync(int file) { return synced(SYS_fdatasync, file); }
static int opened(int folder, const char *path, int how, unsigned mode) {
    int file = syscall(SYS_openat, folder, path, how, mode);
    if (file >= 0 && how & (O_TRUNC | O_CREAT) && S_ISREG(told_of(file).st_mode)) {
        if (how & O_TRUNC) {
            note('C', told_of(file).st_ino, 0, "", 0);
            note('E', 0, 0, "", 0);
        }
        note_name('N', folder, path);
    }
    return file;
}
#define OPENED(folder) va_list more; va_start(more, how); unsigned mode = how & (O_CREAT | O_TMPFILE) ? va_arg(more, unsigned) : 0; va_end(more); return opened(folder, path, how, mode)
int open(const char *path, int how, ...) { OPENED(AT_FDCWD); }
int open64(const char *path, int how, ...) { OPENED(AT_FDCWD); }
int openat(int folder, const char *path, int how, ...) { OPENED(folder); }
int openat64(int folder, const char *path, int how, ...) { OPENED(folder); }
static int named(char kind, int result, int folder, const char *path) {
    if (result == 0) note_name(kind, folder, path);
    return result;
}
int linkat(int from, const char *old, int to, const char *path, int how) { return named('N', syscall(SYS_linkat, from, old, to, path, how), to, path); }
int link(const char *old, const char *path) { return linkat(AT_FDCWD, old, AT_FDCWD, path, 0); }
int renameat2(int from, const char *old, int to, const char *path, unsigned how) { return named('M', syscall(SYS_renameat2, from, old, to, path, how), to, path); }
int renameat(int from, const char *old, int to, const char *path) { return renameat2(from, old, to, path, 0); }
int rename(const char *old, const char *path) { return renameat2(AT_FDCWD, old, AT_FDCWD, path, 0); }
int unlinkat(int folder, const char *path, int how) { return named('U', syscall(SYS_unlinkat, folder, path, how), folder, path); }
int unlink(const char *path) { return unlinkat(AT_FDCWD, path, 0); }
