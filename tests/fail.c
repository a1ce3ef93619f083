// Counts the calls on files and streams of the program that it is loaded into: opens, looks, locks, reads, writes, syncs, cuts
// of length and removals. It has one of them fail; or one that moves several bytes move one alone, be interrupted, or, where it
// reads an image, find its end. The variable FAILING names a file with six numbers of 64 bits: how many of these calls there
// were so far, how many of them move several bytes, which of the first fails, and which of the second moves one byte, is
// interrupted, or finds the end, each counted from 1.

#define _GNU_SOURCE
#include <errno.h>
#include <fcntl.h>
#include <stdarg.h>
#include <stdint.h>
#include <stdlib.h>
#include <sys/mman.h>
#include <sys/stat.h>
#include <sys/syscall.h>
#include <unistd.h>

enum { CALLS, LONG_CALLS, FAILING, SHORT, INTERRUPTED, ENDED, NUMBERS };

static volatile uint64_t *numbers;

__attribute__((constructor)) static void begin(void) {
    const char *path = getenv("FAILING");
    int file = path ? (int)syscall(SYS_openat, AT_FDCWD, path, O_RDWR) : -1;
    if (file < 0)
        return;
    void *found = mmap(0, NUMBERS * sizeof *numbers, PROT_READ | PROT_WRITE, MAP_SHARED, file, 0);
    close(file);
    if (found != MAP_FAILED)
        numbers = found;
}

static int fails(void) {
    if (!numbers || ++numbers[CALLS] != numbers[FAILING])
        return 0;
    errno = EIO;
    return 1;
}

static ssize_t move(long call, int file, const void *bytes, size_t size, off_t at) {
    if (fails())
        return -1;
    uint64_t number = numbers && size > 1 ? ++numbers[LONG_CALLS] : 0;
    if (number && number == numbers[INTERRUPTED]) {
        errno = EINTR;
        return -1;
    }
    if (number && number == numbers[ENDED] && call == SYS_pread64)
        return 0;
    return syscall(call, file, bytes, number && number == numbers[SHORT] ? 1 : size, at);
}

ssize_t read(int file, void *bytes, size_t size) { return move(SYS_read, file, bytes, size, 0); }

ssize_t write(int file, const void *bytes, size_t size) { return move(SYS_write, file, bytes, size, 0); }

ssize_t pread64(int file, void *bytes, size_t size, off64_t at) { return move(SYS_pread64, file, bytes, size, at); }

ssize_t pread(int file, void *bytes, size_t size, off_t at) { return move(SYS_pread64, file, bytes, size, at); }

ssize_t pwrite64(int file, const void *bytes, size_t size, off64_t at) { return move(SYS_pwrite64, file, bytes, size, at); }

ssize_t pwrite(int file, const void *bytes, size_t size, off_t at) { return move(SYS_pwrite64, file, bytes, size, at); }

int fsync(int file) { return fails() ? -1 : (int)syscall(SYS_fsync, file); }

int fdatasync(int file) { return fails() ? -1 : (int)syscall(SYS_fdatasync, file); }

int open(const char *path, int flags, ...) {
    va_list given;
    va_start(given, flags);
    mode_t mode = flags & O_CREAT ? va_arg(given, mode_t) : 0;
    va_end(given);
    return fails() ? -1 : (int)syscall(SYS_openat, AT_FDCWD, path, flags, mode);
}

int statx(int folder, const char *restrict path, int flags, unsigned mask, struct statx *restrict found) {
    return fails() ? -1 : (int)syscall(SYS_statx, folder, path, flags, mask, found);
}

int flock(int file, int how) { return fails() ? -1 : (int)syscall(SYS_flock, file, how); }

int ftruncate(int file, off_t size) { return fails() ? -1 : (int)syscall(SYS_ftruncate, file, size); }

int unlink(const char *path) { return fails() ? -1 : (int)syscall(SYS_unlink, path); }
