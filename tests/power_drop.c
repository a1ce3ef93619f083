// Makes a program that it is loaded into unsafe, to see that tests/power.py finds it. The variable POWER_DROP says how:
// `all` no sync is made, `other` each other one isn't, `early` a write goes out before the sync that it has to wait for.

#define _GNU_SOURCE
#include <stdlib.h>
#include <string.h>
#include <sys/syscall.h>
#include <unistd.h>

static int owed = -1; // the file whose sync is put off

static int is(const char *wanted) {
    const char *given = getenv("POWER_DROP");
    return given && strcmp(given, wanted) == 0;
}

__attribute__((destructor)) static void pay(void) {
    int file = owed;
    owed = -1;
    if (file >= 0)
        syscall(SYS_fdatasync, file);
}

static int sync_file(int file, long call) {
    static unsigned long count;
    if (is("all") || (is("other") && ++count % 2))
        return 0;
    if (!is("early"))
        return syscall(call, file);
    pay();
    owed = file;
    return 0;
}

int fdatasync(int file) { return sync_file(file, SYS_fdatasync); }

int fsync(int file) { return sync_file(file, SYS_fsync); }

// A file is written: what was put off comes after it.
ssize_t pwrite64(int file, const void *bytes, size_t size, off64_t at) {
    ssize_t moved = syscall(SYS_pwrite64, file, bytes, size, at);
    pay();
    return moved;
}

ssize_t pwrite(int file, const void *bytes, size_t size, off_t at) { return pwrite64(file, bytes, size, at); }

// Something is said: what was put off comes before it.
ssize_t write(int file, const void *bytes, size_t size) {
    pay();
    return syscall(SYS_write, file, bytes, size);
}
