// Disks that keep a log: a small file system of the user's (FUSE) whose files disk0, disk1, .. loop devices are put on.
//
//     power_disk FOLDER LOG BYTES DISKS
//
// Each write, each flush and each range that is set to zero is put into the log LOG in the order in which the disks meet it.
// So is each write to the file `said`, to which a program's standard error is led: an acknowledgement has its place among
// the writes and flushes of all disks, and is there before the program goes on. The disks are held in memory.
//
// The file `control` takes a line in each write:
//
//     mark TEXT                    puts a mark into the log
//     fail DISK KIND AFTER COUNT ERROR LOST FLUSHES
//                                  once so many flushes have come, lets AFTER more calls of this kind (write or flush)
//                                  succeed, and has the COUNT after them fail with this error number. Where LOST isn't 0,
//                                  a flush that fails loses what it was to make durable
//     slow DISK MILLISECONDS       each flush takes so long
//     pace DISK BYTES              reads take a second for so many bytes
//     hang DISK                    no call on this disk returns, until
//     wake DISK                    all of them go on
//
// An entry of the log has 32 bytes in the machine's order, and then its data: what it is (one letter), the disk, the error
// that was answered or 0, the number of bytes that follow, where it begins, how long it is, and the time in nanoseconds.

#define _GNU_SOURCE
#define FUSE_USE_VERSION 31
#include <errno.h>
#include <fuse.h>
#include <linux/falloc.h>
#include <pthread.h>
#include <stdint.h>
#include <stdio.h>
#include <stdlib.h>
#include <string.h>
#include <sys/mman.h>
#include <sys/prctl.h>
#include <sys/stat.h>
#include <time.h>
#include <unistd.h>

#define MOST_DISKS 4
#ifndef PR_SET_IO_FLUSHER
#define PR_SET_IO_FLUSHER 57
#endif

struct entry {
    uint8_t kind, disk;
    uint16_t error;
    uint32_t data;
    uint64_t at, size, time;
};

struct old_bytes { // what stood where a write came that isn't durable yet
    struct old_bytes *before;
    uint64_t at, size;
    char bytes[];
};

struct faults { // of one kind of calls
    long flushes, after, count;
    int error, is_lost;
};

struct disk {
    char *bytes;
    struct faults of_write, of_flush;
    struct old_bytes *pending;
    long slow, pace;
    int hangs;
};

static struct disk disks[MOST_DISKS];
static int count_of_disks;
static uint64_t size_of_disks, size_of_said;
static FILE *log_file;
static pthread_mutex_t lock = PTHREAD_MUTEX_INITIALIZER;
static pthread_cond_t woken = PTHREAD_COND_INITIALIZER;

static uint64_t now(void) {
    struct timespec time;
    clock_gettime(CLOCK_MONOTONIC, &time);
    return time.tv_sec * 1000000000ull + time.tv_nsec;
}

static void sleep_for(uint64_t nanoseconds) {
    struct timespec time = {nanoseconds / 1000000000, nanoseconds % 1000000000};
    nanosleep(&time, NULL);
}

// Puts an entry into the log, which is whole in its file before the call is answered. The lock is held.
static void put(char kind, int disk, int error, uint64_t at, uint64_t size, const void *data, uint32_t of_data) {
    struct entry entry = {kind, disk, error, of_data, at, size, now()};
    if (fwrite(&entry, sizeof entry, 1, log_file) != 1 || (of_data && fwrite(data, of_data, 1, log_file) != 1) || fflush(log_file)) {
        perror("power_disk: the log");
        _exit(1);
    }
}

// --- the disks

static int number_of(const char *path) {
    int number = strncmp(path, "/disk", 5) == 0 && path[5] ? atoi(path + 5) : -1;
    return number < count_of_disks ? number : -1;
}

static int is(const char *path, const char *name) { return strcmp(path + 1, name) == 0; }

// Which error a call gives, of those that were asked for. The lock is held.
static int fault(struct faults *faults) {
    if (faults->count == 0 || faults->flushes > 0)
        return 0;
    if (faults->after > 0) {
        faults->after--;
        return 0;
    }
    faults->count--;
    return faults->error;
}

static void wait_while_it_hangs(struct disk *disk) {
    while (disk->hangs)
        pthread_cond_wait(&woken, &lock);
}

static void keep_old(struct disk *disk, uint64_t at, uint64_t size) {
    struct old_bytes *old = malloc(sizeof *old + size);
    if (!old)
        _exit(1);
    *old = (struct old_bytes){disk->pending, at, size};
    memcpy(old->bytes, disk->bytes + at, size);
    disk->pending = old;
}

static void settle(struct disk *disk, int are_lost) {
    while (disk->pending) {
        struct old_bytes *old = disk->pending;
        if (are_lost)
            memcpy(disk->bytes + old->at, old->bytes, old->size);
        disk->pending = old->before;
        free(old);
    }
}

// A write, or a range that is set to zero where there are no data.
static int change(int number, uint64_t at, uint64_t size, const char *data) {
    struct disk *disk = &disks[number];
    if (at > size_of_disks || size > size_of_disks - at)
        return -ENOSPC;
    pthread_mutex_lock(&lock);
    wait_while_it_hangs(disk);
    int error = fault(&disk->of_write);
    put(data ? 'w' : 'z', number, error, at, size, data, data ? size : 0);
    if (!error && data) {
        if (disk->of_flush.is_lost)
            keep_old(disk, at, size);
        memcpy(disk->bytes + at, data, size);
    } else if (!error) {
        memset(disk->bytes + at, 0, size);
    }
    pthread_mutex_unlock(&lock);
    return -error;
}

static int do_fsync(const char *path, int of_data, struct fuse_file_info *file) {
    (void)of_data, (void)file;
    int number = number_of(path);
    if (number < 0)
        return 0;
    struct disk *disk = &disks[number];
    pthread_mutex_lock(&lock);
    wait_while_it_hangs(disk);
    int error = fault(&disk->of_flush);
    disk->of_write.flushes--;
    disk->of_flush.flushes--;
    long slow = disk->slow;
    put(error && disk->of_flush.is_lost ? 'l' : 'f', number, error, 0, 0, NULL, 0);
    if (!error || disk->of_flush.is_lost)
        settle(disk, error);
    pthread_mutex_unlock(&lock);
    if (slow)
        sleep_for(slow * 1000000ull);
    return -error;
}

static int do_read(const char *path, char *bytes, size_t size, off_t at, struct fuse_file_info *file) {
    (void)file;
    int number = number_of(path);
    if (number < 0 || (uint64_t)at >= size_of_disks)
        return 0;
    struct disk *disk = &disks[number];
    if (size > size_of_disks - at)
        size = size_of_disks - at;
    pthread_mutex_lock(&lock);
    wait_while_it_hangs(disk);
    memcpy(bytes, disk->bytes + at, size);
    long pace = disk->pace;
    pthread_mutex_unlock(&lock);
    if (pace)
        sleep_for(size * 1000000000ull / pace);
    return size;
}

static int do_fallocate(const char *path, int mode, off_t at, off_t size, struct fuse_file_info *file) {
    (void)file;
    int number = number_of(path);
    if (number < 0 || !(mode & (FALLOC_FL_PUNCH_HOLE | FALLOC_FL_ZERO_RANGE)))
        return -EOPNOTSUPP;
    return change(number, at, size, NULL);
}

// --- the control

static int control(char *line) {
    char kind[8];
    int disk = -1, error = EIO, is_lost = 0;
    long first = 0, second = 0, flushes = 0;
    pthread_mutex_lock(&lock);
    int is_good = 1;
    if (strncmp(line, "mark ", 5) == 0)
        put('m', 0, 0, 0, 0, line + 5, strlen(line + 5));
    else if (sscanf(line, "fail %d %7s %ld %ld %d %d %ld", &disk, kind, &first, &second, &error, &is_lost, &flushes) == 7 && disk < count_of_disks)
        *(strcmp(kind, "flush") == 0 ? &disks[disk].of_flush : &disks[disk].of_write) = (struct faults){flushes, first, second, error, is_lost};
    else if (sscanf(line, "slow %d %ld", &disk, &first) == 2 && disk < count_of_disks)
        disks[disk].slow = first;
    else if (sscanf(line, "pace %d %ld", &disk, &first) == 2 && disk < count_of_disks)
        disks[disk].pace = first;
    else if (sscanf(line, "hang %d", &disk) == 1 && disk < count_of_disks)
        disks[disk].hangs = 1;
    else if (sscanf(line, "wake %d", &disk) == 1 && disk < count_of_disks) {
        disks[disk].hangs = 0;
        pthread_cond_broadcast(&woken);
    } else
        is_good = 0;
    pthread_mutex_unlock(&lock);
    return is_good ? 0 : -EINVAL;
}

static int do_write(const char *path, const char *bytes, size_t size, off_t at, struct fuse_file_info *file) {
    (void)file;
    int number = number_of(path), answer = 0;
    if (number >= 0) {
        answer = change(number, at, size, bytes);
    } else if (is(path, "said")) {
        pthread_mutex_lock(&lock);
        put('s', 0, 0, size_of_said, size, bytes, size);
        size_of_said += size;
        pthread_mutex_unlock(&lock);
    } else {
        char line[4096];
        size_t length = size < sizeof line ? size : sizeof line - 1;
        memcpy(line, bytes, length);
        line[length] = 0;
        answer = control(line);
    }
    return answer ? answer : (int)size;
}

// --- the folder

static int do_getattr(const char *path, struct stat *found, struct fuse_file_info *file) {
    (void)file;
    *found = (struct stat){.st_mode = S_IFREG | 0600, .st_nlink = 1};
    if (strcmp(path, "/") == 0)
        found->st_mode = S_IFDIR | 0700;
    else if (number_of(path) >= 0)
        found->st_size = size_of_disks;
    else if (!is(path, "said") && !is(path, "control"))
        return -ENOENT;
    return 0;
}

static int do_open(const char *path, struct fuse_file_info *file) {
    (void)path;
    file->direct_io = 1;
    return 0;
}

static int do_truncate(const char *path, off_t size, struct fuse_file_info *file) {
    (void)path, (void)size, (void)file;
    return 0;
}

static const struct fuse_operations operations = {
    .getattr = do_getattr,
    .open = do_open,
    .read = do_read,
    .write = do_write,
    .fsync = do_fsync,
    .fallocate = do_fallocate,
    .truncate = do_truncate,
};

int main(int count, char **words) {
    if (count != 5)
        return 1;
    size_of_disks = strtoull(words[3], NULL, 10);
    count_of_disks = atoi(words[4]);
    log_file = fopen(words[2], "wb");
    if (!log_file || count_of_disks < 1 || count_of_disks > MOST_DISKS)
        return 1;
    for (int number = 0; number < count_of_disks; number++) {
        disks[number].bytes = mmap(NULL, size_of_disks, PROT_READ | PROT_WRITE, MAP_PRIVATE | MAP_ANONYMOUS | MAP_NORESERVE, -1, 0);
        if (disks[number].bytes == MAP_FAILED)
            return 1;
    }
    // It serves what the system writes back, so it may not wait for that itself.
    prctl(PR_SET_IO_FLUSHER, 1, 0, 0, 0);
    char *given[] = {words[0], "-f", "-o", "default_permissions,max_idle_threads=16,max_threads=64", words[1], NULL};
    return fuse_main(5, given, &operations, NULL);
}
