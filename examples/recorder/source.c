/* Words of live buses as a trace, while they arrive: for `fdr record` and `fdrpair record`. docs/ACQUISITION.md has its use.
 *
 *     cc -O2 -Wall -Wextra -o source source.c
 *     source [--to PIPE] [--hold WORDS] [--rotate 6h] [--most RECORDS] [--beat BUS] [--utc BUS] [--stay] INPUT...
 *
 * An INPUT is BUS=PATH, with a bus word in hexadecimal on each line, or PATH alone, with records of sixteen bytes, each with
 * its own bus and a time that isn't looked at. In place of a path, - is standard input and @N is descriptor N.
 *
 * A word gets the time at which it was read. It waits in a ring of --hold words while the recorder doesn't read; what doesn't
 * fit is counted, and never waited for. The least --hold is 8,192, which is what one read may bring. The trace goes to
 * standard output, or to a named pipe: then each recording wants a new pipe at that path, so that no word gets to a recorder
 * that has ended.
 *
 * Status: 0 at the end of the inputs and at SIGTERM or SIGINT, 1 for words that aren't as above, 2 where an input can't be
 * opened, 3 where the reader of standard output is gone. */

#define _GNU_SOURCE
#include <errno.h>
#include <fcntl.h>
#include <inttypes.h>
#include <poll.h>
#include <signal.h>
#include <stdbool.h>
#include <stdio.h>
#include <stdlib.h>
#include <string.h>
#include <sys/ioctl.h>
#include <sys/stat.h>
#include <time.h>
#include <unistd.h>

enum { RECORD = 16, BATCH = 4096, ROOM = 1 << 14, MOST_INPUTS = 256, BUS_WORD = 1, END = 2 };
static const uint64_t SECOND = 1000000, LATEST = 1440000000000, GATHER = 2000, RETRY = 20000; /* microseconds */

struct word { uint64_t time; uint32_t word; uint8_t bus; };
struct input { const char *path; int bus, fd; size_t filled; unsigned char *bytes; };

static struct input inputs[MOST_INPUTS];
static int input_count, inputs_open;
static struct { struct word *words; uint64_t size, first, next; } ring;
static struct {
    const char *path; int fd; bool is_open, has_ended; dev_t device; ino_t inode;
    unsigned char bytes[BATCH]; size_t filled, sent;
    uint64_t start, records, oldest;
} out = { .fd = -1 };
static struct { uint64_t words, dropped, lost, bad, waited; } count, said;
static uint64_t hold = 1000000, rotate = UINT64_C(21600000000), most = UINT64_C(4294967295);
static int beat_bus = 255, utc_bus = -1;
static bool stays;
static int status;
static volatile sig_atomic_t stopping;

static void stop(int signal) { (void)signal; stopping = 1; }

static uint64_t now(void) {
    struct timespec time;
    clock_gettime(CLOCK_MONOTONIC, &time);
    return (uint64_t)time.tv_sec * SECOND + (uint64_t)time.tv_nsec / 1000;
}

static void say(void) {
    fprintf(stderr, "source: %" PRIu64 " words, %" PRIu64 " dropped, %" PRIu64 " lost, %" PRIu64 " bad; waited %.3f s at most\n",
            count.words, count.dropped, count.lost, count.bad, (double)count.waited / (double)SECOND);
    said = count;
}

/* ---- the ring */

static bool hold_word(int bus, uint32_t word, uint64_t time) {
    if (ring.next - ring.first == ring.size) return false;
    ring.words[ring.next++ % ring.size] = (struct word){ time, word, (uint8_t)bus };
    return true;
}

static void take_word(int bus, uint32_t word, uint64_t time) {
    count.words++;
    if (!hold_word(bus, word, time)) count.dropped++;
}

static uint32_t with_parity(uint32_t word, int odd) {
    return word | (uint32_t)(__builtin_parity(word) != odd) << 31;
}

/* The beat has even parity, so nothing samples it; its bits 9 to 31 say how many words never got to a recorder. */
static void beat(uint64_t time_now) {
    uint64_t missed = count.dropped + count.lost;
    hold_word(beat_bus, with_parity((uint32_t)(missed < 0x7FFFFF ? missed : 0x7FFFFF) << 8, 0), time_now);
    if (utc_bus >= 0) { /* label 150: seconds from bit 12 on, minutes from 18, hours from 24; normal operation */
        time_t real = time(NULL);
        struct tm utc;
        gmtime_r(&real, &utc);
        uint32_t clock = (uint32_t)utc.tm_hour << 23 | (uint32_t)utc.tm_min << 17 | (uint32_t)(utc.tm_sec % 60) << 11;
        hold_word(utc_bus, with_parity(3u << 29 | clock | 0x16, 1), time_now);
    }
    if (count.dropped != said.dropped || count.lost != said.lost || count.bad != said.bad) say();
}

/* ---- the inputs */

static bool open_input(struct input *input) {
    if (!strcmp(input->path, "-")) input->fd = 0;
    else if (*input->path == '@') input->fd = fcntl(atoi(input->path + 1), F_GETFD) < 0 ? -1 : atoi(input->path + 1);
    else input->fd = open(input->path, O_RDONLY | O_NONBLOCK | O_CLOEXEC);
    return input->fd >= 0;
}

static void end_input(struct input *input) {
    struct stat about;
    bool may_come_back = stays && !fstat(input->fd, &about) && S_ISFIFO(about.st_mode) && !strchr("-@", *input->path);
    if (input->filled) count.bad++; /* the end of a line or of a record is missing */
    input->filled = 0;
    fprintf(stderr, "source: %s ended\n", input->path);
    close(input->fd);
    input->fd = -1;
    if (!may_come_back || !open_input(input)) inputs_open--;
}

static void take_line(const struct input *input, const char *line, size_t length, uint64_t time) {
    char text[12], *end;
    while (length && (line[length - 1] == '\r' || line[length - 1] == ' ')) length--;
    if (!length) return;
    bool is_bad = length > 10;
    memcpy(text, line, is_bad ? 0 : length);
    text[is_bad ? 0 : length] = 0;
    unsigned long long word = strtoull(text, &end, 16);
    if (is_bad || end != text + length || strpbrk(text, "+- \t") || word > 0xFFFFFFFF) count.bad++;
    else take_word(input->bus, (uint32_t)word, time);
}

static size_t take_lines(const struct input *input, uint64_t time) {
    unsigned char *from = input->bytes, *past = input->bytes + input->filled, *end;
    for (; (end = memchr(from, '\n', (size_t)(past - from))); from = end + 1)
        take_line(input, (char *)from, (size_t)(end - from), time);
    return (size_t)(from - input->bytes);
}

static size_t take_records(const struct input *input, uint64_t time) {
    size_t at = 0;
    for (; at + RECORD <= input->filled; at += RECORD) {
        const unsigned char *record = input->bytes + at;
        uint32_t word = (uint32_t)record[4] << 24 | (uint32_t)record[5] << 16 | (uint32_t)record[6] << 8 | record[7];
        if (record[0] == BUS_WORD) take_word(record[1], word, time);
        else if (record[0] != END) count.bad++;
    }
    return at;
}

static void read_input(struct input *input) {
    ssize_t length = read(input->fd, input->bytes + input->filled, ROOM - input->filled);
    if (length < 0 && (errno == EAGAIN || errno == EINTR)) return;
    if (length <= 0) { end_input(input); return; } /* a terminal whose other side is gone answers EIO */
    input->filled += (size_t)length;
    uint64_t time = now();
    size_t taken = input->bus >= 0 ? take_lines(input, time) : take_records(input, time);
    if (!taken && input->filled == ROOM) { taken = ROOM; count.bad++; }
    input->filled -= taken;
    memmove(input->bytes, input->bytes + taken, input->filled);
}

/* ---- the trace */

static void put(int kind, int bus, uint32_t word, uint64_t time) {
    unsigned char *record = out.bytes + out.filled;
    record[0] = (unsigned char)kind;
    record[1] = (unsigned char)bus;
    record[2] = record[3] = 0;
    for (int at = 0; at < 4; at++) record[4 + at] = (unsigned char)(word >> (24 - 8 * at));
    for (int at = 0; at < 8; at++) record[8 + at] = (unsigned char)(time >> (56 - 8 * at));
    out.filled += RECORD;
    out.records++;
}

static void put_end(uint64_t time) {
    if (!out.records) out.start = time;
    put(END, 0, 0, time - out.start < LATEST ? time - out.start : LATEST);
    out.has_ended = true;
}

/* A recording ends at the time of the word with which the next one begins. */
static void fill(bool is_last) {
    out.oldest = ring.first == ring.next ? now() : ring.words[ring.first % ring.size].time;
    while (!out.has_ended && out.filled + RECORD <= BATCH && ring.first != ring.next) {
        const struct word *word = &ring.words[ring.first % ring.size];
        if (!out.records) out.start = word->time;
        if (word->time - out.start >= rotate || out.records + 1 >= most) { put_end(word->time); return; }
        put(BUS_WORD, word->bus, word->word, word->time - out.start);
        ring.first++;
    }
    if (is_last && !out.has_ended && out.filled + RECORD <= BATCH && ring.first == ring.next) put_end(now());
}

/* Opens a pipe that isn't the one of the recording before: that one stays open, so that no other gets its number. */
static void open_out(void) {
    struct stat about;
    int fd = out.path ? open(out.path, O_WRONLY | O_NONBLOCK | O_CLOEXEC) : out.fd < 0 ? 1 : -1;
    if (fd < 0) return;
    bool is_old = out.fd >= 0 && !fstat(fd, &about) && about.st_ino == out.inode && about.st_dev == out.device;
    if (out.path && (is_old || fstat(fd, &about) || !S_ISFIFO(about.st_mode))) { close(fd); return; }
    if (out.path) { out.inode = about.st_ino; out.device = about.st_dev; }
    else fcntl(fd, F_SETFL, fcntl(fd, F_GETFL) | O_NONBLOCK);
    if (out.fd >= 0) close(out.fd);
    out.fd = fd;
    out.is_open = true;
    out.has_ended = false;
    out.filled = out.sent = out.records = 0;
}

static void lose_reader(void) {
    int unread = 0;
    ioctl(out.fd, FIONREAD, &unread);
    count.lost += ((size_t)unread + out.filled - out.sent) / RECORD;
    out.is_open = false;
    if (!out.path) status = 3;
    fprintf(stderr, "source: the reader of the trace is gone\n");
    say();
}

/* Writes as much as the reader takes now. Pieces are no longer than a pipe takes whole. */
static void write_out(bool is_last) {
    while (out.is_open) {
        if (out.sent == out.filled) {
            out.sent = out.filled = 0;
            if (out.has_ended) { out.is_open = false; say(); return; }
            fill(is_last);
            if (!out.filled) return;
        }
        ssize_t length = write(out.fd, out.bytes + out.sent, out.filled - out.sent);
        if (length < 0 && errno == EINTR) continue;
        if (length < 0 && errno == EAGAIN) return;
        if (length < 0) { lose_reader(); return; }
        out.sent += (size_t)length;
        uint64_t waited = now() - out.oldest;
        if (waited > count.waited) count.waited = waited;
    }
}

/* ---- the round */

static void wait_for(uint64_t until, bool is_last) {
    struct pollfd polled[MOST_INPUTS + 1];
    uint64_t begin = now(), most_wait = out.is_open ? until : begin + RETRY < until ? begin + RETRY : until;
    for (int pass = 0; pass < 2; pass++) { /* the second pass finds what came while the first one's words gathered */
        for (int at = 0; at < input_count; at++)
            polled[at] = (struct pollfd){ .fd = is_last ? -1 : inputs[at].fd, .events = POLLIN };
        bool wants = ring.first != ring.next || out.sent < out.filled || out.has_ended || is_last;
        polled[input_count] = (struct pollfd){ .fd = out.is_open ? out.fd : -1, .events = wants ? POLLOUT : 0 };
        uint64_t left = most_wait > now() ? most_wait - now() : 0;
        if (poll(polled, (nfds_t)input_count + 1, pass || !left ? 0 : (int)((left + 999) / 1000)) < 0) return;
        if (!pass) usleep(GATHER);
    }
    for (int at = 0; at < input_count; at++)
        if (polled[at].fd >= 0 && polled[at].revents) { read_input(&inputs[at]); write_out(false); }
    if (out.is_open && polled[input_count].revents & (POLLERR | POLLNVAL)) lose_reader();
}

static int record(void) {
    uint64_t next_beat = now();
    for (;;) {
        bool is_last = stopping || !inputs_open;
        if (!out.is_open) open_out();
        if (now() >= next_beat) { beat(now()); next_beat = now() + SECOND; }
        write_out(is_last);
        if (is_last && out.has_ended && !out.is_open && ring.first == ring.next) break;
        if (!out.is_open && (!out.path || stopping)) break;
        wait_for(next_beat, is_last);
    }
    if (ring.next != ring.first) fprintf(stderr, "source: %" PRIu64 " words had no recorder\n", ring.next - ring.first);
    return status;
}

/* ---- the words of the command */

static void usage(void) {
    fprintf(stderr, "usage: source [--to PIPE] [--hold WORDS] [--rotate 6h] [--most RECORDS] [--beat BUS] [--utc BUS] [--stay] "
                    "INPUT...\n");
    exit(1);
}

static uint64_t number(const char *text, bool is_time, uint64_t least, uint64_t greatest) {
    static const struct { const char *name; uint64_t each; } units[] =
        { { "ms", 1000 }, { "s", 1000000 }, { "m", 60000000 }, { "h", 3600000000 } };
    char *end;
    uint64_t value = *text >= '0' && *text <= '9' ? strtoull(text, &end, 10) : (end = "?", 0), each = is_time ? 0 : 1;
    for (size_t at = 0; is_time && at < 4; at++)
        if (!strcmp(end, units[at].name)) { each = units[at].each; end = ""; }
    if (*end || !each || value > greatest / each || value * each < least) usage();
    return value * each;
}

static void add_input(const char *text) {
    const char *equals = strchr(text, '=');
    struct input *input = &inputs[input_count];
    if (input_count++ == MOST_INPUTS || !(input->bytes = malloc(ROOM))) usage();
    char bus[4] = "";
    if (equals && equals - text < 4) memcpy(bus, text, (size_t)(equals - text));
    *input = (struct input){ equals ? equals + 1 : text, equals ? (int)number(bus, false, 0, 255) : -1, -1, 0, input->bytes };
    if (!open_input(input)) {
        fprintf(stderr, "source: %s: %s\n", input->path, strerror(errno));
        exit(2);
    }
    inputs_open++;
}

int main(int words, char **word) {
    int at = 1;
    for (; at < words && !strncmp(word[at], "--", 2); at++) {
        const char *name = word[at] + 2, *value = word[at + 1] ? word[at + 1] : "";
        if (!strcmp(name, "stay")) { stays = true; continue; }
        if (!strcmp(name, "to")) out.path = *value ? value : (usage(), value);
        else if (!strcmp(name, "hold")) hold = number(value, false, ROOM / 2, UINT64_C(1) << 32);
        else if (!strcmp(name, "rotate")) rotate = number(value, true, SECOND / 10, UINT64_C(1436400000000));
        else if (!strcmp(name, "most")) most = number(value, false, 2, UINT64_C(4294967295));
        else if (!strcmp(name, "beat")) beat_bus = (int)number(value, false, 0, 255);
        else if (!strcmp(name, "utc")) utc_bus = (int)number(value, false, 0, 255);
        else usage();
        at++;
    }
    if (at == words) usage();
    for (; at < words; at++) add_input(word[at]);
    ring.size = hold;
    if (!(ring.words = calloc(hold, sizeof *ring.words))) { fprintf(stderr, "source: no memory\n"); return 2; }
    struct sigaction action = { .sa_handler = stop };
    sigaction(SIGTERM, &action, NULL);
    sigaction(SIGINT, &action, NULL);
    signal(SIGPIPE, SIG_IGN);
    return record();
}
