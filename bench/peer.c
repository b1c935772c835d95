/* peer FILE BATCH COMMANDS REPEATS: does so many commands on a new file, then repeats the last ones; ends without closing, as a power cut would.
 * peer FILE: opens what is there. Both print name and number pairs; times are nanoseconds. */
#include "peer.h"
#include "plan.h"
#include <stdio.h>
#include <stdlib.h>
#include <time.h>
#include <unistd.h>

void fail(const char *what) {
    perror(what);
    exit(1);
}

static uint64_t nanoseconds(void) {
    struct timespec t;
    clock_gettime(CLOCK_MONOTONIC, &t);
    return (uint64_t)t.tv_sec * 1000000000u + (uint64_t)t.tv_nsec;
}

/* the greatest resident size of this program, in kilobytes */
static unsigned long resident(void) {
    char line[256];
    unsigned long kilobytes = 0;
    FILE *f = fopen("/proc/self/status", "r");
    while (f && fgets(line, sizeof line, f)) sscanf(line, "VmHWM: %lu", &kilobytes);
    if (f) fclose(f);
    return kilobytes;
}

/* Command i: the clients take turns, and so do the points. The first command of a point sets it to 0, every later one steps it by 1.
 * first: the first command of its batch; all before it have their results, which the client acknowledges. */
static void write_request(uint8_t *p, uint32_t i, uint32_t first) {
    uint32_t client = i % CLIENTS, call = i / CLIENTS + 1;
    uint32_t done = first / CLIENTS + 1 + (client < first % CLIENTS);
    int set = i < MANTELORRIS_POINTS;
    p[0] = MANTELORRIS_KIND_REQUEST;
    p[1] = set ? MANTELORRIS_SET : MANTELORRIS_STEP;
    p[2] = (uint8_t)(i % MANTELORRIS_POINTS);
    p[3] = 0;
    put32(p + 4, client + 1);
    put32(p + 8, call);
    put32(p + 12, done);
    put32(p + 16, 1); /* lease end: no notice is heard here */
    put32(p + 20, set ? 0 : 1);
}

static int64_t sum(const int32_t *values, size_t n) {
    int64_t s = 0;
    for (size_t i = 0; i < n; i++) s += values[i];
    return s;
}

static int64_t commands(uint32_t from, uint32_t n, void (*job)(const request_packet *, size_t, int32_t *)) {
    static request_packet packets[MOST_BATCH];
    static int32_t values[MOST_BATCH];
    for (uint32_t k = 0; k < n; k++) write_request(packets[k], from + k, from);
    job((const request_packet *)packets, n, values);
    return sum(values, n);
}

static void run(const char *path, uint32_t batch, uint32_t total, uint32_t repeats) {
    int64_t results = 0, repeated = 0;
    uint32_t last = batch < CLIENTS ? CLIENTS : batch; /* these are not acknowledged yet */
    job_open(path);
    uint64_t t0 = nanoseconds();
    for (uint32_t i = 0; i < total; i += batch) results += commands(i, batch, job_batch);
    uint64_t t1 = nanoseconds();
    for (uint32_t i = 0; i < repeats; i += batch) repeated += commands(total - last + i % last, batch, job_repeat);
    uint64_t t2 = nanoseconds();
    printf("commands_ns %llu repeats_ns %llu results %lld repeated %lld memory %llu resident %lu\n", (unsigned long long)(t1 - t0),
           (unsigned long long)(t2 - t1), (long long)results, (long long)repeated, (unsigned long long)job_memory(), resident());
}

static void reopen(const char *path) {
    int64_t total = 0;
    uint64_t t0 = nanoseconds();
    job_open(path);
    for (uint32_t p = 0; p < MANTELORRIS_POINTS; p++) total += job_value(p);
    uint64_t t1 = nanoseconds();
    printf("open_ns %llu total %lld memory %llu resident %lu\n", (unsigned long long)(t1 - t0), (long long)total, (unsigned long long)job_memory(),
           resident());
}

int main(int argc, char **argv) {
    uint32_t batch = argc == 5 ? (uint32_t)atoi(argv[2]) : 1, total = argc == 5 ? (uint32_t)atoi(argv[3]) : 0;
    uint32_t last = batch < CLIENTS ? CLIENTS : batch;
    if ((argc != 5 && argc != 2) || batch < 1 || batch > MOST_BATCH || last % batch || total % last) {
        fprintf(stderr, "usage: peer FILE [BATCH COMMANDS REPEATS]; a batch divides 16 or is a multiple of it up to 256\n");
        return 2;
    }
    if (argc == 5) run(argv[1], batch, total, (uint32_t)atoi(argv[4]));
    else reopen(argv[1]);
    fflush(stdout);
    _exit(0);
}
