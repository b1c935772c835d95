/* The job on the kernel, with a file as its card, in the order of examples/host.c: request, write, fdatasync, sync, fetch. */
#include "peer.h"
#include "plan.h"
#include <errno.h>
#include <fcntl.h>
#include <stdlib.h>
#include <unistd.h>

enum { LOG_SPACE = 1 << 22 };

static uint8_t state[MANTELORRIS_STATE_SIZE], space[LOG_SPACE], plan[MANTELORRIS_PLAN_SIZE];
static int card;

static uint64_t accepted(uint64_t answer) {
    errno = EINVAL;
    if (mantelorris_number(answer)) fail(mantelorris_refusal_name(mantelorris_number(answer)));
    return answer;
}

static void append(size_t from, size_t to) {
    if (pwrite(card, space + from, to - from, (off_t)from) != (ssize_t)(to - from) || fdatasync(card)) fail("card");
}

void job_open(const char *path) {
    make_plan(plan);
    card = open(path, O_RDWR | O_CREAT, 0644);
    ssize_t kept = card < 0 ? -1 : pread(card, space, sizeof space, 0);
    if (kept < 0) fail(path);
    if (kept == 0) {
        accepted(mantelorris_found(state, sizeof state, space, sizeof space, plan, sizeof plan, 0));
        append(0, MANTELORRIS_LOG_HEAD);
        return;
    }
    accepted(mantelorris_recover(state, sizeof state, space, (size_t)kept, plan, sizeof plan));
    if (ftruncate(card, (off_t)mantelorris_length(state)) || fdatasync(card)) fail("card: cut");
}

static int32_t result_value(const uint8_t *packet) {
    return (int32_t)mantelorris_number_at(packet, 12);
}

void job_batch(const request_packet *requests, size_t n, int32_t *values) {
    uint8_t out[MANTELORRIS_REPLY_SIZE];
    for (size_t i = 0; i < n; i++) {
        accepted(mantelorris_request(state, sizeof state, space, sizeof space, requests[i], sizeof requests[i], out, sizeof out));
    }
    size_t length = (size_t)mantelorris_length(state);
    append((size_t)mantelorris_mark(state), length);
    accepted(mantelorris_sync(state, sizeof state, space, sizeof space, length));
    for (size_t i = 0; i < n; i++) {
        uint32_t client = mantelorris_packet_client(requests[i]), call = mantelorris_packet_call(requests[i]);
        accepted(mantelorris_fetch(state, sizeof state, space, sizeof space, client, call, out, sizeof out));
        values[i] = result_value(out);
    }
}

void job_repeat(const request_packet *requests, size_t n, int32_t *values) {
    uint8_t out[MANTELORRIS_REPLY_SIZE];
    for (size_t i = 0; i < n; i++) {
        uint64_t a = accepted(mantelorris_request(state, sizeof state, space, sizeof space, requests[i], sizeof requests[i], out, sizeof out));
        if (mantelorris_written(a) != MANTELORRIS_REPLY_SIZE) fail("a repeat without a result");
        values[i] = result_value(out);
    }
}

int32_t job_value(uint32_t point) {
    return mantelorris_value(state, point);
}

/* state, plan and the log so far; the library has none of its own */
uint64_t job_memory(void) {
    return sizeof state + sizeof plan + mantelorris_length(state);
}
