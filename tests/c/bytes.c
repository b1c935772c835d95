/* The examples in bytes of docs/FORMATS.md: one of each packet, log record and image, made by the library. Prints them; tests/c/guide.py compares. */
#include "mantelorris_client.h"
#include <stdio.h>
#include <stdlib.h>
#include <string.h>

enum { LOG = 4096, GATE = 5 };

static struct server {
    uint8_t state[MANTELORRIS_STATE_SIZE], log[LOG];
} servers[2];
static uint8_t plan[MANTELORRIS_PLAN_SIZE], out[MANTELORRIS_IMAGE_SIZE], checkpoint[MANTELORRIS_CHECKPOINT_SIZE], tail[MANTELORRIS_LOG_HEAD];

static void show(const char *what, const uint8_t *bytes, size_t length) {
    printf("%s:", what);
    for (size_t i = 0; i < length; i++) printf(" %02X", bytes[i]);
    printf("\n");
}

static size_t due(uint64_t answer, uint32_t number) {
    if (mantelorris_number(answer) != number) {
        printf("number %u, and %u is due\n", mantelorris_number(answer), number);
        exit(1);
    }
    return mantelorris_written(answer);
}

#define OF(s) (s)->state, sizeof (s)->state, (s)->log, LOG

static void sync_log(struct server *s) {
    due(mantelorris_sync(OF(s), mantelorris_length(s->state)), 0);
}

static void make_plan(void) {
    for (int p = 0; p < MANTELORRIS_POINTS; p++) {
        plan[16 * p] = 0x9C; /* -100 */
        memset(plan + 16 * p + 1, 0xFF, 3);
        plan[16 * p + 4] = 0xE8; /* 1000 */
        plan[16 * p + 5] = 3;
    }
}

static void show_checkpoint(struct server *s) {
    size_t n = due(mantelorris_checkpoint(OF(s), checkpoint, sizeof checkpoint, tail, sizeof tail), 0);
    show("checkpoint of server 1, head and pairs", checkpoint, 44);
    show("its row of point 5", checkpoint + 1068 + 16 * GATE, 16);
    show("its client", checkpoint + 2092, 8);
    show("its completion record, the last of its bytes", checkpoint + n - 24, 24);
    show("head of its tail", tail, sizeof tail);
}

/* a client whose lease ends at second 50 has executed a read there, so that the server hears of that second */
static void hear_of_50(struct server *s, struct mantelorris_lease_manager *manager) {
    struct mantelorris_lease_reply grant = mantelorris_open(manager, 0, 50);
    struct mantelorris_client other = mantelorris_start(grant.packet, grant.length).client;
    struct mantelorris_send_reply read = mantelorris_issue(&other, MANTELORRIS_READ, GATE + 1, 0);
    due(mantelorris_request(OF(s), read.packet, read.length, out, sizeof out), 0);
    grant = mantelorris_query(manager, other.client, 50);
    due(mantelorris_notice(OF(s), grant.packet, grant.length), 0);
}

int main(void) {
    struct server *a = &servers[0], *b = &servers[1];
    make_plan();
    show("plan entry, -100 to 1000, fallback 0, home 0", plan, 16);
    for (uint32_t n = 0; n < 2; n++) due(mantelorris_found(OF(&servers[n]), plan, sizeof plan, n), 0);
    struct mantelorris_lease_manager manager = mantelorris_leases();
    struct mantelorris_lease_reply grant = mantelorris_open(&manager, 0, 600);
    show("grant, client 1 to second 600", grant.packet, grant.length);
    struct mantelorris_client desk = mantelorris_start(grant.packet, grant.length).client;
    hear_of_50(a, &manager);
    size_t at = mantelorris_length(a->state);
    struct mantelorris_send_reply set = mantelorris_issue(&desk, MANTELORRIS_SET, GATE, -40);
    show("request, set point 5 to -40, call 1", set.packet, set.length);
    due(mantelorris_request(OF(a), set.packet, set.length, out, sizeof out), 0);
    size_t n = due(mantelorris_request(OF(a), set.packet, set.length, out, sizeof out), MANTELORRIS_NOT_SYNCED);
    show("refusal, 7", out, n);
    sync_log(a);
    n = due(mantelorris_request(OF(a), set.packet, set.length, out, sizeof out), 0);
    show("result, outcome 0, value -40, by hand, time 50", out, n);
    due(mantelorris_give(OF(a), GATE, 1), 0);
    sync_log(a);
    n = due(mantelorris_image(OF(a), GATE, out, sizeof out), 0);
    show("image, from server 0 to 1, move 1", out, n);
    due(mantelorris_take(OF(b), out, n), 0);
    sync_log(b);
    n = due(mantelorris_receipt(OF(b), GATE, out, sizeof out), 0);
    show("receipt, taken by server 1, move 1", out, n);
    due(mantelorris_release(OF(a), out, n), 0);
    struct mantelorris_lease_reply notice = mantelorris_query(&manager, 1, 700);
    show("notice, client 1, time 700", notice.packet, notice.length);
    due(mantelorris_notice(OF(a), notice.packet, notice.length), 0);
    show("log head, server 0", a->log, 8);
    show("executed, time 50", a->log + at, 32);
    show("give, to server 1", a->log + at + 32, 8);
    show("release", a->log + at + 40, 8);
    show("gone", a->log + at + 48, 12);
    show("take at server 1, before its image", b->log + 8, 8);
    show_checkpoint(b);
    return 0;
}
