/* Why a lost controller's successor waits for the notice to be saved: one schedule of a lock, run three times on the library. Controller 1 has a command to open the
 * upper gate under way when it is lost; its successor closes that gate, looks, and opens the lower one; then the late packet arrives.
 * Prints what happens for tools/fence_picture.py:
 *     panel TITLE        a run begins
 *     at LANE TEXT       at the lost controller, its successor, the cabinet or the lease manager
 *     go TAG LANE TEXT   a packet leaves
 *     in TAG LANE TEXT   it arrives, and what is answered
 *     end UPPER LOWER    the gates at the end */
#include "mantelorris.h"
#include "mantelorris_client.h"
#include "mantelorris_chamber.h"
#include <stdio.h>
#include <stdlib.h>
#include <string.h>

enum { UPPER = 10, LOWER = 11, LEVEL1 = 20, LEVEL2 = 21, LEVEL3 = 22, OPEN = 100, LEASE = 600 };

static uint8_t state[MANTELORRIS_STATE_SIZE], space[4096], plan[MANTELORRIS_PLAN_SIZE];
static struct mantelorris_lease_manager manager;

static void must(int holds, const char *what) {
    if (holds) return;
    fprintf(stderr, "fence: %s\n", what);
    exit(1);
}

static uint64_t deliver(const uint8_t *packet, size_t length, uint8_t out[MANTELORRIS_REPLY_SIZE]) {
    return mantelorris_request(state, sizeof state, space, sizeof space, packet, length, out, MANTELORRIS_REPLY_SIZE);
}

static void save(void) {
    must(!mantelorris_sync(state, sizeof state, space, sizeof space, mantelorris_length(state)), "sync");
}

/* delivered, saved, and the result fetched */
static size_t carried_out(const uint8_t *packet, size_t length, uint8_t out[MANTELORRIS_REPLY_SIZE]) {
    must(deliver(packet, length, out) == 0, "a command is refused");
    save();
    uint64_t a = mantelorris_fetch(state, sizeof state, space, sizeof space, mantelorris_packet_client(packet), mantelorris_packet_call(packet), out, MANTELORRIS_REPLY_SIZE);
    must(mantelorris_number(a) == 0, "no result");
    return mantelorris_written(a);
}

static void report(struct mantelorris_client *desk, uint32_t point, int32_t level) {
    uint8_t out[MANTELORRIS_REPLY_SIZE];
    struct mantelorris_send_reply s = mantelorris_issue(desk, MANTELORRIS_REPORT, point, level);
    size_t n = carried_out(s.packet, s.length, out);
    must(mantelorris_receive(desk, out, n).number == 0, "report");
}

static struct mantelorris_send_reply issued(struct mantelorris_chamber *lock, uint32_t op, uint32_t point, int32_t argument) {
    struct mantelorris_chamber_send_reply s = mantelorris_chamber_issue(*lock, op, point, argument);
    must(s.reply.number == 0, mantelorris_refusal_name(s.reply.number));
    *lock = s.chamber;
    return s.reply;
}

static void completed(struct mantelorris_chamber *lock, uint32_t op, uint32_t point, int32_t argument) {
    uint8_t out[MANTELORRIS_REPLY_SIZE];
    struct mantelorris_send_reply s = issued(lock, op, point, argument);
    size_t n = carried_out(s.packet, s.length, out);
    struct mantelorris_chamber_receive_reply r = mantelorris_chamber_receive(*lock, out, n);
    must(r.reply.number == 0, "result");
    *lock = r.chamber;
}

static struct mantelorris_chamber controller(uint32_t now) {
    struct mantelorris_lease_reply g = mantelorris_open(&manager, now, LEASE);
    struct mantelorris_chamber_start_reply s = mantelorris_chamber_start(g.packet, g.length, UPPER, LOWER, LEVEL1, LEVEL2, LEVEL3);
    must(s.number == 0, "start");
    return s.chamber;
}

enum notice { NOT_HEARD, NOT_SAVED, SAVED };

/* a cabinet with three equal levels, reported by a desk of its own, and the controller that will be lost */
static struct mantelorris_chamber set_up(void) {
    memset(plan, 0, sizeof plan);
    for (int p = 0; p < MANTELORRIS_POINTS; p++) plan[16 * p + 5] = 4; /* every point from 0 to 1024 */
    must(mantelorris_found(state, sizeof state, space, sizeof space, plan, sizeof plan, 0) == 0, "found");
    manager = mantelorris_leases();
    struct mantelorris_chamber lost = controller(0);
    struct mantelorris_lease_reply g = mantelorris_open(&manager, 0, 2 * LEASE);
    struct mantelorris_client crew = mantelorris_start(g.packet, g.length).client;
    for (uint32_t p = LEVEL1; p <= LEVEL3; p++) report(&crew, p, 200);
    return lost;
}

/* a gate set to 0 and read, then the two levels that an opening of the other gate asks for */
static void close_and_look(struct mantelorris_chamber *lock, uint32_t gate, uint32_t first, uint32_t second) {
    completed(lock, MANTELORRIS_SET, gate, 0);
    completed(lock, MANTELORRIS_READ, gate, 0);
    completed(lock, MANTELORRIS_READ, first, 0);
    completed(lock, MANTELORRIS_READ, second, 0);
}

static void notify(uint32_t client, enum notice kind) {
    struct mantelorris_lease_reply notice = mantelorris_query(&manager, client, LEASE);
    must(notice.kind == MANTELORRIS_KIND_NOTICE, "notice");
    if (kind == NOT_HEARD) return;
    printf("go N manager lease ended at %d\n", LEASE);
    must(mantelorris_notice(state, sizeof state, space, sizeof space, notice.packet, notice.length) == 0, "notice");
    if (kind == SAVED) save();
    printf("in N cabinet heard time %d, %s\n", LEASE, kind == SAVED ? "saved" : "not saved");
}

static void run(const char *title, enum notice kind) {
    uint8_t out[MANTELORRIS_REPLY_SIZE];
    printf("panel %s\n", title);
    struct mantelorris_chamber lost = set_up();
    close_and_look(&lost, LOWER, LEVEL1, LEVEL2);
    printf("at lost lower gate 0, levels equal\n");
    struct mantelorris_send_reply late = issued(&lost, MANTELORRIS_SET, UPPER, OPEN);
    printf("go A lost open the upper gate\nat lost is lost\n");
    notify(lost.client.client, kind);
    struct mantelorris_chamber next = controller(LEASE);
    printf("at next starts\n");
    if (kind == NOT_SAVED) {
        must(mantelorris_recover(state, sizeof state, space, mantelorris_mark(state), plan, sizeof plan) == 0, "recover");
        printf("at cabinet power cut, recovers\n");
    }
    close_and_look(&next, UPPER, LEVEL2, LEVEL3);
    printf("at next upper gate 0, levels equal\ngo B next open the lower gate\n");
    completed(&next, MANTELORRIS_SET, LOWER, OPEN);
    printf("in B cabinet carried out\n");
    uint64_t a = deliver(late.packet, late.length, out);
    printf("in A cabinet %s\n", mantelorris_number(a) ? mantelorris_refusal_name(mantelorris_number(a)) : "carried out");
    int32_t upper = mantelorris_value(state, UPPER), lower = mantelorris_value(state, LOWER);
    printf("end %d %d\n", (int)upper, (int)lower);
    must((upper == 0) == (kind == SAVED) && lower == OPEN, "the gates");
}

int main(void) {
    run("the notice never came", NOT_HEARD);
    run("heard, not saved", NOT_SAVED);
    run("heard and saved", SAVED);
    return 0;
}
