/* The inline functions of include/mantelorris.h, which read and write bytes beside the library, held to the library's own answers. The last line is 'N passed, M failed'. */
#include "mantelorris_client.h"
#include <stdio.h>
#include <string.h>

enum { SPACE = 65536, POINT = 5 };

static uint8_t state[MANTELORRIS_STATE_SIZE], other[MANTELORRIS_STATE_SIZE], space[SPACE], other_space[SPACE], plan[MANTELORRIS_PLAN_SIZE];
static uint8_t image[MANTELORRIS_IMAGE_SIZE], checkpoint[MANTELORRIS_CHECKPOINT_SIZE], tail[MANTELORRIS_LOG_HEAD];
static int passed, failed;

static void expect(const char *what, uint64_t have, uint64_t want) {
    if (have == want) {
        passed++;
        return;
    }
    failed++;
    printf("FAILED: %s: %llu, not %llu\n", what, (unsigned long long)have, (unsigned long long)want);
}

static void expect_name(const char *have, const char *want) {
    if (strcmp(have, want)) printf("FAILED: a name: %s, not %s\n", have, want);
    *(strcmp(have, want) ? &failed : &passed) += 1;
}

static uint64_t founded(uint32_t server) {
    return mantelorris_found(state, sizeof state, space, SPACE, plan, sizeof plan, server);
}

static void rows(void) {
    for (uint32_t p = 0; p < MANTELORRIS_POINTS; p++) mantelorris_plan_row(plan, p, -1000 - (int32_t)p, 1000, (int32_t)p, p % 2);
    mantelorris_plan_row(plan, MANTELORRIS_POINTS, 1, 0, 0, 99); /* no row */
}

/* ---- the plan: found refuses it just where a row is bad, and that row is told */

static void plan_with(uint32_t point, int32_t low, int32_t high, int32_t fallback, uint32_t home, int bad) {
    rows();
    mantelorris_plan_row(plan, point, low, high, fallback, home);
    expect("plan: the bad row", mantelorris_plan_bad_row(plan), bad ? point : MANTELORRIS_POINTS);
    expect("plan: found", founded(0), bad ? MANTELORRIS_MALFORMED : MANTELORRIS_OK);
}

static void plans(void) {
    rows();
    expect("plan: no bad row", mantelorris_plan_bad_row(plan), MANTELORRIS_POINTS);
    for (uint32_t server = 0; server < MANTELORRIS_SERVERS; server++) {
        expect("found", founded(server), 0);
        expect("server", mantelorris_server(state), server);
        expect("heard, at the founding", mantelorris_heard(state), 0);
        for (uint32_t p = 0; p < MANTELORRIS_POINTS; p++) expect("home and fallback", mantelorris_status(state, p) << 16 | (uint32_t)mantelorris_value(state, p), (p % 2 == server) << 16 | p);
    }
    for (uint32_t p = 0; p < MANTELORRIS_POINTS; p++) {
        plan_with(p, 1, 10, 0, 0, 1);
        plan_with(p, -10, -1, 0, 0, 1);
        plan_with(p, 10, -10, 0, 0, 1);
        plan_with(p, 0, 0, 0, 16, 1);
        plan_with(p, 0, 0, 0, 1u << 8, 1);
        plan_with(p, 0, 0, 0, 1u << 31, 1);
        plan_with(p, 0, 0, 0, 15, 0);
        plan_with(p, INT32_MIN, INT32_MAX, INT32_MIN, 0, 0);
    }
    rows();
}

/* ---- what bytes are: each is one thing */

static void is(const char *what, const uint8_t *bytes, size_t length, int log, int stored, int moving) {
    expect(what, mantelorris_is_log(bytes, length), log);
    expect(what, mantelorris_is_checkpoint(bytes, length), stored);
    expect(what, mantelorris_is_image(bytes, length), moving);
    expect(what, mantelorris_is_log(bytes, 3) + mantelorris_is_checkpoint(bytes, 3) + mantelorris_is_image(bytes, 3), 0);
    if (!stored) expect(what, mantelorris_checkpoint_length(bytes, length), 0);
}

/* ---- a checkpoint's length, by its head: what checkpoint wrote; and where the head gives none, or more than there is, recovery refuses it */

static void stored(void) {
    uint8_t head[MANTELORRIS_CHECKPOINT_HEAD];
    uint64_t a = mantelorris_checkpoint(state, sizeof state, space, SPACE, checkpoint, sizeof checkpoint, tail, sizeof tail);
    size_t length = mantelorris_written(a);
    expect("checkpoint", mantelorris_number(a), 0);
    expect("checkpoint: its length", mantelorris_checkpoint_length(checkpoint, sizeof head), length);
    expect("checkpoint: its head cut", mantelorris_checkpoint_length(checkpoint, sizeof head - 1), 0);
    is("a checkpoint", checkpoint, length, 0, 1, 0);
    is("a tail", tail, sizeof tail, 1, 0, 0);
    memcpy(head, checkpoint, sizeof head);
    for (size_t bit = 0; bit < 8 * sizeof head; bit++) {
        checkpoint[bit / 8] ^= (uint8_t)(1 << bit % 8);
        size_t said = mantelorris_checkpoint_length(checkpoint, length);
        a = mantelorris_recover_checkpoint(other, sizeof other, checkpoint, length, tail, sizeof tail);
        int framed = said && said <= length;
        expect("checkpoint: a bit of its head", mantelorris_number(a) && framed && bit / 8 >= 12, 0); /* bytes 4 to 11 are server and time: none of the length's */
        expect("checkpoint: taken, and its length not", !mantelorris_number(a) && !framed, 0);
        memcpy(checkpoint, head, sizeof head);
    }
    memcpy(space, tail, sizeof tail);
}

/* ---- a client, its notice, and a point that moves */

static void request(struct mantelorris_client *client, uint32_t op, int32_t argument, uint32_t want) {
    uint8_t out[MANTELORRIS_REPLY_SIZE];
    struct mantelorris_send_reply r = mantelorris_issue(client, op, POINT, argument);
    uint64_t a = mantelorris_request(state, sizeof state, space, SPACE, r.packet, r.length, out, sizeof out);
    expect("request", mantelorris_number(a), want);
    is("a request", r.packet, r.length, 0, 0, 0);
}

/* the table of clients: this client is there with this floor, and with it there are so many */
static void known(uint32_t count, uint32_t client, uint32_t floor) {
    uint32_t at = 0;
    expect("clients", mantelorris_clients(state), count);
    while (at < mantelorris_clients(state) && mantelorris_client_number(state, at) != client) at++;
    expect("clients: this one", at < count, floor != 0);
    expect("clients: its floor", mantelorris_client_floor(state, at), floor); /* past the last row: 0 */
    expect("clients: ascending", at && floor && mantelorris_client_number(state, at - 1) >= client, 0);
}

static void synced(void) {
    expect("sync", mantelorris_sync(state, sizeof state, space, SPACE, mantelorris_length(state)), 0);
    expect("mark", mantelorris_mark(state), mantelorris_log_end(space, mantelorris_length(state)).end);
}

/* the result is received, and has this time of execution */
static void fetched(struct mantelorris_client *client, uint32_t call, uint32_t time) {
    uint8_t out[MANTELORRIS_REPLY_SIZE];
    uint64_t a = mantelorris_fetch(state, sizeof state, space, SPACE, client->client, call, out, sizeof out);
    struct mantelorris_receive_reply r = mantelorris_receive(client, out, mantelorris_written(a));
    expect("receive", r.number, 0);
    expect("receive: its time", r.time, time);
    expect("a result's time", mantelorris_result_time(out), time);
    out[0] = MANTELORRIS_KIND_FIRST_RESULT;
    expect("a result without a time", mantelorris_result_time(out), 0);
}

static void taken_by(uint32_t server, size_t length, uint32_t want) {
    expect("found the taker", mantelorris_found(other, sizeof other, other_space, SPACE, plan, sizeof plan, server), 0);
    expect("take", mantelorris_take(other, sizeof other, other_space, SPACE, image, length), want);
}

static void heard_and_moved(void) {
    struct mantelorris_lease_manager manager = mantelorris_leases();
    struct mantelorris_lease_reply grant = mantelorris_open(&manager, 0, 600), notice;
    struct mantelorris_client first = mantelorris_start(grant.packet, grant.length).client, second, third;
    expect("found", founded(1), 0);
    expect("the plan", (uint64_t)memcmp(mantelorris_plan(state), plan, sizeof plan), 0);
    known(0, first.client, 0);
    is("a log", space, mantelorris_length(state), 1, 0, 0);
    stored();
    request(&first, MANTELORRIS_SET, 40, 0);
    request(&first, MANTELORRIS_STEP, 2, 0);
    known(1, first.client, 1);
    grant = mantelorris_open(&manager, 1, 650);
    second = mantelorris_start(grant.packet, grant.length).client;
    request(&second, MANTELORRIS_READ, 0, 0);
    synced();
    fetched(&second, 1, 0);
    request(&second, MANTELORRIS_READ, 0, 0);
    known(2, first.client, 1);
    known(2, second.client, 2); /* its first call is finished at the desk */
    synced();
    stored();
    expect("grant: its end", mantelorris_packet_time(grant.packet), second.lease);
    notice = mantelorris_query(&manager, first.client, 651);
    expect("notice", mantelorris_notice(state, sizeof state, space, SPACE, notice.packet, notice.length), 0);
    expect("heard: the notice's time", mantelorris_heard(state), mantelorris_packet_time(notice.packet));
    known(1, mantelorris_packet_client(notice.packet), 0);
    known(1, second.client, 2);
    request(&second, MANTELORRIS_READ, 0, MANTELORRIS_LEASE_ENDED); /* its lease ends at the heard time */
    expect("heard: the second's end", mantelorris_heard(state), second.lease);
    grant = mantelorris_open(&manager, 651, 600);
    third = mantelorris_start(grant.packet, grant.length).client;
    request(&third, MANTELORRIS_READ, 0, 0);
    synced();
    fetched(&third, 1, mantelorris_heard(state));

    expect("destination, held", mantelorris_destination(state, POINT), 0);
    expect("give", mantelorris_give(state, sizeof state, space, SPACE, POINT, 9), 0);
    expect("destination, given", mantelorris_destination(state, POINT), 9);
    synced();
    uint64_t a = mantelorris_image(state, sizeof state, space, SPACE, POINT, image, sizeof image);
    expect("image", mantelorris_number(a), 0);
    is("an image", image, mantelorris_written(a), 0, 0, 1);
    expect("image: its point", mantelorris_image_point(image), POINT);
    expect("image: its destination", mantelorris_image_destination(image), 9);
    expect("image: its source", mantelorris_image_source(image), 1);
    expect("image: its move", mantelorris_image_move(image), mantelorris_move(state, POINT));
    taken_by(8, mantelorris_written(a), MANTELORRIS_BAD_DESTINATION);
    taken_by(mantelorris_image_destination(image), mantelorris_written(a), 0);
    expect("taken: its clients", mantelorris_clients(other), mantelorris_clients(state));
    expect("taken: heard", mantelorris_heard(other), mantelorris_heard(state));
    expect("taken: value", (uint32_t)mantelorris_value(other, mantelorris_image_point(image)), 42);
    expect("taken: move", mantelorris_move(other, POINT), mantelorris_image_move(image));
    stored();
    is("nothing", NULL, 0, 0, 0, 0);
}

/* a full table has its 32 clients in order; the next one is refused with 8. What recovery does not tell, the state's plan does */
static void full(void) {
    struct mantelorris_lease_manager manager = mantelorris_leases();
    uint8_t narrower[MANTELORRIS_PLAN_SIZE];
    expect("found", founded(1), 0);
    for (uint32_t i = 0; i <= MANTELORRIS_CLIENTS; i++) {
        struct mantelorris_lease_reply grant = mantelorris_open(&manager, i, 30); /* at most 30 run at a time */
        struct mantelorris_client client = mantelorris_start(grant.packet, grant.length).client;
        request(&client, MANTELORRIS_SET, 1, i < MANTELORRIS_CLIENTS ? 0 : MANTELORRIS_CLIENTS_FULL);
    }
    expect("clients, full", mantelorris_clients(state), MANTELORRIS_CLIENTS);
    for (uint32_t i = 0; i < mantelorris_clients(state); i++) expect("clients, full: each", mantelorris_client_number(state, i) << 8 | mantelorris_client_floor(state, i), (i + 1) << 8 | 1);
    synced();
    memcpy(narrower, plan, sizeof plan);
    mantelorris_plan_row(narrower, POINT + 1, 0, 5, 1, 3);
    expect("recover, by another plan", mantelorris_recover(other, sizeof other, space, mantelorris_length(state), narrower, sizeof narrower), 0);
    expect("another plan, of a log: as given", (uint64_t)memcmp(mantelorris_plan(other), narrower, sizeof narrower), 0);
    stored();
    expect("recover_checkpoint", mantelorris_recover_checkpoint(other, sizeof other, checkpoint, sizeof checkpoint, tail, sizeof tail), 0);
    expect("the plan, of a checkpoint", (uint64_t)memcmp(mantelorris_plan(other), plan, sizeof plan), 0);
}

/* the quality that the point has after each command */
static void entered(void) {
    static const struct {
        uint32_t op, argument, quality;
    } rows[] = {{MANTELORRIS_READ, 0, MANTELORRIS_INVALID}, {MANTELORRIS_STEP, 0, MANTELORRIS_INVALID}, {MANTELORRIS_SET, 1, MANTELORRIS_BY_HAND}, {MANTELORRIS_STEP, 0, MANTELORRIS_BY_HAND},
                {MANTELORRIS_READ, 0, MANTELORRIS_BY_HAND}, {MANTELORRIS_REPORT, 1, MANTELORRIS_VALID}, {MANTELORRIS_STEP, 0, MANTELORRIS_VALID}, {MANTELORRIS_PART, 500, MANTELORRIS_BY_HAND},
                {MANTELORRIS_FAULT, 0, MANTELORRIS_INVALID}, {MANTELORRIS_PART, 0, MANTELORRIS_BY_HAND}};
    struct mantelorris_lease_manager manager = mantelorris_leases();
    struct mantelorris_lease_reply grant = mantelorris_open(&manager, 0, 600);
    struct mantelorris_client client = mantelorris_start(grant.packet, grant.length).client;
    expect("found", founded(1), 0);
    for (size_t i = 0; i < sizeof rows / sizeof rows[0]; i++) {
        request(&client, rows[i].op, (int32_t)rows[i].argument, 0);
        expect("quality", mantelorris_quality(state, POINT), rows[i].quality);
    }
}

static void names(void) {
    static const char *const ops[] = {"read", "set", "step", "report", "fault", "part", "unknown op"}, *const outcomes[] = {"done", "out of range", "invalid", "fallback", "stopped", "unknown outcome"};
    static const char *const qualities[] = {"valid", "invalid", "by hand", "unknown quality"}, *const states[] = {"absent", "held", "given", "released", "unknown status"};
    for (uint32_t i = 0; i < 7; i++) expect_name(mantelorris_op_name(i), ops[i]);
    for (uint32_t i = 0; i < 6; i++) expect_name(mantelorris_outcome_name(i), outcomes[i]);
    for (uint32_t i = 0; i < 4; i++) expect_name(mantelorris_quality_name(i), qualities[i]);
    for (uint32_t i = 0; i < 5; i++) expect_name(mantelorris_status_name(i), states[i]);
    /* as many ops as the library issues, and no more */
    struct mantelorris_lease_manager manager = mantelorris_leases();
    struct mantelorris_lease_reply grant = mantelorris_open(&manager, 0, 600);
    struct mantelorris_client client = mantelorris_start(grant.packet, grant.length).client;
    for (uint32_t op = 0; op < 7; op++) expect("issue", mantelorris_issue(&client, op, 0, 0).number, strcmp(mantelorris_op_name(op), "unknown op") ? 0 : MANTELORRIS_MALFORMED);
}

int main(void) {
    plans();
    heard_and_moved();
    full();
    entered();
    names();
    printf("%d passed, %d failed\n", passed, failed);
    return failed != 0;
}
