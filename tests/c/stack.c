/* The stack that each call takes at the most: the call runs on a stack of its own that was painted before, and what lost its paint is counted, less what an empty
 * call takes. Each call is run on small and on full tables, answered and refused. Prints a line for each and fails where one is over its bound, which is what
 * docs/GUIDE.md states. */
#define _GNU_SOURCE
#include "mantelorris.h"
#include "mantelorris_client.h"
#include "mantelorris_chamber.h"
#include <stdio.h>
#include <stdlib.h>
#include <string.h>
#include <ucontext.h>

enum { STACK = 1 << 18, PAINT = 0xA5, LOG = 1 << 16, CLIENTS = 32, CALLS = 16 };

static uint8_t stack[STACK], plan[MANTELORRIS_PLAN_SIZE];
static uint8_t state[2][MANTELORRIS_STATE_SIZE], logs[2][LOG], out[MANTELORRIS_IMAGE_SIZE], image[MANTELORRIS_IMAGE_SIZE];
static size_t image_length;
static uint8_t checkpoint_bytes[MANTELORRIS_CHECKPOINT_SIZE], tail[MANTELORRIS_LOG_HEAD];
static size_t checkpoint_length;
static uint8_t packet[24];
static size_t packet_length;
static uint64_t answer;
static uint32_t point, other, client_number, call_number, at_server;
static uint64_t mark;
static struct mantelorris_client client;
static struct mantelorris_chamber chamber;
static uint32_t lock_op, lock_point;
static int32_t lock_argument;
static struct mantelorris_lease_manager manager;

static ucontext_t here, there;

/* ---- the calls, each without arguments */

static uint8_t *st(void) { return state[at_server]; }
static uint8_t *lg(void) { return logs[at_server]; }
static void nothing(void) { answer = 0; }
static void found(void) { answer = mantelorris_found(st(), sizeof state[0], lg(), LOG, plan, sizeof plan, at_server); }
static void request(void) { answer = mantelorris_request(st(), sizeof state[0], lg(), LOG, packet, packet_length, out, sizeof out); }
static void fetch(void) { answer = mantelorris_fetch(st(), sizeof state[0], lg(), LOG, client_number, call_number, out, sizeof out); }
static void sync_log(void) { answer = mantelorris_sync(st(), sizeof state[0], lg(), LOG, mark); }
static void notice(void) { answer = mantelorris_notice(st(), sizeof state[0], lg(), LOG, packet, packet_length); }
static void give(void) { answer = mantelorris_give(st(), sizeof state[0], lg(), LOG, point, other); }
static void make_image(void) { answer = mantelorris_image(st(), sizeof state[0], lg(), LOG, point, out, sizeof out); }
static void take(void) { answer = mantelorris_take(st(), sizeof state[0], lg(), LOG, image, image_length); }
static void receipt(void) { answer = mantelorris_receipt(st(), sizeof state[0], lg(), LOG, point, out, sizeof out); }
static void release(void) { answer = mantelorris_release(st(), sizeof state[0], lg(), LOG, packet, packet_length); }
static void recover(void) { answer = mantelorris_recover(st(), sizeof state[0], lg(), (size_t)mark, plan, sizeof plan); }
static void log_end(void) { answer = mantelorris_log_end(lg(), (size_t)mark).number; }
static void checkpoint(void) {
    answer = mantelorris_checkpoint(st(), sizeof state[0], lg(), LOG, checkpoint_bytes, sizeof checkpoint_bytes, tail, sizeof tail);
}
static void recover_checkpoint(void) {
    answer = mantelorris_recover_checkpoint(st(), sizeof state[0], checkpoint_bytes, checkpoint_length, lg(), (size_t)mark);
}
static void inspect(void) {
    answer = mantelorris_inspect(st(), sizeof state[0], checkpoint_bytes, checkpoint_length, lg(), LOG, client_number, call_number).number;
}
static void start(void) {
    struct mantelorris_start_reply r = mantelorris_start(packet, packet_length);
    client = r.client;
    answer = r.number;
}
static void keep(struct mantelorris_send_reply r) {
    answer = r.number;
    packet_length = r.length;
    if (r.number == 0) memcpy(packet, r.packet, r.length);
}
static void issue(void) { keep(mantelorris_issue(&client, MANTELORRIS_SET, point, 7)); }
static void resend(void) { keep(mantelorris_resend(&client, call_number)); }
static void receive(void) { answer = mantelorris_receive(&client, packet, packet_length).number; }
static void told(struct mantelorris_lease_reply r) {
    answer = r.number;
    packet_length = r.length;
    if (r.number == 0) memcpy(packet, r.packet, r.length);
}
static void leases(void) { manager = mantelorris_leases(); answer = 0; }
static void open_lease(void) { told(mantelorris_open(&manager, 1, 600)); }
static void renew(void) { told(mantelorris_renew(&manager, client_number, 2, 600)); }
static void query(void) { told(mantelorris_query(&manager, client_number, (uint32_t)mark)); }

static void chamber_start(void) {
    struct mantelorris_chamber_start_reply r = mantelorris_chamber_start(packet, packet_length, 10, 11, 20, 21, point);
    chamber = r.chamber;
    answer = r.number;
}
static void chamber_issue(void) {
    struct mantelorris_chamber_send_reply r = mantelorris_chamber_issue(chamber, lock_op, lock_point, lock_argument);
    chamber = r.chamber;
    keep(r.reply);
}
static void chamber_resend(void) {
    struct mantelorris_chamber_send_reply r = mantelorris_chamber_resend(chamber, call_number);
    chamber = r.chamber;
    keep(r.reply);
}
static void chamber_receive(void) {
    struct mantelorris_chamber_receive_reply r = mantelorris_chamber_receive(chamber, packet, packet_length);
    chamber = r.chamber;
    answer = r.reply.number;
}

/* ---- measured */

static struct row {
    const char *name;
    void (*call)(void);
    size_t bound, most;
    unsigned times;
} rows[] = {
#define ROW(name, call, bound) {name, call, bound, 0, 0}
    ROW("found", found, BOUND_FOUND), ROW("request", request, BOUND_REQUEST), ROW("fetch", fetch, BOUND_FETCH), ROW("sync", sync_log, BOUND_SYNC),
    ROW("notice", notice, BOUND_NOTICE), ROW("give", give, BOUND_GIVE), ROW("image", make_image, BOUND_IMAGE), ROW("take", take, BOUND_TAKE),
    ROW("receipt", receipt, BOUND_RECEIPT), ROW("release", release, BOUND_RELEASE), ROW("recover", recover, BOUND_RECOVER),
    ROW("log_end", log_end, BOUND_LOG_END), ROW("checkpoint", checkpoint, BOUND_CHECKPOINT),
    ROW("recover_checkpoint", recover_checkpoint, BOUND_RECOVER_CHECKPOINT), ROW("inspect", inspect, BOUND_INSPECT),
    ROW("start", start, BOUND_START), ROW("issue", issue, BOUND_ISSUE), ROW("resend", resend, BOUND_RESEND), ROW("receive", receive, BOUND_RECEIVE),
    ROW("leases", leases, BOUND_LEASES), ROW("open", open_lease, BOUND_OPEN), ROW("renew", renew, BOUND_RENEW), ROW("query", query, BOUND_QUERY),
    ROW("chamber_start", chamber_start, BOUND_CHAMBER_START), ROW("chamber_issue", chamber_issue, BOUND_CHAMBER_ISSUE),
    ROW("chamber_resend", chamber_resend, BOUND_CHAMBER_RESEND), ROW("chamber_receive", chamber_receive, BOUND_CHAMBER_RECEIVE),
};
enum { ROWS = sizeof rows / sizeof *rows };

static size_t run(void (*call)(void)) {
    memset(stack, PAINT, STACK);
    getcontext(&there);
    there.uc_stack.ss_sp = stack;
    there.uc_stack.ss_size = STACK;
    there.uc_link = &here;
    makecontext(&there, call, 0);
    swapcontext(&here, &there);
    size_t clean = 0;
    while (clean < STACK && stack[clean] == PAINT) clean++;
    return STACK - clean;
}

static void expect(void (*call)(void), uint32_t number) {
    static size_t empty;
    if (empty == 0) empty = run(nothing);
    size_t took = run(call) - empty;
    for (size_t i = 0; i < ROWS; i++) {
        if (rows[i].call != call) continue;
        rows[i].times++;
        if (took > rows[i].most) rows[i].most = took;
        if (mantelorris_number(answer) != number) {
            printf("%s: number %u, and %u is due\n", rows[i].name, mantelorris_number(answer), number);
            exit(1);
        }
    }
}

static void put32(uint8_t *p, uint32_t v) {
    for (int i = 0; i < 4; i++) p[i] = (uint8_t)(v >> 8 * i);
}

static void save(void) {
    mark = mantelorris_length(st());
    expect(sync_log, 0);
}

/* 32 clients with 16 open calls each on point 5: 512 completion records at server 0 */
static void fill(void) {
    expect(leases, 0);
    point = 5;
    for (client_number = 1; client_number <= CLIENTS; client_number++) {
        expect(open_lease, 0);
        expect(start, 0);
        for (call_number = 1; call_number <= CALLS; call_number++) {
            expect(issue, 0);
            expect(request, 0);
            if (call_number == 1 && client_number == 1) expect(request, MANTELORRIS_NOT_SYNCED);
        }
        expect(issue, MANTELORRIS_WINDOW_FULL);
    }
    expect(open_lease, MANTELORRIS_LEASES_FULL);
}

static void serve(void) {
    fill();
    save();
    client_number = CLIENTS;
    call_number = CALLS;
    expect(fetch, 0);
    expect(resend, 0);
    expect(request, 0); /* a repeat: answered */
    packet[1] = MANTELORRIS_STEP;
    expect(request, MANTELORRIS_OTHER_COMMAND);
    expect(fetch, 0);
    memcpy(packet, out, MANTELORRIS_REPLY_SIZE);
    packet_length = MANTELORRIS_REPLY_SIZE;
    expect(receive, 0);
    expect(receive, MANTELORRIS_UNKNOWN);
    expect(resend, MANTELORRIS_UNKNOWN);
    expect(renew, 0);
    expect(receive, 0);
    expect(receive, 0);
    call_number = 99;
    expect(fetch, MANTELORRIS_UNKNOWN);
}

/* a checkpoint of full tables takes the log's place */
static void replace_log(void) {
    client_number = call_number = 1;
    checkpoint_length = 0;
    expect(inspect, 0);
    expect(checkpoint, 0);
    checkpoint_length = mantelorris_written(answer);
    if (checkpoint_length != MANTELORRIS_CHECKPOINT_LONGEST) exit(2);
    memcpy(lg(), tail, sizeof tail);
    mark = sizeof tail;
    expect(inspect, 0);
    expect(recover_checkpoint, 0);
    call_number = 99;
    expect(inspect, MANTELORRIS_UNKNOWN);
    checkpoint_bytes[4] ^= 1;
    expect(inspect, MANTELORRIS_BAD_LOG);
    expect(recover_checkpoint, MANTELORRIS_BAD_LOG);
}

static void move(void) {
    other = 1;
    expect(make_image, MANTELORRIS_NOT_HELD);
    expect(give, 0);
    expect(make_image, MANTELORRIS_NOT_SYNCED);
    save();
    expect(make_image, 0);
    image_length = mantelorris_written(answer);
    memcpy(image, out, image_length);
    if (image_length != MANTELORRIS_IMAGE_SIZE) exit(2);
    at_server = 1;
    expect(found, 0);
    image[4] ^= 64;
    expect(take, MANTELORRIS_MALFORMED);
    image[4] ^= 64;
    expect(take, 0);
    expect(take, MANTELORRIS_OLD_MOVE);
    expect(receipt, MANTELORRIS_NOT_SYNCED);
    save();
    expect(receipt, 0);
    memcpy(packet, out, MANTELORRIS_RECEIPT_SIZE);
    packet_length = MANTELORRIS_RECEIPT_SIZE;
    mark = mantelorris_length(st());
    expect(log_end, 0);
    expect(recover, 0);
    replace_log();
    at_server = 0;
}

static void finish(void) {
    mark = mantelorris_length(st());
    expect(recover, 0);
    mark--;
    expect(recover, 0);
    lg()[8] = 9;
    expect(recover, MANTELORRIS_BAD_LOG);
    expect(log_end, MANTELORRIS_BAD_LOG);
    lg()[8] = 6;
    mark++;
    expect(recover, 0);
    expect(release, 0);
    expect(release, MANTELORRIS_NOT_HELD);
    client_number = 7;
    mark = 4000;
    expect(query, 0);
    expect(notice, 0);
    expect(notice, MANTELORRIS_UNKNOWN);
    packet[0] = 0;
    expect(request, MANTELORRIS_MALFORMED);
    expect(start, MANTELORRIS_MALFORMED);
    expect(renew, MANTELORRIS_UNKNOWN);
    state[0][0] ^= 1;
    expect(request, MANTELORRIS_NOT_SOUND);
}

/* a lock: every answer of its controller, up to an opening */
static void lock_command(uint32_t op, uint32_t at, int32_t argument, uint32_t number) {
    lock_op = op;
    lock_point = at;
    lock_argument = argument;
    expect(chamber_issue, number);
    if (number) return;
    call_number = mantelorris_packet_call(packet);
    expect(chamber_issue, MANTELORRIS_WINDOW_FULL);
    expect(chamber_resend, 0);
    uint8_t quality = at < 20 ? MANTELORRIS_BY_HAND : MANTELORRIS_VALID; /* a gate was set, a level reported */
    uint8_t result[MANTELORRIS_REPLY_SIZE] = {MANTELORRIS_KIND_RESULT, 0, (uint8_t)at, quality};
    memcpy(result + 4, packet + 4, 8); /* client and call */
    put32(result + 12, op == MANTELORRIS_READ ? 0 : (uint32_t)argument);
    memcpy(packet, result, sizeof result);
    packet_length = sizeof result;
    expect(chamber_receive, 0);
    expect(chamber_receive, MANTELORRIS_UNKNOWN);
    expect(chamber_resend, MANTELORRIS_UNKNOWN);
}

static void lock(void) {
    expect(leases, 0);
    expect(open_lease, 0);
    point = 20;
    expect(chamber_start, MANTELORRIS_MALFORMED);
    point = 22;
    expect(chamber_start, 0);
    packet_length = 3;
    expect(chamber_receive, MANTELORRIS_MALFORMED);
    lock_command(MANTELORRIS_STEP, 10, 1, MANTELORRIS_MALFORMED);
    lock_command(MANTELORRIS_SET, 10, 40, MANTELORRIS_NOT_SAFE);
    lock_command(MANTELORRIS_SET, 11, 0, 0);
    lock_command(MANTELORRIS_READ, 11, 0, 0);
    lock_command(MANTELORRIS_READ, 20, 0, 0);
    lock_command(MANTELORRIS_READ, 21, 0, 0);
    lock_command(MANTELORRIS_SET, 10, 40, 0);
    lock_command(MANTELORRIS_PART, 11, 500, MANTELORRIS_NOT_SAFE);
}

int main(void) {
    for (int p = 0; p < MANTELORRIS_POINTS; p++) {
        put32(plan + 16 * p, (uint32_t)-1000);
        put32(plan + 16 * p + 4, 1000);
    }
    expect(found, 0);
    serve();
    move();
    finish();
    lock();
    int bad = 0;
    for (size_t i = 0; i < ROWS; i++) {
        printf("%-8s %6zu bytes at the most in %u calls; the guide says %zu\n", rows[i].name, rows[i].most, rows[i].times, rows[i].bound);
        if (rows[i].most > rows[i].bound || rows[i].times == 0) bad = 1;
    }
    return bad;
}
