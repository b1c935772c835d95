/* A host program to copy from: two servers with a memory card each, two clients, the lease manager, and a line that loses, repeats and
 * delays packets. Power fails, checkpoints replace logs, a point moves from one server to the other, a lease ends, and each command is carried out
 * once. Every answer is checked; the last line is 'N passed, M failed'.
 *
 * What is yours to write: the line (`post`, `deliver`), the card (`card_write`, `card_store`), the clock (`now`) and where servers and clients run.
 * Here they share one process. */
#include "mantelorris.h"
#include "mantelorris_client.h"
#include <stdio.h>
#include <stdlib.h>
#include <string.h>

enum {
    LOG_SPACE = 16384,
    POINT = 5,     /* the point that commands are about */
    STEPS = 100,   /* commands of each client */
    LEASE = 600,   /* seconds */
    LINE = 64,     /* packets on the way at most */
    CLIENTS_AT = 2 /* addresses: 0 and 1 are servers, 2 and 3 clients */
};

static int passed, failed;

static void expect(const char *what, uint64_t have, uint64_t want) {
    if (have == want) {
        passed++;
    } else {
        failed++;
        printf("FAILED %s: %llu, not %llu\n", what, (unsigned long long)have, (unsigned long long)want);
    }
}

/* without this there is no state to go on with */
static void need(const char *what, uint64_t have, uint64_t want) {
    expect(what, have, want);
    if (have == want) return;
    printf("%d passed, %d failed, and the rest was not run\n", passed, failed);
    exit(1);
}

/* one of several numbers, each a bit of a mask */
static void expect_one(const char *what, uint32_t number, uint32_t mask) {
    expect(what, number < 32 && (mask >> number & 1), 1);
}

#define BIT(number) (1u << (number))

/* a fixed pseudo-random sequence: each run is the same */
static uint32_t below(uint32_t bound) {
    static uint32_t x = 2463534242u;
    x ^= x << 13;
    x ^= x >> 17;
    x ^= x << 5;
    return x % bound;
}

static void put32(uint8_t *p, uint32_t v) {
    for (int i = 0; i < 4; i++) p[i] = (uint8_t)(v >> 8 * i);
}

static uint32_t get32(const uint8_t *p) {
    return p[0] | (uint32_t)p[1] << 8 | (uint32_t)p[2] << 16 | (uint32_t)p[3] << 24;
}

/* ---- the plan: every point from -100 to 1000, fallback 0, at home at server 0 */

static uint8_t plan[MANTELORRIS_PLAN_SIZE];

static void make_plan(void) {
    for (int p = 0; p < MANTELORRIS_POINTS; p++) {
        put32(plan + 16 * p, (uint32_t)-100);
        put32(plan + 16 * p + 4, 1000);
    }
}

/* ---- the card */

/* a checkpoint and the log since then; before the first checkpoint, of length 0, the whole log */
struct slot {
    uint8_t checkpoint[MANTELORRIS_CHECKPOINT_LONGEST];
    size_t replaced; /* the checkpoint's length */
    uint8_t bytes[LOG_SPACE];
    size_t length;
};

/* two slots, and the word that names the one in force; on a real card that word and the slots' lengths are one superblock (docs/GUIDE.md, The card) */
struct card {
    struct slot slots[2];
    int word;
};

static struct slot *in_force(struct card *card) {
    return &card->slots[card->word];
}

/* Returns when the card has the bytes for certain; on a file this is a write and fsync. Bytes go to the card in order, so that a power cut
 * leaves a prefix of the log. */
static void card_write(struct card *card, size_t at, const uint8_t *bytes, size_t count) {
    memcpy(in_force(card)->bytes + at, bytes, count);
    in_force(card)->length = at + count;
}

/* A checkpoint and its tail's head, both or neither: they go to the other slot, and then the word changes. Power fails after `survive` bytes of them, if
 * there are so many; 0 then. */
static int card_store(struct card *card, const uint8_t *checkpoint, size_t count, const uint8_t tail[MANTELORRIS_LOG_HEAD], size_t survive) {
    struct slot *other = &card->slots[!card->word];
    memcpy(other->checkpoint, checkpoint, count < survive ? count : survive);
    if (survive < count + MANTELORRIS_LOG_HEAD) return 0;
    memcpy(other->bytes, tail, MANTELORRIS_LOG_HEAD);
    other->replaced = count;
    other->length = MANTELORRIS_LOG_HEAD;
    card->word = !card->word;
    return 1;
}

/* ---- servers */

/* commands executed since the last sync, whose results may be sent after it */
struct waiting {
    uint32_t client, call;
};

struct server {
    uint8_t state[MANTELORRIS_STATE_SIZE];
    uint8_t log[LOG_SPACE];
    struct card card;
    uint32_t number; /* the cabinet's, which no card tells */
    struct waiting waiting[LINE];
    size_t waits;
    int knows_ended; /* a notice answered 0 here */
};

static struct server servers[2];
static uint32_t now; /* seconds */

static void post(int to, const uint8_t *bytes, size_t length);

/* -1: no such client here */
static int address_of(uint32_t client) {
    return client == 1 || client == 2 ? CLIENTS_AT + (int)client - 1 : -1;
}

static size_t log_length(const struct server *s) {
    return (size_t)mantelorris_length(s->state);
}

/* Founded once in its life, with its own number. The mark is at 8 at once, so the head goes to the card before anything else happens. */
static void found(struct server *s, uint32_t number) {
    uint64_t a = mantelorris_found(s->state, sizeof s->state, s->log, sizeof s->log, plan, sizeof plan, number);
    expect("found", a, 0);
    s->number = number;
    expect("found: length", log_length(s), MANTELORRIS_LOG_HEAD);
    card_write(&s->card, 0, s->log, log_length(s));
}

/* First the card, then the mark: what is under the mark must never be lost again. Then the results that waited for it may be sent. The
 * clients would ask again in any case; this only saves them the time. */
static void save(struct server *s) {
    size_t mark = (size_t)mantelorris_mark(s->state), length = log_length(s);
    card_write(&s->card, mark, s->log + mark, length - mark);
    expect("sync", mantelorris_sync(s->state, sizeof s->state, s->log, sizeof s->log, length), 0);
    expect("sync: mark", mantelorris_mark(s->state), length);
    for (size_t i = 0; i < s->waits; i++) {
        uint8_t out[MANTELORRIS_REPLY_SIZE];
        uint32_t client = s->waiting[i].client;
        uint64_t a = mantelorris_fetch(s->state, sizeof s->state, s->log, sizeof s->log, client, s->waiting[i].call, out, sizeof out);
        /* 17: the client has finished this call in the meantime, or the point's records went with the point */
        expect_one("fetch", mantelorris_number(a), BIT(0) | BIT(MANTELORRIS_UNKNOWN));
        if (mantelorris_written(a)) post(address_of(client), out, mantelorris_written(a));
    }
    s->waits = 0;
}

/* A server starts again from its card. The log's space begins with the kept bytes; recover is lent exactly these. An incomplete last record
 * is dropped, and the card's next write begins at the recorded length. Another server's card would be taken as well: the number tells. Once a checkpoint is stored, it is the start, and never the plan. */
static void restart(struct server *s) {
    struct slot *slot = in_force(&s->card);
    memcpy(s->log, slot->bytes, slot->length);
    struct mantelorris_log_end_reply whole = mantelorris_log_end(s->log, slot->length);
    expect("log end", whole.number, 0);
    if (slot->replaced)
        need("recover", mantelorris_recover_checkpoint(s->state, sizeof s->state, slot->checkpoint, slot->replaced, s->log, slot->length), 0);
    else
        need("recover", mantelorris_recover(s->state, sizeof s->state, s->log, slot->length, plan, sizeof plan), 0);
    need("recover: its own card", mantelorris_server(s->state), s->number);
    expect("log end: recover's length", whole.end, mantelorris_length(s->state));
    slot->length = log_length(s);
    expect("recover: mark", mantelorris_mark(s->state), log_length(s));
}

static void lose_memory(struct server *s) {
    memset(s->state, 0xEE, sizeof s->state);
    memset(s->log, 0xEE, sizeof s->log);
    s->waits = 0;
}

/* Memory is gone. Of the bytes written since the last sync some had reached the card. */
static void power_cut(struct server *s) {
    size_t mark = (size_t)mantelorris_mark(s->state), length = log_length(s);
    size_t kept = mark + below((uint32_t)(length - mark) + 1);
    card_write(&s->card, mark, s->log + mark, kept - mark);
    lose_memory(s);
    restart(s);
    expect("recover: no synced byte is lost", log_length(s) >= mark && log_length(s) <= kept, 1);
}

/* All of the log is synced, then replaced by a checkpoint. Until that is stored nothing else is called; if power fails before, the old log is in force.
 * 1 if it was stored. */
static int renew(struct server *s, size_t survive) {
    static uint8_t checkpoint[MANTELORRIS_CHECKPOINT_SIZE];
    uint8_t tail[MANTELORRIS_LOG_HEAD];
    save(s);
    uint64_t a = mantelorris_checkpoint(s->state, sizeof s->state, s->log, sizeof s->log, checkpoint, sizeof checkpoint, tail, sizeof tail);
    need("checkpoint", mantelorris_number(a), 0);
    expect("checkpoint: its length", mantelorris_written(a) >= 2092 && mantelorris_written(a) <= MANTELORRIS_CHECKPOINT_LONGEST, 1);
    expect("checkpoint: length and mark", log_length(s) << 8 | mantelorris_mark(s->state), 8 << 8 | 8);
    if (!card_store(&s->card, checkpoint, mantelorris_written(a), tail, survive)) {
        lose_memory(s);
        restart(s);
        return 0;
    }
    memcpy(s->log, tail, sizeof tail);
    return 1;
}

/* Number 0 and no packet: executed, and its result waits for the sync. Else the packet is the answer: a result, or a refusal. */
static void on_request(struct server *s, const uint8_t *packet, size_t length) {
    uint8_t out[MANTELORRIS_REPLY_SIZE];
    size_t before = log_length(s);
    uint64_t a = mantelorris_request(s->state, sizeof s->state, s->log, sizeof s->log, packet, length, out, sizeof out);
    expect_one("request", mantelorris_number(a),
               BIT(0) | BIT(MANTELORRIS_NOT_HELD) | BIT(MANTELORRIS_LEASE_ENDED) | BIT(MANTELORRIS_UNDER_FLOOR) | BIT(MANTELORRIS_NOT_SYNCED));
    if (a == 0) { /* the packet is a request, so client and call stand in it */
        expect("request: appended", log_length(s), before + MANTELORRIS_LOG_EXECUTED);
        if (s->waits < LINE) s->waiting[s->waits++] = (struct waiting){get32(packet + 4), get32(packet + 8)};
    } else {
        expect("request: the log is as it was", log_length(s), before);
        if (mantelorris_written(a)) post(address_of(get32(out + 4)), out, mantelorris_written(a));
    }
}

/* What arrives at a server, by its first byte. Nothing here trusts the line: every packet may come twice, late or never. */
static void on_server(struct server *s, const uint8_t *packet, size_t length) {
    uint64_t a;
    if (length == 0) return;
    switch (packet[0]) {
    case 1:
        on_request(s, packet, length);
        break;
    case 4:
        a = mantelorris_release(s->state, sizeof s->state, s->log, sizeof s->log, packet, length);
        expect_one("release", mantelorris_number(a), BIT(0) | BIT(MANTELORRIS_NOT_HELD)); /* 3: released before */
        break;
    case 5:
        a = mantelorris_notice(s->state, sizeof s->state, s->log, sizeof s->log, packet, length);
        expect_one("notice", mantelorris_number(a), BIT(0) | BIT(MANTELORRIS_UNKNOWN)); /* 17: noticed before, or never known here */
        if (a == 0) s->knows_ended = 1;
        break;
    default: /* 4D, an image */
        a = mantelorris_take(s->state, sizeof s->state, s->log, sizeof s->log, packet, length);
        expect_one("take", mantelorris_number(a), BIT(0) | BIT(MANTELORRIS_OLD_MOVE)); /* 12: taken before */
    }
}

/* ---- clients */

struct desk {
    struct mantelorris_client client;
    int server;           /* the server that it believes to hold the point */
    uint32_t left;        /* commands not yet issued */
    uint32_t first, next; /* calls from first to next - 1 may be open */
    uint32_t results;
    int32_t last;    /* the value of the latest result */
    uint32_t time;   /* and its time of execution */
    uint8_t old[24]; /* a copy of its latest request */
};

static struct desk desks[2];
static struct mantelorris_lease_manager manager;
static uint8_t counted[2 * STEPS + 1]; /* how often each value was a result */

static void started(struct desk *d) {
    struct mantelorris_lease_reply lease = mantelorris_open(&manager, now, LEASE);
    expect("open", lease.number, 0);
    struct mantelorris_start_reply start = mantelorris_start(lease.packet, lease.length);
    expect("start", start.number, 0);
    d->client = start.client;
    d->first = d->next = 1;
}

static void renewed(struct desk *d) {
    struct mantelorris_lease_reply lease = mantelorris_renew(&manager, d->client.client, now, LEASE);
    expect("renew", lease.number, 0);
    expect("receive: a grant", mantelorris_receive(&d->client, lease.packet, lease.length).number, 0);
}

/* 15: sixteen numbers from the first open one are in use; a result must come first */
static int issued(struct desk *d, uint32_t op, int32_t argument) {
    struct mantelorris_send_reply r = mantelorris_issue(&d->client, op, POINT, argument);
    expect_one("issue", r.number, BIT(0) | BIT(15));
    if (r.number != 0) return 0;
    d->next = get32(r.packet + 8) + 1;
    memcpy(d->old, r.packet, 24);
    post(d->server, r.packet, r.length);
    return 1;
}

/* A call is sent again until its result is there; the server carries it out once. 17: it is closed. */
static void send_again(struct desk *d) {
    for (uint32_t call = d->first; call < d->next; call++) {
        struct mantelorris_send_reply r = mantelorris_resend(&d->client, call);
        expect_one("resend", r.number, BIT(0) | BIT(17));
        if (r.number == 0 && below(3) == 0) post(d->server, r.packet, r.length);
        if (r.number != 0 && call == d->first) d->first++;
    }
}

/* 17: a result or refusal of a call that is closed by now. Only a result closes a call; a refusal says to try again, or elsewhere. */
static void on_client(struct desk *d, const uint8_t *packet, size_t length) {
    struct mantelorris_receive_reply r = mantelorris_receive(&d->client, packet, length);
    expect_one("receive", r.number, BIT(0) | BIT(17));
    if (r.kind == MANTELORRIS_KIND_RESULT) {
        d->results++;
        d->last = r.value;
        d->time = r.time;
        expect("result: outcome", r.outcome, MANTELORRIS_OUTCOME_DONE);
        expect("result: by hand, set or stepped from there", r.quality, MANTELORRIS_BY_HAND);
        if (r.value >= 0 && r.value <= 2 * STEPS) counted[r.value]++;
    }
    if (r.kind == MANTELORRIS_KIND_REFUSAL && r.refusal == MANTELORRIS_NOT_HELD) d->server = (int)below(2);
}

/* ---- the line */

struct on_line {
    int to;
    size_t length;
    uint8_t bytes[MANTELORRIS_IMAGE_SIZE];
};

static struct on_line line[LINE];
static int on_way;

static void put_on_line(int to, const uint8_t *bytes, size_t length) {
    if (on_way == LINE || to < 0 || length > sizeof line[0].bytes) return; /* lost */
    line[on_way].to = to;
    line[on_way].length = length;
    memcpy(line[on_way].bytes, bytes, length);
    on_way++;
}

/* one of four is lost, one of four arrives twice */
/* however often a server tells a result, and whichever does, it has one time of execution */
static void one_time(const uint8_t *result) {
    static uint64_t times[4][256]; /* by client and call: the time + 1 */
    uint32_t client = mantelorris_packet_client(result), call = mantelorris_packet_call(result);
    if (client >= 4 || call >= 256) return;
    uint64_t *at = &times[client][call], time = mantelorris_result_time(result) + UINT64_C(1);
    if (*at) expect("a result told again: its time", time, *at);
    *at = time;
}

static void post(int to, const uint8_t *bytes, size_t length) {
    uint32_t luck = below(4);
    if (bytes[0] == MANTELORRIS_KIND_RESULT) one_time(bytes);
    if (luck == 0) return;
    put_on_line(to, bytes, length);
    if (luck == 1) put_on_line(to, bytes, length);
}

/* some of the packets on the way, in any order */
static void deliver(void) {
    static struct on_line p;
    for (int most = 2 * LINE; most > 0 && on_way > 0 && below(8) != 0; most--) {
        int i = (int)below((uint32_t)on_way);
        p = line[i];
        line[i] = line[--on_way];
        if (p.to < CLIENTS_AT)
            on_server(&servers[p.to], p.bytes, p.length);
        else
            on_client(&desks[p.to - CLIENTS_AT], p.bytes, p.length);
    }
}

/* ---- the move of the point from server 0 to server 1 */

/* The give is synced before the image is made, or a crash could take back what the other server has taken. */
static void begin_move(void) {
    struct server *s = &servers[0];
    expect("give", mantelorris_give(s->state, sizeof s->state, s->log, sizeof s->log, POINT, 1), 0);
    save(s);
}

/* Image and receipt are sent again until the giver has released the point: 1 then. 3 of image: released. 3 of receipt: not taken yet, 7: taken
 * and not synced. */
static int go_on_moving(void) {
    static uint8_t image[MANTELORRIS_IMAGE_SIZE];
    uint8_t receipt[MANTELORRIS_RECEIPT_SIZE];
    struct server *giver = &servers[0], *taker = &servers[1];
    uint64_t a = mantelorris_image(giver->state, sizeof giver->state, giver->log, sizeof giver->log, POINT, image, sizeof image);
    expect_one("image", mantelorris_number(a), BIT(0) | BIT(MANTELORRIS_NOT_HELD));
    if (mantelorris_number(a) != 0) return 1;
    post(1, image, mantelorris_written(a));
    a = mantelorris_receipt(taker->state, sizeof taker->state, taker->log, sizeof taker->log, POINT, receipt, sizeof receipt);
    expect_one("receipt", mantelorris_number(a), BIT(0) | BIT(MANTELORRIS_NOT_HELD) | BIT(MANTELORRIS_NOT_SYNCED));
    if (mantelorris_written(a)) post(0, receipt, mantelorris_written(a));
    return 0;
}

/* ---- the day */

static uint32_t results(void) {
    return desks[0].results + desks[1].results;
}

static int stored, not_stored; /* checkpoints */

/* A second: clients send, the line delivers, servers sync now and then and store a checkpoint, and power fails. */
static void second(void) {
    now++;
    send_again(&desks[0]);
    send_again(&desks[1]);
    deliver();
    if (below(3) == 0) save(&servers[0]);
    if (below(3) == 0) save(&servers[1]);
    if (below(6) == 0) power_cut(&servers[below(2)]);
    if (below(8) == 0) {
        uint32_t survive = below(2 * 2100);
        int done = renew(&servers[below(2)], survive);
        stored += done;
        not_stored += !done;
    }
}

/* The first command gives the point a value by hand: a step on an invalid one would change nothing. */
static void first_command(void) {
    expect("issue: set 0", (uint64_t)issued(&desks[0], 1, 0), 1);
    for (int i = 0; i < 1000 && results() < 1; i++) second();
    expect("set 0: its result", results(), 1);
}

/* Somebody looks in at server 0 for a second: then it has heard of that second, and what is executed there from then on has its time. */
static void visit(void) {
    struct server *s = &servers[0];
    uint8_t out[MANTELORRIS_REPLY_SIZE];
    struct mantelorris_lease_reply lease = mantelorris_open(&manager, now, 1);
    struct mantelorris_client visitor = mantelorris_start(lease.packet, lease.length).client;
    struct mantelorris_send_reply r = mantelorris_issue(&visitor, MANTELORRIS_READ, POINT + 1, 0);
    expect("visitor: request", mantelorris_request(s->state, sizeof s->state, s->log, sizeof s->log, r.packet, r.length, out, sizeof out), 0);
    lease = mantelorris_query(&manager, visitor.client, now + 1);
    expect("visitor: notice", mantelorris_notice(s->state, sizeof s->state, s->log, sizeof s->log, lease.packet, lease.length), 0);
    expect("visitor: heard", mantelorris_heard(s->state), now + 1);
}

/* Each client adds 1 a hundred times, and the point moves meanwhile. A result is the number of steps so far, so each comes once. */
static void steps_and_move(void) {
    enum { BEFORE, MOVING, MOVED } move = BEFORE;
    desks[0].left = desks[1].left = STEPS;
    for (int i = 0; i < 5000 && !(move == MOVED && results() == 1 + 2 * STEPS); i++) {
        for (int x = 0; x < 2; x++) {
            if (desks[x].left > 0 && issued(&desks[x], 2, 1)) desks[x].left--;
            if (now % 100 == 0) renewed(&desks[x]);
        }
        if (move == BEFORE && i % 4 == 0) visit();
        if (move == BEFORE && results() > STEPS / 2) {
            begin_move();
            move = MOVING;
        } else if (move == MOVING && go_on_moving()) {
            move = MOVED;
        }
        second();
    }
    expect("the point has moved", move, MOVED);
    expect("steps: all results", results(), 1 + 2 * STEPS);
    for (int value = 1; value <= 2 * STEPS; value++) expect("steps: each value once", counted[value], 1);
}

/* The second client goes away. When its lease has ended, the lease manager makes a notice of it; servers free its place. Old requests of it that are
 * still on the way are refused from then on (4). */
static void lease_end(void) {
    uint32_t gone = desks[1].client.client;
    now += LEASE / 2;
    renewed(&desks[0]);
    now += LEASE / 2 + 1;
    renewed(&desks[0]);
    struct mantelorris_lease_reply reply = mantelorris_query(&manager, gone, now);
    expect("query", reply.number, 0);
    expect("query: a notice", reply.kind, MANTELORRIS_KIND_NOTICE);
    for (int i = 0; i < 200; i++) {
        post((int)below(2), reply.packet, reply.length);
        second();
    }
    for (int i = 0; i < 2; i++) expect("notice: heard", (uint64_t)servers[i].knows_ended, 1);
    uint8_t out[MANTELORRIS_REPLY_SIZE];
    struct server *s = &servers[1];
    uint64_t a = mantelorris_request(s->state, sizeof s->state, s->log, sizeof s->log, desks[1].old, 24, out, sizeof out);
    expect("request after the lease's end", mantelorris_number(a), MANTELORRIS_LEASE_ENDED);
    expect("request after the lease's end: a refusal packet", mantelorris_written(a), 12);
    expect("request after the lease's end: its number", out[1], MANTELORRIS_LEASE_ENDED);
}

/* The point's value at last: each step was carried out once. */
static void last_read(void) {
    renewed(&desks[0]);
    expect("issue: read", (uint64_t)issued(&desks[0], 0, 0), 1);
    uint32_t before = results();
    for (int i = 0; i < 1000 && results() == before; i++) second();
    expect("read: its result", results(), before + 1);
    expect("read: the value", (uint64_t)desks[0].last, 2 * STEPS);
    expect("read: its time", desks[0].time, mantelorris_heard(servers[1].state));
}

/* Another program takes over without a power cut: it recovers from the log up to its recorded length, all of which the card has. */
static void take_over(void) {
    struct server *s = &servers[1];
    uint8_t out[MANTELORRIS_REPLY_SIZE];
    uint32_t client = desks[0].client.client;
    save(s);
    size_t length = log_length(s);
    memset(s->state, 0, sizeof s->state);
    restart(s);
    expect("taken over: length", log_length(s), length);
    uint64_t a = mantelorris_fetch(s->state, sizeof s->state, s->log, sizeof s->log, client, desks[0].next - 1, out, sizeof out);
    expect("taken over: the read's result is there", mantelorris_number(a), 0);
    expect("taken over: its value", get32(out + 12), 2 * STEPS);
}

/* ---- twins: one keeps its whole log, the other makes checkpoints; nobody can tell them apart */

static struct server twins[2], taker;

static void twins_request(uint32_t client, uint32_t call, uint8_t op, uint8_t point, int32_t argument) {
    uint8_t packet[24] = {1, op, point}, out[2][MANTELORRIS_REPLY_SIZE] = {{0}};
    uint64_t a[2];
    put32(packet + 4, client);
    put32(packet + 8, call);
    put32(packet + 12, 1);
    put32(packet + 16, client == 3 ? 40 : 100); /* its lease end */
    put32(packet + 20, (uint32_t)argument);
    for (int i = 0; i < 2; i++)
        a[i] = mantelorris_request(twins[i].state, sizeof twins[i].state, twins[i].log, LOG_SPACE, packet, sizeof packet, out[i], sizeof out[i]);
    expect("twins: the answer", a[1], a[0]);
    expect("twins: the packet", (uint64_t)memcmp(out[0], out[1], sizeof out[0]), 0);
}

/* points, results, images and receipts of both */
static void alike(const char *what) {
    static uint8_t out[2][MANTELORRIS_IMAGE_SIZE];
    uint64_t a[2], differ = 0;
    size_t n = MANTELORRIS_STATE_SIZE, m = LOG_SPACE;
    for (uint32_t id = 0; id < 4 * 20; id++) {
        for (int i = 0; i < 2; i++) a[i] = mantelorris_fetch(twins[i].state, n, twins[i].log, m, id / 20, id % 20, out[i], sizeof out[i]);
        differ += a[0] != a[1] || memcmp(out[0], out[1], MANTELORRIS_REPLY_SIZE);
    }
    for (uint32_t p = 0; p < MANTELORRIS_POINTS; p++) {
        const uint8_t *x = twins[0].state, *y = twins[1].state;
        differ += mantelorris_status(x, p) != mantelorris_status(y, p) || mantelorris_quality(x, p) != mantelorris_quality(y, p) ||
                  mantelorris_value(x, p) != mantelorris_value(y, p) || mantelorris_move(x, p) != mantelorris_move(y, p);
        for (int i = 0; i < 2; i++) a[i] = mantelorris_image(twins[i].state, n, twins[i].log, m, p, out[i], sizeof out[i]);
        differ += a[0] != a[1] || memcmp(out[0], out[1], mantelorris_written(a[0]));
        for (int i = 0; i < 2; i++) a[i] = mantelorris_receipt(twins[i].state, n, twins[i].log, m, p, out[i], sizeof out[i]);
        differ += a[0] != a[1] || memcmp(out[0], out[1], MANTELORRIS_RECEIPT_SIZE);
    }
    expect(what, differ, 0);
}

static void twins_restart(const char *what) {
    for (int i = 0; i < 2; i++) {
        save(&twins[i]);
        lose_memory(&twins[i]);
        restart(&twins[i]);
    }
    alike(what);
}

/* the image of a point that one server has given goes to another */
static void taken(struct server *from, struct server *to, uint32_t point) {
    static uint8_t image[MANTELORRIS_IMAGE_SIZE];
    uint64_t a = mantelorris_image(from->state, sizeof from->state, from->log, LOG_SPACE, point, image, sizeof image);
    expect("twins: image", mantelorris_number(a), 0);
    expect("twins: take", mantelorris_take(to->state, sizeof to->state, to->log, LOG_SPACE, image, mantelorris_written(a)), 0);
    save(to);
}

/* point 7 goes to the taker, whose receipt comes back */
static void twins_give(void) {
    uint8_t receipt[MANTELORRIS_RECEIPT_SIZE];
    for (int i = 0; i < 2; i++) expect("twins: give", mantelorris_give(twins[i].state, MANTELORRIS_STATE_SIZE, twins[i].log, LOG_SPACE, 7, 1), 0);
    twins_restart("twins: recovered, a point given in the tail");
    expect("twins: a checkpoint of a point given", (uint64_t)renew(&twins[1], LOG_SPACE), 1);
    twins_restart("twins: recovered, a point given in the checkpoint");
    found(&taker, 1);
    taken(&twins[1], &taker, 7);
    uint64_t a = mantelorris_receipt(taker.state, sizeof taker.state, taker.log, LOG_SPACE, 7, receipt, sizeof receipt);
    for (int i = 0; i < 2; i++)
        expect("twins: release", mantelorris_release(twins[i].state, MANTELORRIS_STATE_SIZE, twins[i].log, LOG_SPACE, receipt, mantelorris_written(a)), 0);
    twins_restart("twins: recovered, a point released");
}

/* and comes back itself */
static void twins_take(void) {
    expect("twins: give back", mantelorris_give(taker.state, sizeof taker.state, taker.log, LOG_SPACE, 7, 0), 0);
    save(&taker);
    for (int i = 0; i < 2; i++) taken(&taker, &twins[i], 7);
    twins_restart("twins: recovered, a point taken in the tail");
}

static void twin_servers(void) {
    const uint8_t notice[12] = {5, 0, 0, 0, 3, 0, 0, 0, 50, 0, 0, 0};
    for (int i = 0; i < 2; i++) found(&twins[i], 0);
    twins_request(1, 1, MANTELORRIS_SET, POINT, 40);
    twins_request(2, 1, MANTELORRIS_SET, 7, -3);
    twins_request(3, 2, MANTELORRIS_FAULT, 9, 0);
    for (int i = 0; i < 2; i++) save(&twins[i]);
    expect("twins: a checkpoint", (uint64_t)renew(&twins[1], LOG_SPACE), 1);
    alike("twins: a checkpoint was stored");
    twins_request(1, 1, MANTELORRIS_SET, POINT, 40); /* told from the checkpoint */
    twins_request(1, 1, MANTELORRIS_SET, POINT, 41); /* 6 */
    twins_request(1, 2, MANTELORRIS_STEP, POINT, 2);
    twins_request(1, 2, MANTELORRIS_STEP, POINT, 2); /* 7 */
    alike("twins: a record not synced");
    for (int i = 0; i < 2; i++) expect("twins: notice", mantelorris_notice(twins[i].state, MANTELORRIS_STATE_SIZE, twins[i].log, LOG_SPACE, notice, sizeof notice), 0);
    twins_restart("twins: recovered, a tail of two records");
    expect("twins: a checkpoint on a checkpoint", (uint64_t)renew(&twins[1], LOG_SPACE), 1);
    twins_restart("twins: recovered, a tail without records");
    twins_request(3, 3, MANTELORRIS_READ, POINT, 0); /* 4: the heard time is in the checkpoint */
    twins_request(1, 2, MANTELORRIS_STEP, POINT, 2);
}

/* ---- inspect: which bytes hold a completion record; the time of execution is the last of them */

static void inspected(const char *what, struct server *s, uint32_t client, uint32_t call, uint32_t source, size_t length, uint32_t time) {
    struct slot *slot = in_force(&s->card);
    const uint8_t *checkpoint = slot->replaced ? slot->checkpoint : NULL;
    struct mantelorris_place at = mantelorris_inspect(s->state, sizeof s->state, checkpoint, slot->replaced, s->log, sizeof s->log, client, call);
    const uint8_t *shown = mantelorris_shown(at, checkpoint, s->log);
    expect(what, at.number, 0);
    expect(what, at.source, source);
    expect(what, at.end - at.start, length);
    expect(what, shown == (source == MANTELORRIS_IN_CHECKPOINT ? slot->checkpoint : s->log) + at.start, 1);
    if (!shown) return;
    /* in a log record client and call come after kind, op, point and outcome */
    size_t id = source == MANTELORRIS_IN_RECORD ? 4 : 0;
    expect(what, get32(shown + id), client);
    expect(what, get32(shown + id + 4), call);
    expect(what, get32(shown + length - 4), time);
}

/* while point 7 goes to the taker and back */
static void inspections(void) {
    inspected("inspect: the whole log", &twins[0], 2, 1, MANTELORRIS_IN_RECORD, MANTELORRIS_LOG_EXECUTED, 0);
    inspected("inspect: a checkpoint", &twins[1], 2, 1, MANTELORRIS_IN_CHECKPOINT, 24, 0);
    twins_give();
    inspected("inspect: an image in the log", &taker, 2, 1, MANTELORRIS_IN_IMAGE, 24, 0);
    expect("inspect: a checkpoint of the taker", (uint64_t)renew(&taker, LOG_SPACE), 1);
    inspected("inspect: an image's entry in a checkpoint", &taker, 2, 1, MANTELORRIS_IN_CHECKPOINT, 24, 0);
    twins_take();
    inspected("inspect: an image behind a record", &twins[0], 2, 1, MANTELORRIS_IN_IMAGE, 24, 0);
    inspected("inspect: an image behind a checkpoint", &twins[1], 2, 1, MANTELORRIS_IN_IMAGE, 24, 0);
    expect("twins: a checkpoint of a point taken", (uint64_t)renew(&twins[1], LOG_SPACE), 1);
    twins_restart("twins: recovered, a point taken in the checkpoint");
    twins_request(1, 3, MANTELORRIS_STEP, POINT, 2);
    inspected("inspect: a record behind a checkpoint, not synced", &twins[1], 1, 3, MANTELORRIS_IN_RECORD, MANTELORRIS_LOG_EXECUTED, 50);
    twins_restart("twins: recovered at last");
    expect("twins: a checkpoint at last", (uint64_t)renew(&twins[1], LOG_SPACE), 1);
    inspected("inspect: a time in a checkpoint", &twins[1], 1, 3, MANTELORRIS_IN_CHECKPOINT, 24, 50);
}

/* ---- refusals: each leaves all lent memory as it was */

static struct server spare, kept;

/* a refusal, without a packet but where `want` says so; the spare server is compared with its copy */
static void refused(const char *what, uint64_t answer, uint64_t want) {
    expect(what, answer, want);
    expect(what, (uint64_t)(memcmp(spare.state, kept.state, sizeof kept.state) | memcmp(spare.log, kept.log, sizeof kept.log)), 0);
}

static void not_founded(void) {
    struct server *s = &spare;
    uint8_t out[MANTELORRIS_REPLY_SIZE];
    refused("found: state", mantelorris_found(s->state, sizeof s->state - 1, s->log, LOG_SPACE, plan, sizeof plan, 2), MANTELORRIS_TOO_SHORT);
    refused("found: log", mantelorris_found(s->state, sizeof s->state, s->log, 7, plan, sizeof plan, 2), MANTELORRIS_TOO_SHORT);
    refused("found: plan", mantelorris_found(s->state, sizeof s->state, s->log, LOG_SPACE, plan, sizeof plan - 1, 2), MANTELORRIS_MALFORMED);
    refused("found: number", mantelorris_found(s->state, sizeof s->state, s->log, LOG_SPACE, plan, sizeof plan, 16), MANTELORRIS_MALFORMED);
    refused("request: not founded", mantelorris_request(s->state, sizeof s->state, s->log, LOG_SPACE, desks[0].old, 24, out, sizeof out),
            MANTELORRIS_NOT_SOUND);
    refused("recover: no log", mantelorris_recover(s->state, sizeof s->state, NULL, 0, plan, sizeof plan), MANTELORRIS_BAD_LOG);
    refused("log end: no log", mantelorris_log_end(NULL, 0).number, MANTELORRIS_BAD_LOG);
    refused("recover: plan", mantelorris_recover(s->state, sizeof s->state, s->log, 8, plan, 0), MANTELORRIS_MALFORMED);
}

static uint8_t spare_checkpoint[MANTELORRIS_CHECKPOINT_SIZE], spare_tail[MANTELORRIS_LOG_HEAD];

static uint64_t checkpoint_of(struct server *s, size_t state, size_t log, size_t checkpoint, size_t tail) {
    return mantelorris_checkpoint(s->state, state, s->log, log, spare_checkpoint, checkpoint, spare_tail, tail);
}

/* of a server with a record that is not synced; each leaves checkpoint and tail as they were */
static void no_checkpoint(void) {
    static uint8_t before[MANTELORRIS_CHECKPOINT_SIZE];
    struct server *s = &spare;
    size_t n = sizeof s->state, m = LOG_SPACE, c = sizeof spare_checkpoint, t = sizeof spare_tail;
    memset(spare_checkpoint, 0xA5, c);
    memset(before, 0xA5, c);
    memset(spare_tail, 0xA5, t);
    refused("checkpoint: state", checkpoint_of(s, n - 1, m, c, t), MANTELORRIS_TOO_SHORT);
    refused("checkpoint: checkpoint", checkpoint_of(s, n, m, c - 1, t), MANTELORRIS_TOO_SHORT);
    refused("checkpoint: tail", checkpoint_of(s, n, m, c, t - 1), MANTELORRIS_TOO_SHORT);
    refused("checkpoint: no slices", mantelorris_checkpoint(s->state, n, s->log, m, NULL, 0, NULL, 0), MANTELORRIS_TOO_SHORT);
    refused("checkpoint: log", checkpoint_of(s, n, log_length(s) - 1, c, t), MANTELORRIS_NOT_SOUND);
    refused("checkpoint: not synced", checkpoint_of(s, n, m, c, t), MANTELORRIS_NOT_SYNCED);
    s->state[0] ^= 1;
    kept = *s;
    refused("checkpoint: state not sound", checkpoint_of(s, n, m, c, t), MANTELORRIS_NOT_SOUND);
    s->state[0] ^= 1;
    kept = *s;
    expect("checkpoint refused: its slice", (uint64_t)memcmp(spare_checkpoint, before, c), 0);
    expect("checkpoint refused: the tail", (uint64_t)memcmp(spare_tail, before, t), 0);
}

/* checkpoint and tail of server 0, and a tail of server 1 */
static void not_recovered(size_t length) {
    static uint8_t bad[MANTELORRIS_CHECKPOINT_LONGEST];
    struct server *s = &spare;
    uint8_t other[MANTELORRIS_LOG_HEAD];
    size_t n = sizeof s->state;
    memcpy(other, spare_tail, sizeof other);
    other[4] = 1;
    memcpy(bad, spare_checkpoint, length);
    bad[0] ^= 1;
    refused("recover_checkpoint: state", mantelorris_recover_checkpoint(s->state, n - 1, spare_checkpoint, length, spare_tail, 8), MANTELORRIS_TOO_SHORT);
    refused("recover_checkpoint: no checkpoint", mantelorris_recover_checkpoint(s->state, n, NULL, 0, spare_tail, 8), MANTELORRIS_BAD_LOG);
    refused("recover_checkpoint: cut", mantelorris_recover_checkpoint(s->state, n, spare_checkpoint, length - 1, spare_tail, 8), MANTELORRIS_BAD_LOG);
    refused("recover_checkpoint: head", mantelorris_recover_checkpoint(s->state, n, bad, length, spare_tail, 8), MANTELORRIS_BAD_LOG);
    refused("recover_checkpoint: no tail", mantelorris_recover_checkpoint(s->state, n, spare_checkpoint, length, NULL, 0), MANTELORRIS_BAD_LOG);
    refused("recover_checkpoint: tail's head cut", mantelorris_recover_checkpoint(s->state, n, spare_checkpoint, length, spare_tail, 7), MANTELORRIS_BAD_LOG);
    refused("recover_checkpoint: another server", mantelorris_recover_checkpoint(s->state, n, spare_checkpoint, length, other, 8), MANTELORRIS_BAD_LOG);
}

static void no_place(const char *what, struct mantelorris_place at, uint32_t want) {
    refused(what, at.number, want);
    expect(what, at.source | at.start | at.end, 0);
    expect(what, mantelorris_shown(at, spare_checkpoint, spare.log) == NULL, 1);
}

static void not_inspected(size_t length) {
    struct server *s = &spare;
    size_t n = sizeof s->state, m = LOG_SPACE, l = log_length(s);
    no_place("inspect: state", mantelorris_inspect(s->state, n - 1, spare_checkpoint, length, s->log, m, 1, 1), MANTELORRIS_TOO_SHORT);
    no_place("inspect: tail", mantelorris_inspect(s->state, n, spare_checkpoint, length, s->log, l - 1, 1, 1), MANTELORRIS_NOT_SOUND);
    no_place("inspect: no tail", mantelorris_inspect(s->state, n, spare_checkpoint, length, NULL, 0, 1, 1), MANTELORRIS_NOT_SOUND);
    no_place("inspect: checkpoint", mantelorris_inspect(s->state, n, spare_checkpoint, length - 1, s->log, m, 1, 1), MANTELORRIS_BAD_LOG);
    no_place("inspect: unknown", mantelorris_inspect(s->state, n, spare_checkpoint, length, s->log, m, 1, 1), MANTELORRIS_UNKNOWN);
    no_place("inspect: unknown, before the first checkpoint", mantelorris_inspect(s->state, n, NULL, 0, s->log, m, 1, 1), MANTELORRIS_UNKNOWN);
    s->log[4] = 1;
    kept = *s;
    no_place("inspect: another server", mantelorris_inspect(s->state, n, spare_checkpoint, length, s->log, m, 1, 1), MANTELORRIS_BAD_LOG);
    s->log[0] ^= 1;
    kept = *s;
    no_place("inspect: a tail that is none", mantelorris_inspect(s->state, n, NULL, 0, s->log, m, 1, 1), MANTELORRIS_BAD_LOG);
}

/* of the spare server, whose give is not synced */
static void checkpoint_refusals(void) {
    struct server *s = &spare;
    size_t n = sizeof s->state, m = LOG_SPACE;
    no_checkpoint();
    save(s);
    uint64_t a = checkpoint_of(s, n, m, sizeof spare_checkpoint, sizeof spare_tail);
    expect("checkpoint: no clients, no records", a, (uint64_t)2092 << 32);
    expect("checkpoint: bytes behind it are kept", spare_checkpoint[2092] == 0xA5 && spare_checkpoint[sizeof spare_checkpoint - 1] == 0xA5, 1);
    expect("checkpoint: the tail begins like the log", (uint64_t)memcmp(s->log, spare_tail, sizeof spare_tail), 0);
    kept = *s;
    not_recovered(mantelorris_written(a));
    expect("recover_checkpoint", mantelorris_recover_checkpoint(s->state, n, spare_checkpoint, sizeof spare_checkpoint, spare_tail, 8), 0);
    expect("recover_checkpoint: the point is given", mantelorris_status(s->state, POINT), MANTELORRIS_GIVEN);
    expect("give", mantelorris_give(s->state, n, s->log, m, 7, 1), 0);
    kept = *s;
    not_inspected(mantelorris_written(a));
}

static void refusals(void) {
    struct server *s = &spare;
    size_t n = sizeof s->state, m = LOG_SPACE;
    static uint8_t out[MANTELORRIS_IMAGE_SIZE];
    const uint8_t receipt[8] = {4, POINT, 1, 0, 1, 0, 0, 0};
    memset(s->state, 0xC3, n);
    memset(s->log, 0xC3, m);
    kept = *s;
    not_founded();
    found(s, 0); /* in a world of its own, where no other server has number 0 */
    kept = *s;
    refused("request: no packet", mantelorris_request(s->state, n, s->log, m, NULL, 0, out, 20), MANTELORRIS_MALFORMED);
    refused("request: output", mantelorris_request(s->state, n, s->log, m, desks[0].old, 24, out, 19), MANTELORRIS_TOO_SHORT);
    refused("request: log", mantelorris_request(s->state, n, s->log, 7, desks[0].old, 24, out, 20), MANTELORRIS_NOT_SOUND);
    refused("request: log full", mantelorris_request(s->state, n, s->log, 8 + 31, desks[0].old, 24, out, 20),
            (uint64_t)12 << 32 | MANTELORRIS_LOG_FULL);
    refused("fetch: none held", mantelorris_fetch(s->state, n, s->log, m, 1, 1, out, 20), MANTELORRIS_UNKNOWN);
    refused("sync: under the mark", mantelorris_sync(s->state, n, s->log, m, 7), MANTELORRIS_BAD_MARK);
    refused("sync: over the length", mantelorris_sync(s->state, n, s->log, m, 9), MANTELORRIS_BAD_MARK);
    refused("notice: a request", mantelorris_notice(s->state, n, s->log, m, desks[0].old, 24), MANTELORRIS_MALFORMED);
    refused("give: point", mantelorris_give(s->state, n, s->log, m, 64, 1), MANTELORRIS_MALFORMED);
    refused("give: destination", mantelorris_give(s->state, n, s->log, m, POINT, 16), MANTELORRIS_MALFORMED);
    refused("give: to itself", mantelorris_give(s->state, n, s->log, m, POINT, 0), MANTELORRIS_BAD_DESTINATION);
    refused("image: output", mantelorris_image(s->state, n, s->log, m, POINT, out, sizeof out - 1), MANTELORRIS_TOO_SHORT);
    refused("image: not given", mantelorris_image(s->state, n, s->log, m, POINT, out, sizeof out), MANTELORRIS_NOT_HELD);
    refused("take: no image", mantelorris_take(s->state, n, s->log, m, receipt, sizeof receipt), MANTELORRIS_MALFORMED);
    refused("receipt: never taken", mantelorris_receipt(s->state, n, s->log, m, POINT, out, 8), MANTELORRIS_NOT_HELD);
    refused("release: not given", mantelorris_release(s->state, n, s->log, m, receipt, sizeof receipt), MANTELORRIS_NOT_HELD);
    expect("give", mantelorris_give(s->state, n, s->log, m, POINT, 1), 0);
    expect("give: its record", log_length(s), MANTELORRIS_LOG_HEAD + MANTELORRIS_LOG_GIVE);
    kept = *s;
    refused("image: not synced", mantelorris_image(s->state, n, s->log, m, POINT, out, sizeof out), MANTELORRIS_NOT_SYNCED);
    s->state[0] ^= 1; /* no call leaves such a state */
    kept = *s;
    refused("state not sound", mantelorris_sync(s->state, n, s->log, m, 8), MANTELORRIS_NOT_SOUND);
    refused("inspect: state not sound", mantelorris_inspect(s->state, n, NULL, 0, s->log, m, 1, 1).number, MANTELORRIS_NOT_SOUND);
    s->state[0] ^= 1;
    kept = *s;
    checkpoint_refusals();
}

int main(void) {
    expect("version", mantelorris_version(), MANTELORRIS_VERSION);
    make_plan();
    found(&servers[0], 0);
    found(&servers[1], 1);
    manager = mantelorris_leases();
    started(&desks[0]);
    started(&desks[1]);
    first_command();
    steps_and_move();
    lease_end();
    last_read();
    take_over();
    expect("checkpoints stored, and others lost with the power", stored > 10 && not_stored > 10, 1);
    twin_servers();
    inspections();
    refusals();
    printf("%d passed, %d failed\n", passed, failed);
    return failed != 0;
}
