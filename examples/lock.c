/* A lock: the controller that drives its gates, the crew's desk that works paddles and level gauges, and the cabinet, in one program over a line that loses
 * packets. It fills the chamber, opens and closes the upper gate, empties it, opens and closes the lower gate. Once the crew enters a level by hand, and no gate opens until it is
 * reported. On the way the controller is lost while it opens a gate, its successor too, and the next one before the cabinet has heard of it; what they have sent comes in the worst moment.
 *
 *     lock [CYCLES [SEED [unfenced]]]   prints what happens; ends with 0 if no two gates were ever open together
 *
 * unfenced: successors start without the fence, as they must not. A lost controller's command then opens a second gate, and the program ends with 1.
 *
 * Copy it: put your line in `carry` and `tell`, your card in `save`, your gauges and paddles in `crew`. The cabinet's host is that of host.c, the lease manager that of leases.c. */
#include "mantelorris.h"
#include "mantelorris_client.h"
#include "mantelorris_chamber.h"
#include "plan.h"
#include <stdio.h>
#include <stdlib.h>

enum { UPPER = 10, LOWER = 11, LEVEL1 = 20, LEVEL2 = 21, LEVEL3 = 22, UPPER_PADDLE = 30, LOWER_PADDLE = 31 };
enum { OPEN = 100, LEASE = 600, MARGIN = 200, LOSS = 30 };

static void fail(const char *what) {
    printf("lock: %s\n", what);
    exit(1);
}

static void must(uint32_t number) {
    if (number) fail(mantelorris_refusal_name(number));
}

/* ---- the cabinet */

static uint8_t state[MANTELORRIS_STATE_SIZE], space[1 << 20], plan[MANTELORRIS_PLAN_SIZE];
static unsigned long checks;

/* yours: write the log from mark to length to the card, and wait until the card has it (card.h) */
static void save(void) {
    must(mantelorris_number(mantelorris_sync(state, sizeof state, space, sizeof space, mantelorris_length(state))));
    /* what is synced moves the gates */
    checks++;
    if (mantelorris_value(state, UPPER) != 0 && mantelorris_value(state, LOWER) != 0) fail("both gates are open");
}

/* a request arrives: the reply's length in out, 0 if there is none */
static size_t cabinet(const uint8_t *packet, size_t length, uint8_t out[MANTELORRIS_REPLY_SIZE]) {
    uint64_t a = mantelorris_request(state, sizeof state, space, sizeof space, packet, length, out, MANTELORRIS_REPLY_SIZE);
    if (mantelorris_number(a) == MANTELORRIS_NOT_SOUND) fail("the state is not sound: recover from the card (host.c)");
    if (mantelorris_number(a) || mantelorris_written(a)) return mantelorris_written(a);
    save();
    a = mantelorris_fetch(state, sizeof state, space, sizeof space, mantelorris_packet_client(packet), mantelorris_packet_call(packet), out, MANTELORRIS_REPLY_SIZE);
    return mantelorris_written(a);
}

/* ---- the line: a packet there and its reply back, each of which may be lost; yours is a radio. Each takes a second by the lease manager's clock */

static uint32_t seed = 1, now;
static unsigned long carried, lost;

static int arrives(void) {
    seed ^= seed << 13;
    seed ^= seed >> 17;
    seed ^= seed << 5;
    carried++;
    now++;
    if (seed % 100 >= LOSS) return 1;
    lost++;
    return 0;
}

static size_t carry(const uint8_t *packet, size_t length, uint8_t out[MANTELORRIS_REPLY_SIZE]) {
    if (!arrives()) return 0;
    size_t n = cabinet(packet, length, out);
    return n && arrives() ? n : 0;
}

/* ---- leases */

static struct mantelorris_lease_manager manager;

static struct mantelorris_lease_reply granted(uint32_t span) {
    struct mantelorris_lease_reply g = mantelorris_open(&manager, now, span);
    must(g.number);
    return g;
}

/* a later end, in good time; without a grant the lease is over for good */
static struct mantelorris_lease_reply renewed(uint32_t client) {
    struct mantelorris_lease_reply g = mantelorris_renew(&manager, client, now, LEASE);
    if (g.number) fail("the lease has ended: whoever goes on is a successor");
    return g;
}

/* A refusal says nothing of what became of the command, so it is sent again. Some do not pass by themselves. */
static void refused(uint32_t number) {
    switch (number) {
    case MANTELORRIS_NOT_HELD: fail("the point is at another cabinet: send the same call there (pair_desk.c)"); break;
    case MANTELORRIS_OTHER_COMMAND: fail("another command has this number: two desks are one client"); break;
    case MANTELORRIS_CLIENTS_FULL: fail("the cabinet knows 32 clients: hand it the notices of those that have left (pair.c)"); break;
    case MANTELORRIS_LOG_FULL: fail("the log is full: make a checkpoint (host.c)"); break;
    default: break; /* 4: the next packet has a later lease end; 5, 7: late, or not synced yet */
    }
}

/* whether the command is completed */
static int completes(const struct mantelorris_receive_reply *r) {
    if (r->number) return 0;
    if (r->kind == MANTELORRIS_KIND_REFUSAL) refused(r->refusal);
    if (r->kind != MANTELORRIS_KIND_RESULT) return 0;
    if (r->outcome != MANTELORRIS_OUTCOME_DONE) fail("carried out with another outcome: the value is out of the point's range");
    return 1;
}

/* ---- the crew's desk: a plain client, one command at a time */

static int32_t level[3] = {300, 0, 0}; /* of upper pound, chamber, lower pound, in centimetres */

static void complete(struct mantelorris_client *desk, uint32_t op, uint32_t point, int32_t argument) {
    struct mantelorris_send_reply s = mantelorris_issue(desk, op, point, argument);
    must(s.number);
    for (;;) {
        uint8_t out[MANTELORRIS_REPLY_SIZE];
        size_t n = carry(s.packet, s.length, out);
        struct mantelorris_receive_reply r = mantelorris_receive(desk, out, n);
        if (completes(&r)) return;
        s = mantelorris_resend(desk, s.call);
    }
}

static struct mantelorris_client new_desk(uint32_t span) {
    struct mantelorris_lease_reply g = granted(span);
    struct mantelorris_start_reply s = mantelorris_start(g.packet, g.length);
    must(s.number);
    return s.client;
}

/* it renews its lease: a new one each time would take a place at the cabinet, until its notice comes */
static void crew(uint32_t op, uint32_t point, int32_t argument) {
    static struct mantelorris_client desk;
    if (desk.client == 0) desk = new_desk(LEASE);
    if (desk.lease <= now + MARGIN) {
        struct mantelorris_lease_reply g = renewed(desk.client);
        must(mantelorris_receive(&desk, g.packet, g.length).number);
    }
    complete(&desk, op, point, argument);
}

/* the crew goes on, until the clock has come to a lease's end */
static void wait_for(uint32_t end) {
    while (now < end) {
        now += MARGIN / 2;
        crew(MANTELORRIS_REPORT, LEVEL2, level[1]);
    }
}

/* water runs through an open paddle until the chamber has the pound's level */
static void level_out(uint32_t paddle, int pound) {
    crew(MANTELORRIS_SET, paddle, OPEN);
    while (level[1] != level[pound]) {
        int32_t step = level[pound] - level[1];
        level[1] += step > 40 ? 40 : step < -40 ? -40 : step;
        crew(MANTELORRIS_REPORT, LEVEL2, level[1]);
    }
    crew(MANTELORRIS_SET, paddle, 0);
}

/* ---- the controller */

static struct mantelorris_chamber lock;
static struct mantelorris_send_reply under_way; /* the command that is open, as its latest packet */

static void start_controller(void) {
    struct mantelorris_lease_reply g = granted(LEASE);
    struct mantelorris_chamber_start_reply s = mantelorris_chamber_start(g.packet, g.length, UPPER, LOWER, LEVEL1, LEVEL2, LEVEL3);
    must(s.number);
    lock = s.chamber;
    printf("controller %u starts\n", (unsigned)lock.client.client);
}

static void renew(void) {
    if (lock.client.lease > now + MARGIN) return;
    struct mantelorris_lease_reply g = renewed(lock.client.client);
    must(mantelorris_lock_receive(&lock, g.packet, g.length).number);
}

/* issues a command: 0, or the refusal's number */
static uint32_t begin(uint32_t op, uint32_t point, int32_t argument) {
    struct mantelorris_send_reply s = mantelorris_lock_issue(&lock, op, point, argument);
    if (s.number == 0) under_way = s;
    return s.number;
}

/* sends the command until its result comes */
static int32_t finish(void) {
    for (;;) {
        uint8_t out[MANTELORRIS_REPLY_SIZE];
        size_t n = carry(under_way.packet, under_way.length, out);
        struct mantelorris_receive_reply r = mantelorris_lock_receive(&lock, out, n);
        if (completes(&r)) return r.value;
        renew();
        under_way = mantelorris_lock_resend(&lock, under_way.call);
    }
}

static int32_t command(uint32_t op, uint32_t point, int32_t argument) {
    renew();
    must(begin(op, point, argument));
    return finish();
}

/* the other gate first, then both levels beside the gate: in this order, after the last set or part */
static void look(uint32_t gate) {
    int32_t other = command(MANTELORRIS_READ, gate == UPPER ? LOWER : UPPER, 0);
    int32_t above = command(MANTELORRIS_READ, gate == UPPER ? LEVEL1 : LEVEL2, 0);
    int32_t below = command(MANTELORRIS_READ, gate == UPPER ? LEVEL2 : LEVEL3, 0);
    printf("  other gate %d, levels %d and %d\n", (int)other, (int)above, (int)below);
}

static const char *name(uint32_t gate) {
    return gate == UPPER ? "upper" : "lower";
}

/* yours: only once the other gate's limit switch says that it is closed */
static void open_gate(uint32_t gate) {
    look(gate);
    printf("  %s gate opened to %d\n", name(gate), (int)command(MANTELORRIS_SET, gate, OPEN));
}

static void close_gate(uint32_t gate) {
    printf("  %s gate closed: %d\n", name(gate), (int)command(MANTELORRIS_SET, gate, 0));
}

static void open_refused(uint32_t gate, const char *when) {
    uint32_t number = begin(MANTELORRIS_SET, gate, OPEN);
    printf("  open the %s gate %s: %s\n", name(gate), when, mantelorris_refusal_name(number));
    if (number != MANTELORRIS_NOT_SAFE) fail("an opening that is not safe was issued");
}

/* somebody enters the level above by hand, as it is: a value that was set is no measurement, so the gate stays shut until the gauge's own is reported */
static void level_by_hand(void) {
    crew(MANTELORRIS_SET, LEVEL1, level[0]);
    look(UPPER);
    open_refused(UPPER, "by a level that was entered");
    crew(MANTELORRIS_REPORT, LEVEL1, level[0]);
}

/* ---- a lost controller */

static struct mantelorris_lease_reply notice_of(uint32_t client) {
    struct mantelorris_lease_reply n = mantelorris_query(&manager, client, now);
    if (n.number || n.kind != MANTELORRIS_KIND_NOTICE) fail("the lease has not ended");
    return n;
}

/* yours: send it until the cabinet says that its card has it, and which time it has heard (SAVED in line.h). 17: the client is not known there */
static uint32_t tell(struct mantelorris_lease_reply n) {
    while (!arrives()) continue;
    uint32_t number = mantelorris_number(mantelorris_notice(state, sizeof state, space, sizeof space, n.packet, n.length));
    if (number != MANTELORRIS_UNKNOWN) must(number);
    save();
    return number;
}

/* From here on nothing of the old controller is carried out on the gates: the cabinet that holds them has on its card a heard time that has come to that of the old
 * controller's notice. Its lease must have ended. With two cabinets: for each gate, at the one that holds it. */
static void fence(uint32_t old) {
    struct mantelorris_lease_reply n = notice_of(old);
    uint32_t time = mantelorris_number_at(n.packet, 8);
    if (tell(n) == MANTELORRIS_UNKNOWN && mantelorris_heard(state) < time) {
        /* it was lost before the cabinet had heard of it, and its first packet may be on the way: the notice of another client, later than this one, does the same */
        struct mantelorris_client other = new_desk(1);
        complete(&other, MANTELORRIS_READ, LEVEL1, 0);
        wait_for(other.lease);
        printf("  the cabinet does not know controller %u: another client's notice\n", (unsigned)old);
        tell(notice_of(other.client));
    }
    if (mantelorris_heard(state) < time) fail("not fenced off");
    if (mantelorris_status(state, UPPER) != MANTELORRIS_HELD || mantelorris_status(state, LOWER) != MANTELORRIS_HELD) fail("a gate is being moved: wait for its take");
}

/* what the lost controllers had under way: whether it was carried out, nobody knows, and a copy is on the line for good */
static struct mantelorris_send_reply late[4];
static size_t lates;

static void hand_over(int fenced) {
    uint32_t old = lock.client.client;
    printf("  controller %u is lost with a command under way\n", (unsigned)old);
    late[lates++] = under_way;
    wait_for(lock.client.lease);
    if (fenced) fence(old);
    start_controller();
}

/* the controller is lost while it opens the gate, its successor too, and the next one before its first packet has arrived */
static void lose_three(int fenced) {
    uint8_t out[MANTELORRIS_REPLY_SIZE];
    for (int i = 0; i < 2; i++) {
        look(UPPER);
        must(begin(MANTELORRIS_SET, UPPER, OPEN));
        if (i == 1) carry(under_way.packet, under_way.length, out); /* this one may arrive, and nobody hears of it */
        hand_over(fenced);
        if (i == 0) close_gate(UPPER), close_gate(LOWER);
    }
    must(begin(MANTELORRIS_SET, UPPER, 0));
    hand_over(fenced);
}

/* it all turns up at last, in the worst moment: the lower gate is open */
static void late_arrivals(int fenced) {
    for (size_t i = 0; i < lates; i++) {
        uint8_t out[MANTELORRIS_REPLY_SIZE];
        uint64_t a = mantelorris_request(state, sizeof state, space, sizeof space, late[i].packet, late[i].length, out, sizeof out);
        int carried_out = mantelorris_number(a) == 0 && mantelorris_written(a) == 0;
        printf("  a lost controller's command arrives late: %s\n", carried_out ? "carried out" : mantelorris_refusal_name(mantelorris_number(a)));
        save();
        if (fenced && mantelorris_number(a) != MANTELORRIS_LEASE_ENDED) fail("a lost controller is not fenced off");
    }
    lates = 0;
}

/* ---- cycles */

static void cycle(int number, int fenced) {
    printf("cycle %d: fill\n", number);
    close_gate(UPPER);
    close_gate(LOWER);
    level_out(UPPER_PADDLE, 0);
    if (number == 1) {
        lose_three(fenced);
        close_gate(LOWER);
    } else {
        if (number == 2) level_by_hand();
        open_gate(UPPER);
        look(LOWER);
        open_refused(LOWER, "now");
    }
    close_gate(UPPER);
    look(LOWER);
    open_refused(LOWER, "at these levels");
    printf("cycle %d: empty\n", number);
    level_out(LOWER_PADDLE, 2);
    open_gate(LOWER);
    late_arrivals(fenced);
    close_gate(LOWER);
}

int main(int argc, char **argv) {
    int cycles = argc > 1 ? atoi(argv[1]) : 2, fenced = argc < 4;
    seed = argc > 2 ? (uint32_t)strtoul(argv[2], NULL, 10) * 2654435761u | 1 : 1;
    if (argc > 4 || cycles < 1 || (argc == 4 && strcmp(argv[3], "unfenced"))) {
        fprintf(stderr, "usage: lock [CYCLES [SEED [unfenced]]]\n");
        return 2;
    }
    if (mantelorris_version() != MANTELORRIS_VERSION) {
        fprintf(stderr, "lock: the library is of another version than its headers\n");
        return 2;
    }
    make_plan(plan);
    must(mantelorris_number(mantelorris_found(state, sizeof state, space, sizeof space, plan, sizeof plan, 0)));
    manager = mantelorris_leases();
    for (uint32_t i = 0; i < 3; i++) crew(MANTELORRIS_REPORT, LEVEL1 + i, level[i]);
    start_controller();
    open_refused(UPPER, "unseen");
    for (int i = 1; i <= cycles; i++) cycle(i, fenced);
    printf("lock: %d cycles, %lu packets, %lu of them lost, %u s; looked at both gates %lu times, never both open\n", cycles, carried, lost, now, checks);
    return 0;
}
