/* Desks of a plant with two cabinets and a lease manager, over the line of line.h: one after the other opens a lease, reads the gate, steps it by 1, has up to four commands
 * open, renews its lease, and leaves; now and then it has the gate's point moved to the other cabinet. Whatever the line loses or repeats and whoever is killed, each step is
 * carried out once.
 *
 *     pair_desk LEASES CABINET0 CABINET1 [STEPS [MOVE_EVERY [LOST..]]]      the ports; ends with 0 when so many steps have completed and no result came twice. LOST: the clients
 *                                                                           of a pair_desk that was killed, whose gate this one takes over
 *
 * Prints a line for each name that it asks by, each client, step and result, and when a client has left with nothing open, or was lost and the fence stands.
 *   1. A desk draws a name at random and asks for a lease by it until the answer with this name comes. The first answer starts its client; what comes after it, a repeat or a renewal,
 *      is only received: a client that is started twice would give one number to two commands.
 *   2. A command goes to the cabinet that had the point last; where that refuses it with 3, the same call goes to the other one. Never a new call.
 *   3. It asks for a later end by its own clock, counted from when it asked last: the lease cannot end before that time and a span.
 *   4. Where the lease has ended all the same, nobody may take its open commands as not carried out: they are counted as unknown, and a new desk begins and reads the gate.
 *   5. Before that, the fence: the cabinet that holds the gate has a notice of each lost desk on its card, or a later one. From then on no command of a lost desk is carried out on the gate,
 *      so what the new desk reads is the last that they did. It counts on that: each of its own steps adds 1 to what it has read. */
#define _GNU_SOURCE
#include "line.h"
#include "mantelorris_client.h"
#include <sys/random.h>

enum { GATE = 5, OPEN = 4, EACH = 12, MOST = 100000, AGAIN_MS = 15, PATIENCE_MS = 60000, SHORT = 1, LOST = 64 };

static int line;
static address leases, cabinet[CABINETS];
static struct mantelorris_client client;
static uint64_t name;
static uint32_t span;                 /* seconds of its lease */
static int started, over;             /* the first grant has come; the lease has ended */
static long asked, granted;           /* when the desk asked for its lease: at last, and before the grant that it has */
static uint32_t at;                   /* the cabinet that commands go to */
static int placed;                    /* a cabinet has said that it holds the gate */
static uint32_t holder, move;         /* that cabinet, and the point's move there */
static uint32_t ordered, every;       /* the move that is under way, 0: none; a move after so many steps */
static int stepping;                  /* the results that come are those of steps */
static uint8_t quality;               /* of the last result */
static int32_t value;
static int32_t most;                  /* what the gate has when all steps of this desk are carried out, and nothing else */
static uint32_t lost[LOST];           /* clients whose commands may still be on the way */
static size_t losts;
static uint8_t seen[MOST + 1];        /* results of steps, by value */
static unsigned long steps, again, completed, unknown, moves, desks, refused[32];
static long last_news;

static void fail(const char *what) {
    fprintf(stderr, "pair_desk: %s\n", what);
    exit(1);
}

/* ---- the lease */

static void ask(uint8_t kind) {
    uint8_t message[ASK_SIZE] = {kind};
    put64(message + 4, name);
    put32(message + 12, span);
    line_send(line, &leases, message, sizeof message);
    asked = milliseconds();
}

static void take_lease(const uint8_t *message) {
    if (mantelorris_word_at(message, 4) != name) return; /* for a desk that has left */
    if (message[1]) {
        over = message[1] == MANTELORRIS_UNKNOWN; /* 18, leases full: ask again */
        return;
    }
    if (started) {
        mantelorris_receive(&client, message + 12, 12);
    } else {
        struct mantelorris_start_reply s = mantelorris_start(message + 12, 12);
        if (s.number) return;
        client = s.client;
        started = 1;
        printf("%s %u\n", span == SPAN ? "client" : "messenger", client.client);
    }
    granted = asked;
    last_news = milliseconds();
}

/* ---- what arrives */

static void take_result(const struct mantelorris_receive_reply *r) {
    last_news = milliseconds();
    quality = r->quality;
    value = r->value;
    if (r->outcome != MANTELORRIS_OUTCOME_DONE) fail("a command was carried out with another outcome");
    if (!stepping) return;
    printf("result %d\n", r->value);
    if (r->value < 1 || r->value > MOST || seen[r->value]) fail("a result that another command had: a step was carried out twice, or not at all");
    if (r->value > most) fail("a result above this desk's own steps: a lost desk's command was carried out behind the fence");
    seen[r->value] = 1;
    completed++;
}

/* A refusal does not end a call. 3: on to the next cabinet, unless that was done: several commands are refused together, and one refusal may come twice. The rest is waited for. */
static void take_refusal(uint32_t number, const address *from) {
    refused[number % 32]++;
    if (number == MANTELORRIS_NOT_HELD && from->sin_port == cabinet[at].sin_port) at = (at + 1) % CABINETS;
    if (number == MANTELORRIS_OTHER_COMMAND) fail("another command has this number: two desks are one client");
}

/* where a cabinet holds the point, with the highest move seen, it is */
static void take_place(const uint8_t *message) {
    if (message[2] != MANTELORRIS_HELD || mantelorris_number_at(message, 4) < move) return;
    placed = 1;
    at = holder = message[3] % CABINETS;
    move = mantelorris_number_at(message, 4);
    if (ordered == 0 || move < ordered) return;
    ordered = 0;
    moves++;
    last_news = milliseconds();
}

/* ---- the fence: notices of lost desks, and what the cabinet that holds the gate says of them */

static uint32_t asked_for;            /* the client whose notice is wanted; 0: none */
static uint8_t notice[12];            /* it, once the lease has ended; before that its first byte is 0 */
static int answered;                  /* the cabinet that holds the gate has answered it */
static uint32_t heard;                /* the heard time that it has on its card */

static void take_notice(const uint8_t *packet) {
    if (mantelorris_packet_client(packet) != asked_for || notice[0]) return;
    memcpy(notice, packet, sizeof notice);
    last_news = milliseconds();
}

static void take_saved(const uint8_t *message) {
    int holds = mantelorris_word_at(message, 12) >> GATE & 1;
    if (!holds || mantelorris_number_at(message, 4) != asked_for) return;
    answered = 1;
    heard = mantelorris_number_at(message, 8);
    last_news = milliseconds();
}

static void listen_for(int timeout) {
    uint8_t message[LINE_LONGEST];
    address from;
    size_t n;
    line_wait(line, timeout);
    while ((n = line_receive(line, message, &from))) {
        if (message[0] == LINE_LEASE && n == LEASE_SIZE) take_lease(message);
        if (message[0] == LINE_PLACE && n == MOVE_SIZE && message[1] == GATE) take_place(message);
        if (message[0] == MANTELORRIS_KIND_NOTICE && n == sizeof notice) take_notice(message);
        if (message[0] == LINE_SAVED && n == SAVED_SIZE) take_saved(message);
        if (!started || message[0] >= LINE_OPEN) continue;
        struct mantelorris_receive_reply r = mantelorris_receive(&client, message, n);
        if (r.number == 0 && r.kind == MANTELORRIS_KIND_RESULT) take_result(&r);
        if (r.number == 0 && r.kind == MANTELORRIS_KIND_REFUSAL) take_refusal(r.refusal, &from);
    }
    if (milliseconds() - last_news > PATIENCE_MS) fail("nothing has come for a minute");
}

/* ---- what is sent, and again until its answer has come */

/* to the other cabinet than the one that has it: the same order, as often as it is sent */
static void order(uint32_t number) {
    uint8_t message[MOVE_SIZE] = {LINE_MOVE, GATE, (uint8_t)((holder + 1) % CABINETS)};
    put32(message + 4, number);
    for (int i = 0; i < CABINETS; i++) line_send(line, &cabinet[i], message, sizeof message);
}

static void repeat(void) {
    static long last;
    if (milliseconds() - last < AGAIN_MS) return;
    last = milliseconds();
    for (int i = 0; i < 16; i++) {
        if (!client.calls[i].call) continue;
        struct mantelorris_send_reply r = mantelorris_resend(&client, client.calls[i].call);
        if (r.number == 0) line_send(line, &cabinet[at], r.packet, r.length);
        again++;
    }
    if (ordered) order(ordered);
    if (last - granted > (long)span * 1000 / 3 && last - asked > 10 * AGAIN_MS) ask(LINE_RENEW);
}

/* the notice of a client comes once its lease has ended; both cabinets get it until the one that holds the gate has answered. The notice's time. That cabinet's own, heard, is under it
 * where it does not know the client, or no longer: then it has had another notice of it, or none */
static uint32_t hand_over(uint32_t ended) {
    uint8_t query[QUERY_SIZE] = {LINE_QUERY};
    put32(query + 4, ended);
    asked_for = ended;
    notice[0] = 0;
    for (answered = 0; !answered; listen_for(4 * AGAIN_MS)) {
        if (notice[0] == 0) line_send(line, &leases, query, sizeof query);
        for (int i = 0; i < CABINETS && notice[0]; i++) line_send(line, &cabinet[i], notice, sizeof notice);
    }
    asked_for = 0;
    return mantelorris_packet_time(notice);
}

static int open_calls(void) {
    int n = 0;
    for (int i = 0; i < 16; i++) n += client.calls[i].call != 0;
    return n;
}

/* waits until at most so many calls are open; 0: the lease has ended before */
static int settled(int most) {
    while (open_calls() > most && !over) {
        repeat();
        listen_for(AGAIN_MS);
    }
    return !over;
}

static int issue(uint32_t op, int32_t argument, int most) {
    struct mantelorris_send_reply r = mantelorris_issue(&client, op, GATE, argument);
    if (r.number) fail(mantelorris_refusal_name(r.number));
    line_send(line, &cabinet[at], r.packet, r.length);
    return settled(most);
}

/* ---- a desk: from its name to its leaving */

static void start(uint32_t seconds) {
    client = (struct mantelorris_client){0};
    started = over = stepping = 0;
    span = seconds;
    if (getrandom(&name, sizeof name, 0) != sizeof name) fail("no random number");
    printf("name %016llx\n", (unsigned long long)name);
    desks++;
    while (!started) {
        ask(LINE_OPEN);
        listen_for(10 * AGAIN_MS);
    }
}

/* A cabinet that answers a notice with an earlier time of its own is brought to a later one by a messenger: a desk of a short lease that reads the gate there and leaves, and whose notice
 * that cabinet then takes. The lease manager's time never falls, so it is not under the times before. */
static void fence(void) {
    uint32_t latest = 0;
    for (size_t i = 0; i < losts; i++) {
        uint32_t time = hand_over(lost[i]);
        if (latest < time) latest = time;
    }
    while (losts && heard < latest) {
        start(SHORT);
        uint32_t messenger = client.client;
        if (issue(MANTELORRIS_READ, 0, 0)) hand_over(messenger);
    }
    while (losts) printf("fence %u\n", lost[--losts]);
}

static int step(void) {
    printf("step\n");
    most++;
    if (every && ++steps % every == 0 && !ordered) order(ordered = move + 1);
    return issue(MANTELORRIS_STEP, 1, OPEN - 1);
}

/* up to so many steps. A desk begins behind the fence and by reading the gate: the one before may have left commands on the way */
static void work(unsigned long count) {
    fence();
    start(SPAN);
    int runs = issue(MANTELORRIS_READ, 0, 0);
    if (runs && quality == MANTELORRIS_INVALID) runs = issue(MANTELORRIS_SET, 0, 0);
    stepping = runs;
    most = value;
    for (unsigned long i = 0; i < count && runs; i++) runs = step();
    if (stepping && !settled(0)) unknown += (unsigned long)open_calls();
    if (over) lost[losts++] = client.client;
    else printf("left %u\n", client.client); /* nothing of it is open */
}

static void summary(void) {
    printf("pair_desk: %lu desks, %lu steps completed, each result once, %lu unknown, %lu packets repeated, the point moved %lu times; refusals:", desks, completed, unknown, again, moves);
    for (uint32_t n = 1; n < 32; n++)
        if (refused[n]) printf(" %lu %s", refused[n], mantelorris_refusal_name(n));
    printf("\n");
}

int main(int argc, char **argv) {
    if (argc < 4 || argc > 6 + LOST - 1) {
        fprintf(stderr, "usage: pair_desk LEASES CABINET0 CABINET1 [STEPS [MOVE_EVERY [LOST..]]]\n");
        return 2;
    }
    if (mantelorris_version() != MANTELORRIS_VERSION) {
        fprintf(stderr, "pair_desk: the library is of another version than its headers\n");
        return 2;
    }
    unsigned long total = argc > 4 ? strtoul(argv[4], NULL, 10) : 200;
    every = argc > 5 ? (uint32_t)atoi(argv[5]) : 10;
    for (int i = 6; i < argc; i++) lost[losts++] = (uint32_t)strtoul(argv[i], NULL, 10);
    setvbuf(stdout, NULL, _IOLBF, 0);
    line = line_open("0");
    leases = line_address(argv[1]);
    for (int i = 0; i < CABINETS; i++) cabinet[i] = line_address(argv[2 + i]);
    last_news = milliseconds();
    for (; !placed; listen_for(AGAIN_MS)) order(0); /* no point's next move is 0: nothing but the answer comes of it */
    while (completed < total) work(total - completed < EACH ? total - completed : EACH);
    for (; ordered; listen_for(AGAIN_MS)) repeat();
    summary();
    return 0;
}
