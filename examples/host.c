/* A host for one server: its card is a file (card.h, with card.c or card_raw.c), its line UDP. Copy it and put your card, your line, your plan and your gate in.
 *
 *     host --found CARD        founds the server on an empty card, and ends: once in its life, when the plant is commissioned
 *     host CARD PORT [LIMIT]   serves on 127.0.0.1:PORT until it is killed, at any moment, as often as you like
 *     host CARD                prints what the card has, and ends; the card is only read, and a host may be serving from it
 *
 * The order of work is what matters:
 *   1. a request is executed in memory: nothing is sent for it;
 *   2. the log's new bytes are written to the card, and the card has them for certain;
 *   3. the mark is set (sync), and only then results leave and the gate moves.
 * A start takes no card of another server or of another plan, and none on which no server was founded. After it the card has the log's whole records and nothing behind them, for certain,
 * before anything is appended: the rest of a torn record must not stay behind a new one.
 * When the log is longer than LIMIT, a checkpoint takes its place, so that the card never fills:
 *   4. it is made in memory: the card stays as it is, and nothing of this server is called until step 6;
 *   5. it is stored with its tail's head, both or neither, and the card has them for certain;
 *   6. the log begins anew with the tail's head.
 * If a step on the card fails, the host ends as if the power had failed, and its next start recovers from what the card has. If the kernel answers 19, the state in memory
 * is lost as after a power cut: the host starts anew from its card. */
#include "card.h"
#include <arpa/inet.h>
#include <poll.h>
#include <stdio.h>
#include <stdlib.h>
#include <string.h>
#include <sys/socket.h>

#ifndef SERVER
#define SERVER 0 /* yours: the number of this cabinet, from its own wiring or program, never from the card */
#endif

enum {
    WAITING = 256, /* packets in one turn at most */
    GATE = 5,
    LOG_SPACE = (1 << 22) - 2048, /* what card_raw.c has room for */
    LIMIT = 1 << 20,                                      /* a longer log becomes a checkpoint */
    MOST = LOG_SPACE - WAITING * MANTELORRIS_LOG_EXECUTED /* a greater limit leaves no room for a turn */
};

static uint8_t state[MANTELORRIS_STATE_SIZE], log_space[LOG_SPACE], plan[MANTELORRIS_PLAN_SIZE], checkpoint[MANTELORRIS_CHECKPOINT_SIZE];
static size_t limit = LIMIT;
static struct card card;
static int line = -1;

/* commands executed since the last sync, and who asked */
static struct waiting { uint32_t client, call; struct sockaddr_in from; } waiting[WAITING];
static size_t waits;

static int news;      /* a call was accepted since the last sync: length and mark are read only then */
static int sound = 1; /* no call has answered 19 since the start */

/* yours: every point from -1,000,000 to 1,000,000, fallback 0, at home at server 0 */
static void make_plan(void) {
    for (uint32_t p = 0; p < MANTELORRIS_POINTS; p++) mantelorris_plan_row(plan, p, -1000000, 1000000, 0, 0);
}

/* a call was refused that should not have been. 19: something has written into the state, nothing in it counts any more, and the host starts anew from its card.
 * Any other number here is a fault of this program */
static void refused(const char *call, uint32_t number) {
    fprintf(stderr, "%s: %s\n", call, mantelorris_refusal_name(number));
    if (number != MANTELORRIS_NOT_SOUND) exit(1);
    sound = 0;
}

/* ---- the gate: after a start and after each sync, from what the state holds, never from a command */

static void move_gate(int32_t value) {
    (void)value; /* yours: the actuator goes to this value */
}

/* where the point is not held here, another cabinet has the gate; where its value is invalid, it stays as it is: that rule is your plant's. A value by hand is an operator's aim: the
 * gate goes there */
static void drive_gate(void) {
    if (mantelorris_status(state, GATE) != MANTELORRIS_HELD || mantelorris_quality(state, GATE) == MANTELORRIS_INVALID) return;
    move_gate(mantelorris_value(state, GATE));
}

/* ---- start: from a log, or from a checkpoint and its tail */

static void stop(const char *what, uint32_t number, const char *how) {
    fprintf(stderr, "%s: %s: %s\n", what, mantelorris_refusal_name(number), how);
    exit(1);
}

static int never_founded(size_t kept) {
    return card.base == 0 && kept < MANTELORRIS_LOG_HEAD;
}

/* never mantelorris_recover on a tail: it looks like a whole log, and all that was before it would be forgotten */
static uint32_t recovered(size_t kept) {
    if (card.base) return mantelorris_number(mantelorris_recover_checkpoint(state, sizeof state, checkpoint, card.base, log_space, kept));
    return mantelorris_number(mantelorris_recover(state, sizeof state, log_space, kept, plan, sizeof plan));
}

/* says what is wrong with a card that recovery refused: the checkpoint by itself, the log's layout, or what its records say. The card stays as it was */
static void card_refused(uint32_t number, size_t kept) {
    const uint8_t head[MANTELORRIS_LOG_HEAD] = {0x57, 0x4C, 0x47, 0x31, checkpoint[4]};
    char how[128];
    size_t base = card.base;
    if (base && mantelorris_number(mantelorris_recover_checkpoint(state, sizeof state, checkpoint, base, head, sizeof head)))
        stop("checkpoint", number, "the card is damaged in its checkpoint");
    struct mantelorris_log_end_reply whole = mantelorris_log_end(log_space, kept);
    if (whole.number) stop(base ? "tail" : "log", whole.number, base ? "the card is damaged behind its checkpoint" : "the card is damaged, or it is no log");
    snprintf(how, sizeof how, "whole records up to byte %llu, and they are not a log of this %s", (unsigned long long)whole.end, base ? "checkpoint" : "plan");
    stop("recover", number, how);
}

static void recover(size_t kept) {
    uint32_t number = recovered(kept);
    if (number) card_refused(number, kept);
}

/* all servers have one plan, so recovery takes the card of any of them: only the number tells. A checkpoint has the plan of its founding, whatever this program's is */
static void own_card(void) {
    if (mantelorris_server(state) != SERVER) {
        fprintf(stderr, "card: of server %u, and this is server %d: put its own card in\n", mantelorris_server(state), SERVER);
        exit(1);
    }
    if (memcmp(mantelorris_plan(state), plan, sizeof plan)) {
        fprintf(stderr, "card: its plan is not this program's: put its own card in, or the program with its plan\n");
        exit(1);
    }
}

/* all of the log is synced; until the checkpoint is stored, nothing else of this server is called */
static void make_checkpoint(void) {
    uint8_t head[MANTELORRIS_LOG_HEAD];
    uint64_t a = mantelorris_checkpoint(state, sizeof state, log_space, sizeof log_space, checkpoint, sizeof checkpoint, head, sizeof head);
    if (mantelorris_number(a)) {
        refused("checkpoint", mantelorris_number(a));
        return;
    }
    card_store(&card, checkpoint, mantelorris_written(a), head, sizeof head);
    memcpy(log_space, head, sizeof head);
}

static void start(void) {
    size_t kept = card_read(&card, checkpoint, log_space, sizeof log_space);
    if (never_founded(kept)) {
        fprintf(stderr, "card: no server was founded on it; is it the right one? A new server is founded by: host --found CARD\n");
        exit(1);
    }
    recover(kept);
    own_card();
    card_store(&card, checkpoint, card.base, log_space, (size_t)mantelorris_length(state));
    waits = 0;
    news = 0;
    sound = 1;
    drive_gate();
    if (mantelorris_length(state) > limit) make_checkpoint();
}

/* on an empty card alone: a server that is founded a second time has forgotten what desks were told */
static void found(void) {
    if (!never_founded(card_read(&card, checkpoint, log_space, sizeof log_space))) {
        fprintf(stderr, "card: it is not empty, so no server is founded on it\n");
        exit(1);
    }
    uint32_t number = mantelorris_number(mantelorris_found(state, sizeof state, log_space, sizeof log_space, plan, sizeof plan, SERVER));
    if (number) stop("found", number, "a bad plan or number");
    card_store(&card, checkpoint, 0, log_space, MANTELORRIS_LOG_HEAD);
}

static void print_state(void) {
    printf("server %u, ", mantelorris_server(state));
    if (card.base) printf("checkpoint %zu bytes, ", card.base);
    printf("log %llu bytes, point %d: value %d, %s\n", (unsigned long long)mantelorris_length(state), GATE, mantelorris_value(state, GATE),
           mantelorris_quality_name(mantelorris_quality(state, GATE)));
}

/* what is on the card, whosever it is; nothing is written, cut or founded */
static void print_card(void) {
    size_t kept = card_read(&card, checkpoint, log_space, sizeof log_space);
    if (never_founded(kept)) {
        printf("%zu bytes: no server was founded on this card\n", kept);
        return;
    }
    recover(kept);
    print_state();
}

/* ---- requests */

static void send_to(const struct sockaddr_in *to, const uint8_t *bytes, size_t length) {
    sendto(line, bytes, length, 0, (const struct sockaddr *)to, sizeof *to); /* a lost packet is asked for again */
}

/* a result that its desk has said it has, or whose lease has ended since, is unknown: nobody waits for it */
static void send_result(const struct waiting *w) {
    uint8_t out[MANTELORRIS_REPLY_SIZE];
    uint64_t a = mantelorris_fetch(state, sizeof state, log_space, sizeof log_space, w->client, w->call, out, sizeof out);
    if (mantelorris_number(a) == MANTELORRIS_OK)
        send_to(&w->from, out, mantelorris_written(a));
    else if (mantelorris_number(a) != MANTELORRIS_UNKNOWN)
        refused("fetch", mantelorris_number(a));
}

static void save(void) {
    size_t mark = (size_t)mantelorris_mark(state), length = (size_t)mantelorris_length(state);
    card_append(&card, log_space, mark, length);
    uint32_t number = mantelorris_number(mantelorris_sync(state, sizeof state, log_space, sizeof log_space, length));
    if (number) {
        refused("sync", number);
        return;
    }
    news = 0;
    drive_gate();
    for (size_t i = 0; i < waits && sound; i++) send_result(&waiting[i]);
    waits = 0;
    if (sound && length > limit) make_checkpoint();
}

/* 1: no packet for this host; 9, 17: no space, or no such client here: the lease manager sends it again, or it is of no use */
static void take_notice(const uint8_t *packet, size_t length) {
    uint32_t number = mantelorris_number(mantelorris_notice(state, sizeof state, log_space, sizeof log_space, packet, length));
    if (number == MANTELORRIS_OK)
        news = 1;
    else if (number != MANTELORRIS_MALFORMED && number != MANTELORRIS_LOG_FULL && number != MANTELORRIS_UNKNOWN)
        refused("notice", number);
}

static void take_packet(const uint8_t *packet, size_t length, const struct sockaddr_in *from) {
    uint8_t out[MANTELORRIS_REPLY_SIZE];
    uint64_t a = mantelorris_request(state, sizeof state, log_space, sizeof log_space, packet, length, out, sizeof out);
    if (mantelorris_written(a)) {
        send_to(from, out, mantelorris_written(a)); /* a result that is synced, or a refusal */
    } else if (mantelorris_number(a) == MANTELORRIS_OK) {
        /* executed: its result leaves after the sync */
        waiting[waits++] = (struct waiting){mantelorris_packet_client(packet), mantelorris_packet_call(packet), *from};
        news = 1;
    } else if (mantelorris_number(a) == MANTELORRIS_MALFORMED) {
        take_notice(packet, length); /* no request: the other packet that this host takes */
    } else {
        refused("request", mantelorris_number(a));
    }
}

/* whatever has arrived is carried out, then one sync covers it all */
static void turn(void) {
    struct pollfd ready = {.fd = line, .events = POLLIN};
    poll(&ready, 1, 1000);
    for (int i = 0; i < WAITING && sound; i++) {
        uint8_t packet[64];
        struct sockaddr_in from;
        socklen_t size = sizeof from;
        ssize_t n = recvfrom(line, packet, sizeof packet, MSG_DONTWAIT, (struct sockaddr *)&from, &size);
        if (n < 0) break;
        take_packet(packet, (size_t)n, &from);
    }
    if (sound && news) save();
}

static void open_line(int port) {
    struct sockaddr_in here = {.sin_family = AF_INET, .sin_port = htons((uint16_t)port), .sin_addr.s_addr = htonl(INADDR_LOOPBACK)};
    line = socket(AF_INET, SOCK_DGRAM, 0);
    if (line < 0 || bind(line, (struct sockaddr *)&here, sizeof here)) {
        perror("line");
        exit(1);
    }
}

static void serve(int port) {
    open_line(port);
    for (;;) {
        while (sound) turn();
        start();
    }
}

int main(int argc, char **argv) {
    int founds = argc == 3 && strcmp(argv[1], "--found") == 0;
    if (argc > 3) limit = (size_t)strtoul(argv[3], NULL, 10);
    if (argc < 2 || argc > 4 || (argv[1][0] == '-' && !founds) || limit < MANTELORRIS_LOG_HEAD || limit > MOST) {
        fprintf(stderr, "usage: host --found CARD, or host CARD [PORT [LIMIT]], LIMIT from %d to %d\n", MANTELORRIS_LOG_HEAD, MOST);
        return 2;
    }
    if (mantelorris_version() != MANTELORRIS_VERSION) {
        fprintf(stderr, "host: the library is of another version than its headers\n");
        return 2;
    }
    make_plan();
    if (founds) {
        card_open(&card, argv[2], 1);
        found();
        print_state();
        return 0;
    }
    if (argc == 2) {
        card_look(&card, argv[1]);
        print_card();
        return 0;
    }
    card_open(&card, argv[1], 0);
    start();
    serve(atoi(argv[2]));
}
