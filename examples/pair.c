/* A cabinet of a plant with two of them, over the line of line.h: points move between the two. It is host.c with what that leaves out: give, image, take, receipt, release,
 * and notices that are answered.
 *
 *     pair --found CARD SERVER                 once, when the plant is commissioned
 *     pair CARD SERVER PORT LEASES OTHER       serves on 127.0.0.1:PORT until it is killed; the ports of the lease manager and of the other cabinet
 *     pair CARD                                prints what the card has, and ends; the card is only read
 *
 *   1. What has arrived is carried out in memory, and what it asks for is noted: a result, a receipt, an answer to a notice or to an order.
 *   2. The log's new bytes are on the card for certain, and the mark is set.
 *   3. Only then the answers leave and the gate moves.
 * A point that was given goes to its taker in pieces, again and again until its receipt has come. That it was given stands in the state, and the image is made from that: a start
 * has nothing else to remember, and either side may be killed at any moment. */
#include "card.h"
#include "line.h"

enum { GATE = 5, TURN = 64, AGAIN_MS = 60, LIMIT = 1 << 15, LOG_SPACE = 1 << 20 };
_Static_assert(LIMIT + TURN * (MANTELORRIS_LOG_TAKE + MANTELORRIS_IMAGE_SIZE) <= LOG_SPACE, "a turn of takes finds room");

static uint8_t state[MANTELORRIS_STATE_SIZE], log_space[LOG_SPACE], plan[MANTELORRIS_PLAN_SIZE], checkpoint[MANTELORRIS_CHECKPOINT_SIZE];
static struct card card;
static int line = -1;
static uint32_t server;
static address leases, other;

/* what leaves after the sync, and to whom: a result of (client, call), a receipt of point a, the place of point a, that the notice of client a is saved */
static struct owed { uint8_t kind; uint32_t a, b; address to; } owed[TURN];
static size_t owes;

static void owe(uint8_t kind, uint32_t a, uint32_t b, const address *to) {
    owed[owes++] = (struct owed){kind, a, b, *to};
}

static void stop(const char *what, uint32_t number) {
    fprintf(stderr, "pair: server %u: %s: %s\n", server, what, mantelorris_refusal_name(number));
    exit(1); /* as if the power had failed: the next start recovers from what the card has */
}

/* a call's number. 19: something has written into the state, and nothing may be served from it */
static uint32_t looked(const char *call, uint64_t answer) {
    if (mantelorris_number(answer) == MANTELORRIS_NOT_SOUND) stop(call, MANTELORRIS_NOT_SOUND);
    return mantelorris_number(answer);
}

/* ---- start, checkpoint and gate: as in host.c */

static int never_founded(size_t kept) {
    return card.base == 0 && kept < MANTELORRIS_LOG_HEAD;
}

static void found(void) {
    if (!never_founded(card_read(&card, checkpoint, log_space, sizeof log_space))) {
        fprintf(stderr, "pair: the card is not empty, so no server is founded on it\n");
        exit(1);
    }
    uint32_t number = mantelorris_number(mantelorris_found(state, sizeof state, log_space, sizeof log_space, plan, sizeof plan, server));
    if (number) stop("found", number);
    card_store(&card, checkpoint, 0, log_space, MANTELORRIS_LOG_HEAD);
}

static void recover(void) {
    size_t kept = card_read(&card, checkpoint, log_space, sizeof log_space);
    if (never_founded(kept)) {
        fprintf(stderr, "pair: no server was founded on this card; is it the right one?\n");
        exit(1);
    }
    uint64_t a = card.base ? mantelorris_recover_checkpoint(state, sizeof state, checkpoint, card.base, log_space, kept)
                           : mantelorris_recover(state, sizeof state, log_space, kept, plan, sizeof plan);
    if (mantelorris_number(a)) stop("recover", mantelorris_number(a)); /* host.c says where the card is damaged */
}

static void move_gate(void) {
    if (mantelorris_status(state, GATE) != MANTELORRIS_HELD || mantelorris_quality(state, GATE) == MANTELORRIS_INVALID) return;
    int32_t value = mantelorris_value(state, GATE);
    (void)value; /* yours: drive the actuator to this value. Where the point is not held here, the other cabinet drives it, or nobody until it is taken */
}

static void start(void) {
    recover();
    if (mantelorris_server(state) != server) {
        fprintf(stderr, "pair: the card is of server %u, and this is server %u\n", mantelorris_server(state), server);
        exit(1);
    }
    if (memcmp(mantelorris_plan(state), plan, sizeof plan)) {
        fprintf(stderr, "pair: the card has another plan\n");
        exit(1);
    }
    card_store(&card, checkpoint, card.base, log_space, (size_t)mantelorris_length(state));
    move_gate();
}

static void make_checkpoint(void) {
    uint8_t head[MANTELORRIS_LOG_HEAD];
    uint64_t a = mantelorris_checkpoint(state, sizeof state, log_space, sizeof log_space, checkpoint, sizeof checkpoint, head, sizeof head);
    if (mantelorris_number(a)) stop("checkpoint", mantelorris_number(a));
    card_store(&card, checkpoint, mantelorris_written(a), head, sizeof head);
    memcpy(log_space, head, sizeof head);
}

static void print_card(void) {
    recover();
    printf("server %u, log %llu bytes, point %d: %s, value %d, move %u\n", mantelorris_server(state), (unsigned long long)mantelorris_length(state), GATE,
           mantelorris_status_name(mantelorris_status(state, GATE)), mantelorris_value(state, GATE), mantelorris_move(state, GATE));
}

/* ---- the lease manager */

/* 8, clients full: it is asked for each client known here, and sends the notices of those whose lease has ended */
static void ask_for_notices(void) {
    for (uint32_t i = 0; i < mantelorris_clients(state); i++) {
        uint8_t query[QUERY_SIZE] = {LINE_QUERY};
        put32(query + 4, mantelorris_client_number(state, i));
        line_send(line, &leases, query, sizeof query);
    }
}

/* known here no longer, or not known (17): both are answered, once the card has it. Else the lease manager sends it again */
static void take_notice(const uint8_t *packet, size_t length, const address *from) {
    uint32_t number = looked("notice", mantelorris_notice(state, sizeof state, log_space, sizeof log_space, packet, length));
    if (number == 0 || number == MANTELORRIS_UNKNOWN) owe(LINE_SAVED, mantelorris_packet_client(packet), 0, from);
}

/* ---- moves */

/* An order has the number of the move that it asks for: one that is repeated, or comes late, finds another number and moves nothing. */
static void take_order(const uint8_t *message, const address *from) {
    uint32_t point = message[1] % MANTELORRIS_POINTS, destination = message[2], move = mantelorris_number_at(message, 4);
    if (mantelorris_status(state, point) == MANTELORRIS_HELD && mantelorris_move(state, point) + 1 == move && destination < CABINETS)
        looked("give", mantelorris_give(state, sizeof state, log_space, sizeof log_space, point, destination)); /* refused: the answer tells */
    owe(LINE_PLACE, point, 0, from);
}

/* One move may have several images: each is made anew, and a notice or another client since then changes it. So each piece has the sum of its own whole image, and pieces of two images
 * never come together. */
static void send_image(uint32_t point) {
    static uint8_t image[MANTELORRIS_IMAGE_SIZE];
    uint8_t piece[LINE_LONGEST] = {LINE_PIECE, (uint8_t)point};
    uint64_t a = mantelorris_image(state, sizeof state, log_space, sizeof log_space, point, image, sizeof image);
    if (looked("image", a)) return;
    size_t length = mantelorris_written(a);
    put32(piece + 4, (uint32_t)length);
    put64(piece + 8, sum_of(image, length));
    for (size_t at = 0; at < length; at += PIECE_BYTES) {
        size_t n = length - at < PIECE_BYTES ? length - at : PIECE_BYTES;
        piece[2] = (uint8_t)(at / PIECE_BYTES);
        memcpy(piece + PIECE_HEAD, image + at, n);
        line_send(line, &other, piece, PIECE_HEAD + n);
    }
}

/* with more than two cabinets: to the one that is the point's destination */
static void send_images(void) {
    static long sent;
    if (milliseconds() - sent < AGAIN_MS) return;
    sent = milliseconds();
    for (uint32_t point = 0; point < MANTELORRIS_POINTS; point++)
        if (mantelorris_status(state, point) == MANTELORRIS_GIVEN) send_image(point);
}

/* 12: taken before, and the receipt was lost. 8: there is no place for its clients yet. The giver sends it again as long as there is no receipt */
static void take_image(const uint8_t *image, size_t length, uint32_t point, const address *from) {
    uint32_t number = looked("take", mantelorris_take(state, sizeof state, log_space, sizeof log_space, image, length));
    if (number == 0 || number == MANTELORRIS_OLD_MOVE) owe(MANTELORRIS_KIND_RECEIPT, point, 0, from);
    if (number == MANTELORRIS_CLIENTS_FULL) ask_for_notices();
    if (number == MANTELORRIS_HELD_HERE) stop("take", number); /* a proviso was broken: two servers of one number, an old card */
    if (number == MANTELORRIS_BAD_DESTINATION) fprintf(stderr, "pair: server %u: an image for another server: look at the ports\n", server);
}

/* the pieces of a point's image, until all are there */
static struct pieces { uint64_t sum; uint32_t length, got; uint8_t image[MANTELORRIS_IMAGE_SIZE]; } arrived[MANTELORRIS_POINTS];

static void take_piece(const uint8_t *message, size_t n, const address *from) {
    uint32_t point = message[1] % MANTELORRIS_POINTS, length = mantelorris_number_at(message, 4);
    uint64_t sum = mantelorris_word_at(message, 8);
    size_t at = (size_t)message[2] * PIECE_BYTES;
    struct pieces *p = &arrived[point];
    if (length > sizeof p->image || at >= length || n - PIECE_HEAD != (length - at < PIECE_BYTES ? length - at : PIECE_BYTES)) return;
    if (p->sum != sum || p->length != length) p->got = 0; /* of another image */
    p->sum = sum;
    p->length = length;
    p->got |= 1u << message[2];
    memcpy(p->image + at, message + PIECE_HEAD, n - PIECE_HEAD);
    if (p->got + 1 != 1u << (length + PIECE_BYTES - 1) / PIECE_BYTES) return;
    p->got = 0;
    if (sum_of(p->image, length) == sum) take_image(p->image, length, point, from);
}

/* 3, 12: released before, or of an earlier move */
static void take_receipt(const uint8_t *packet, size_t length) {
    looked("release", mantelorris_release(state, sizeof state, log_space, sizeof log_space, packet, length));
}

/* ---- requests and answers */

static void take_request(const uint8_t *packet, size_t length, const address *from) {
    uint8_t out[MANTELORRIS_REPLY_SIZE];
    uint64_t a = mantelorris_request(state, sizeof state, log_space, sizeof log_space, packet, length, out, sizeof out);
    uint32_t number = looked("request", a);
    if (number == MANTELORRIS_CLIENTS_FULL) ask_for_notices();
    if (mantelorris_written(a)) line_send(line, from, out, mantelorris_written(a));
    else if (number == 0) owe(MANTELORRIS_KIND_RESULT, mantelorris_packet_client(packet), mantelorris_packet_call(packet), from);
}

static uint64_t held_points(void) {
    uint64_t points = 0;
    for (uint32_t point = 0; point < MANTELORRIS_POINTS; point++) points |= (uint64_t)(mantelorris_status(state, point) == MANTELORRIS_HELD) << point;
    return points;
}

static void answer(const struct owed *o) {
    uint8_t out[SAVED_SIZE] = {o->kind}; /* the longest of them */
    uint64_t a = 0;
    size_t n = 0;
    if (o->kind == MANTELORRIS_KIND_RESULT) a = mantelorris_fetch(state, sizeof state, log_space, sizeof log_space, o->a, o->b, out, sizeof out);
    if (o->kind == MANTELORRIS_KIND_RECEIPT) a = mantelorris_receipt(state, sizeof state, log_space, sizeof log_space, o->a, out, sizeof out);
    if (o->kind == LINE_SAVED) {
        out[1] = (uint8_t)server;
        put32(out + 4, o->a);
        put32(out + 8, mantelorris_heard(state)); /* all of the log is synced */
        put64(out + 12, held_points());
        n = SAVED_SIZE;
    }
    if (o->kind == LINE_PLACE) {
        out[1] = (uint8_t)o->a;
        out[2] = (uint8_t)mantelorris_status(state, o->a);
        out[3] = (uint8_t)server;
        put32(out + 4, mantelorris_move(state, o->a));
        n = MOVE_SIZE;
    }
    looked("answer", a); /* 17: the desk has said since that it has the result */
    if (n + mantelorris_written(a)) line_send(line, &o->to, out, n + mantelorris_written(a));
}

/* ---- turns */

static void save(void) {
    size_t mark = (size_t)mantelorris_mark(state), length = (size_t)mantelorris_length(state);
    if (mark != length) {
        card_append(&card, log_space, mark, length);
        uint32_t number = mantelorris_number(mantelorris_sync(state, sizeof state, log_space, sizeof log_space, length));
        if (number) stop("sync", number);
        move_gate();
    }
    for (size_t i = 0; i < owes; i++) answer(&owed[i]);
    owes = 0;
}

static void take_message(const uint8_t *message, size_t n, const address *from) {
    switch (message[0]) {
    case MANTELORRIS_KIND_REQUEST: take_request(message, n, from); break;
    case MANTELORRIS_KIND_NOTICE: take_notice(message, n, from); break;
    case MANTELORRIS_KIND_RECEIPT: take_receipt(message, n); break;
    case LINE_MOVE: if (n == MOVE_SIZE) take_order(message, from); break;
    case LINE_PIECE: if (n > PIECE_HEAD) take_piece(message, n, from); break;
    }
}

static void serve(const char *port) {
    uint8_t message[LINE_LONGEST];
    address from;
    size_t n;
    line = line_open(port);
    for (;;) {
        if (mantelorris_length(state) > LIMIT) make_checkpoint();
        line_wait(line, AGAIN_MS);
        for (int i = 0; i < TURN && (n = line_receive(line, message, &from)); i++) take_message(message, n, &from);
        save();
        send_images();
    }
}

int main(int argc, char **argv) {
    if (mantelorris_version() != MANTELORRIS_VERSION) {
        fprintf(stderr, "pair: the library is of another version than its headers\n");
        return 2;
    }
    make_plan(plan);
    if (argc == 4 && strcmp(argv[1], "--found") == 0) {
        server = (uint32_t)atoi(argv[3]);
        card_open(&card, argv[2], 1);
        found();
    } else if (argc == 2) {
        card_look(&card, argv[1]);
        print_card();
    } else if (argc == 6) {
        server = (uint32_t)atoi(argv[2]);
        leases = line_address(argv[4]);
        other = line_address(argv[5]);
        card_open(&card, argv[1], 0);
        start();
        serve(argv[3]);
    } else {
        fprintf(stderr, "usage: pair --found CARD SERVER, pair CARD [SERVER PORT LEASES OTHER]\n");
        return 2;
    }
    return 0;
}
