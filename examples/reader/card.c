/* What is said of a card, an image or a packet: its rows, the library's answer, and the state or the reason. */
#include "reader.h"
#include "mantelorris_client.h"
#include <string.h>

static const char NO_PLAN[] = "no plan was given: values are not held to their points' ranges, and a fallback that nobody has changed is shown as 0\n";

static uint8_t state[MANTELORRIS_STATE_SIZE];

static uint32_t answered(uint32_t answer, const struct fault *fault) {
    number("answer", answer);
    text("name", mantelorris_refusal_name(answer));
    if (!answer) return answer;
    object("refused");
    text("part", fault->part);
    number("at", (int64_t)fault->at);
    number("byte", (int64_t)fault->byte);
    text("why", fault->why);
    close_object();
    words("refused with %u, %s; in the %s at %zu: %s\n", answer, mantelorris_refusal_name(answer), fault->part, fault->at, fault->why);
    return answer;
}

/* ---- a log, or a checkpoint and its tail */

static uint32_t recover(struct slice checkpoint, struct slice log, struct slice plan) {
    uint64_t a = checkpoint.length ? mantelorris_recover_checkpoint(state, sizeof state, checkpoint.bytes, checkpoint.length, log.bytes, log.length)
                                   : mantelorris_recover(state, sizeof state, log.bytes, log.length, plan.bytes, plan.length);
    return mantelorris_number(a);
}

static struct slice front(struct slice log) {
    return (struct slice){log.bytes, log.length < MANTELORRIS_LOG_HEAD ? log.length : MANTELORRIS_LOG_HEAD};
}

static void show_torn(struct slice log, struct step stop) {
    struct slice rest = {log.bytes + stop.at, log.length - stop.at};
    words("; behind them %zu of the %zu bytes of a record (%s) that was never whole:", rest.length, stop.end - stop.at, stop.layout->name);
    object("torn");
    number("bytes", (int64_t)rest.length);
    text("kind", stop.layout->name);
    number("due", (int64_t)(stop.end - stop.at));
    hex("hex", rest);
    close_object();
}

static void show_end(struct slice log, struct step stop) {
    number("end", (int64_t)stop.at);
    words("whole records up to %zu", stop.at);
    if (stop.ending != TORN)
        words("; the one there is off its layout\n");
    else if (log.length > stop.at)
        show_torn(log, stop);
    else
        words(", and nothing behind them\n");
}

static void show_log(const struct card *card, const char *name) {
    struct slice log = card->log;
    object(name);
    number("begins", (int64_t)card->log_at);
    number("bytes", (int64_t)log.length);
    if (card->checkpoint.length || card->log_at) words("%s: %zu bytes, from byte %zu of the card on\n", name, log.length, card->log_at);
    if (!mantelorris_log_end(log.bytes, front(log).length).number) {
        struct step stop = last_step(log, MANTELORRIS_LOG_HEAD);
        show_row("head", &log_head, log.bytes, 0, -1);
        show_records(log, stop.at);
        show_end(log, stop);
    }
    close_object();
}

static void show_checkpoint_of(const struct card *card) {
    object("checkpoint");
    number("begins", (int64_t)card->checkpoint_at);
    number("bytes", (int64_t)card->checkpoint.length);
    words("checkpoint: %zu bytes, from byte %zu of the card on\n", card->checkpoint.length, card->checkpoint_at);
    if (checkpoint_parts(card->checkpoint).good) {
        show_row("head", &checkpoint_head, card->checkpoint.bytes, 0, -1);
        show_checkpoint(card->checkpoint);
    }
    close_object();
}

static void why_tail(struct fault *fault, const struct card *card) {
    fault->part = "tail";
    why_head(fault, card->log);
    if (fault->why[0]) return;
    fault->at = fault->byte = 4;
    because(fault, "it is of server %u, and the checkpoint of server %u", card->log.bytes[4], card->checkpoint.bytes[4]);
}

/* of a card that recovery refuses: the checkpoint by itself, the head of log or tail, or a record */
static void why_card(struct fault *fault, const struct card *card, struct slice plan) {
    const uint8_t head[MANTELORRIS_LOG_HEAD] = {0x57, 0x4C, 0x47, 0x31, card->checkpoint.length > 4 ? card->checkpoint.bytes[4] : 0};
    *fault = (struct fault){.part = "log"};
    if (card->checkpoint.length && recover(card->checkpoint, (struct slice){head, sizeof head}, plan)) {
        fault->part = "checkpoint";
        why_checkpoint(fault, card->checkpoint);
    } else if (card->checkpoint.length && recover(card->checkpoint, front(card->log), plan)) {
        why_tail(fault, card);
    } else if (recover(card->checkpoint, front(card->log), plan)) {
        why_head(fault, card->log);
    } else {
        fault->part = card->checkpoint.length ? "tail" : "log";
        why_records(fault, state, card->log);
    }
}

/* a checkpoint has its own plan; one that is given beside it is compared */
static void show_plan(const struct card *card, const struct slice *plan) {
    size_t same = 0;
    text("plan", card->checkpoint.length ? "of the checkpoint" : plan ? "given" : "none");
    if (!plan || !checkpoint_parts(card->checkpoint).good || plan->length != MANTELORRIS_PLAN_SIZE) return;
    while (same < MANTELORRIS_PLAN_SIZE && plan->bytes[same] == card->checkpoint.bytes[PLAN_AT + same]) same++;
    if (same == MANTELORRIS_PLAN_SIZE) return;
    number("plan_differs_at_point", (int64_t)(same / MANTELORRIS_PLAN_ROW));
    words("the plan that was given is not the checkpoint's: they differ at point %zu\n", same / MANTELORRIS_PLAN_ROW);
}

uint32_t show_card(struct card card, const struct slice *plan) {
    struct slice used = plan ? *plan : plan_of_log(card.log);
    struct fault fault = {.part = ""};
    if (card.checkpoint.length) show_checkpoint_of(&card);
    show_log(&card, card.checkpoint.length ? "tail" : "log");
    show_plan(&card, plan);
    uint32_t answer = recover(card.checkpoint, card.log, used);
    if (answer == MANTELORRIS_OK) {
        if (!card.checkpoint.length && !plan) words(NO_PLAN);
        show_state(state);
    } else if (answer == MANTELORRIS_MALFORMED)
        why_plan_bad(&fault, used);
    else
        why_card(&fault, &card, used);
    return answered(answer, &fault);
}

/* ---- an image: what a server that it is for, and that does not have the point, would answer */

static uint32_t taken(struct slice image, struct slice plan) {
    static uint8_t log[MANTELORRIS_LOG_HEAD + MANTELORRIS_LOG_TAKE + MANTELORRIS_IMAGE_SIZE];
    uint8_t abroad[MANTELORRIS_PLAN_SIZE];
    uint32_t here = image.length > 5 ? mantelorris_image_destination(image.bytes) % MANTELORRIS_SERVERS : 0;
    memcpy(abroad, plan.bytes, sizeof abroad);
    for (size_t p = 0; p < MANTELORRIS_POINTS; p++) mantelorris_put_number(abroad, MANTELORRIS_PLAN_ROW * p + 12, here ^ 1);
    mantelorris_found(state, sizeof state, log, sizeof log, abroad, sizeof abroad, here);
    return mantelorris_number(mantelorris_take(state, sizeof state, log, sizeof log, image.bytes, image.length));
}

uint32_t show_image_alone(struct slice image, const struct slice *plan) {
    struct slice used = plan ? *plan : widest_plan(0);
    struct fault fault = {.part = "image"};
    show_image(image, 0);
    if (used.length != MANTELORRIS_PLAN_SIZE || mantelorris_plan_bad_row(used.bytes) < MANTELORRIS_POINTS) {
        why_plan_bad(&fault, used);
        return answered(MANTELORRIS_MALFORMED, &fault);
    }
    uint32_t answer = taken(image, used);
    if (answer == MANTELORRIS_OK) words("well-formed\n");
    if (answer == MANTELORRIS_OLD_MOVE) because(&fault, "its move is 0, and that of a give is 1 or more");
    if (answer == MANTELORRIS_MALFORMED) why_image(&fault, image, 0, used.bytes);
    return answered(answer, &fault);
}

/* ---- a packet: 1 from the party that it is for means malformed; any other answer is of no account, since that party is made up */

static uint32_t at_server(struct slice packet) {
    uint8_t log[64], out[MANTELORRIS_REPLY_SIZE];
    struct slice plan = widest_plan(0);
    mantelorris_found(state, sizeof state, log, sizeof log, plan.bytes, plan.length, 0);
    uint64_t a;
    switch (packet.bytes[0]) {
    case MANTELORRIS_KIND_REQUEST: a = mantelorris_request(state, sizeof state, log, sizeof log, packet.bytes, packet.length, out, sizeof out); break;
    case MANTELORRIS_KIND_NOTICE: a = mantelorris_notice(state, sizeof state, log, sizeof log, packet.bytes, packet.length); break;
    default: a = mantelorris_release(state, sizeof state, log, sizeof log, packet.bytes, packet.length);
    }
    return mantelorris_number(a);
}

static uint32_t at_party(struct slice packet) {
    struct mantelorris_client desk = {.client = 1, .next = 1};
    switch (packet.bytes[0]) {
    case MANTELORRIS_KIND_REQUEST:
    case MANTELORRIS_KIND_NOTICE:
    case MANTELORRIS_KIND_RECEIPT: return at_server(packet);
    default: return mantelorris_receive(&desk, packet.bytes, packet.length).number;
    }
}

uint32_t show_packet(struct slice packet) {
    const struct layout *layout = layout_of(packet_layouts, packet.bytes[0]);
    struct fault fault = {.part = "packet"};
    uint32_t answer = at_party(packet) == MANTELORRIS_MALFORMED ? MANTELORRIS_MALFORMED : MANTELORRIS_OK;
    if (packet.length == layout->length) show_row("packet", layout, packet.bytes, 0, -1);
    if (!answer)
        words("well-formed\n");
    else if (packet.length != layout->length)
        because(&fault, "a %s has %u bytes, and here are %zu", layout->name, layout->length, packet.length);
    else
        because_field(&fault, layout, packet.bytes, 0);
    return answered(answer, &fault);
}
