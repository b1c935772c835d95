/* Which record of a log the library refuses, and why: the log is replayed in spans, and the state before that record is asked what its operation would
 * answer. */
#include "reader.h"
#include <string.h>

enum { SPAN = 1 << 20, TAIL = MANTELORRIS_LOG_HEAD + SPAN + MANTELORRIS_LOG_TAKE + MANTELORRIS_IMAGE_SIZE };

static uint8_t state[MANTELORRIS_STATE_SIZE], checkpoint[MANTELORRIS_CHECKPOINT_SIZE], tail[TAIL];
static size_t base; /* the checkpoint's length */

/* ---- the record */

/* the state as it is becomes the checkpoint; the tail has a head alone then */
static void keep(void) {
    uint8_t head[MANTELORRIS_LOG_HEAD];
    base = mantelorris_written(mantelorris_checkpoint(state, sizeof state, tail, sizeof tail, checkpoint, sizeof checkpoint, head, sizeof head));
    memcpy(tail, head, sizeof head);
}

/* whether these records can follow; the state is the one behind them then, and else stays */
static int follow(struct slice log, size_t at, size_t end) {
    memcpy(tail + MANTELORRIS_LOG_HEAD, log.bytes + at, end - at);
    return !mantelorris_number(mantelorris_recover_checkpoint(state, sizeof state, checkpoint, base, tail, MANTELORRIS_LOG_HEAD + end - at));
}

/* the end of the whole records within a span, of one at least */
static size_t reach(struct slice log, size_t at, size_t end, size_t span) {
    size_t reached = step_at(log, at).end;
    while (reached < end && step_at(log, reached).end - at <= span) reached = step_at(log, reached).end;
    return reached;
}

/* the place of the first whole record before `end` that cannot follow, `end` if each can; the state is the one before it */
static size_t first_refused(struct slice log, size_t end) {
    size_t at = MANTELORRIS_LOG_HEAD, span = SPAN;
    while (at < end) {
        size_t to = reach(log, at, end, span);
        if (follow(log, at, to)) {
            keep();
            at = to;
        } else if (to == step_at(log, at).end)
            return at;
        else
            span = (to - at) / 2;
    }
    return end;
}

/* ---- the reason: the operation behind the record is called on the state before it. Lease ends are not asked for again, so heard time is 0 here */

static int32_t bound(uint32_t point, size_t at) {
    return (int32_t)mantelorris_number_at(state, STATE_PLAN + MANTELORRIS_PLAN_ROW * (size_t)point + at);
}

static uint32_t known_floor(uint32_t client) {
    return floor_of(state + STATE_CLIENTS_AT, mantelorris_number_at(state, STATE_CLIENTS), client);
}

static void not_held(struct fault *fault, uint32_t point) {
    because(fault, "point %u is %s here", point, mantelorris_status_name(mantelorris_status(state, point)));
}

static void why_executed(struct fault *fault, const uint8_t *record) {
    uint8_t packet[24] = {MANTELORRIS_KIND_REQUEST, record[1], record[2]}, out[MANTELORRIS_REPLY_SIZE];
    uint32_t point = record[2], client = mantelorris_packet_client(record), call = mantelorris_packet_call(record);
    memcpy(packet + 4, record + 4, 12);
    mantelorris_put_number(packet, 16, UINT32_MAX);
    memcpy(packet + 20, record + 16, 4);
    uint64_t a = mantelorris_request(state, sizeof state, tail, sizeof tail, packet, sizeof packet, out, sizeof out);
    switch (mantelorris_number(a)) {
    case MANTELORRIS_NOT_HELD: not_held(fault, point); break;
    case MANTELORRIS_UNDER_FLOOR: because(fault, "call %u is under the floor of client %u, %u", call, client, known_floor(client)); break;
    case MANTELORRIS_CLIENTS_FULL: because(fault, "32 clients are known, and client %u is none of them", client); break;
    case MANTELORRIS_OTHER_COMMAND: because(fault, "client %u, call %u stands already, for another command", client, call); break;
    default:
        if (mantelorris_written(a))
            because(fault, "client %u, call %u stands already", client, call);
        else
            because(fault, "value %d is outside the range of point %u, %d to %d", (int32_t)mantelorris_number_at(record, 20), point, bound(point, 0),
                    bound(point, 4));
    }
}

static void why_gone(struct fault *fault, const uint8_t *record) {
    because(fault, "client %u is not known", mantelorris_packet_client(record));
}

static void why_give(struct fault *fault, const uint8_t *record) {
    uint32_t point = record[1], move = mantelorris_move(state, point);
    switch (mantelorris_number(mantelorris_give(state, sizeof state, tail, sizeof tail, point, record[2]))) {
    case MANTELORRIS_NOT_HELD: not_held(fault, point); break;
    case MANTELORRIS_BAD_DESTINATION: because(fault, "server %u is this server", record[2]); break;
    case MANTELORRIS_NUMBER_SPENT: because(fault, "the move number of point %u is at its greatest", point); break;
    default: because(fault, "move %u is not the next one of point %u, %u", mantelorris_number_at(record, 4), point, move + 1);
    }
}

static void why_taken(struct fault *fault, struct slice image, size_t at) {
    uint32_t point = image.bytes[4], move = mantelorris_image_move(image.bytes), own = mantelorris_move(state, point);
    int held = mantelorris_status(state, point) == MANTELORRIS_HELD;
    switch (mantelorris_number(mantelorris_take(state, sizeof state, tail, sizeof tail, image.bytes, image.length))) {
    case MANTELORRIS_BAD_DESTINATION:
        because(fault, "the image is for server %u, and this is server %u", mantelorris_image_destination(image.bytes), mantelorris_server(state));
        break;
    case MANTELORRIS_OLD_MOVE: because(fault, "move %u is not above the own one of point %u, %u", move, point, own); break;
    case MANTELORRIS_CLIENTS_FULL: because(fault, "with the image's there would be more than 32 clients"); break;
    case MANTELORRIS_HELD_HERE:
        because(fault, held ? "point %u is held here" : "a record of the image of point %u stands here for another point", point);
        break;
    default:
        why_image(fault, image, at + MANTELORRIS_LOG_TAKE, state + STATE_PLAN);
        fault->at = at;
    }
}

static void why_release(struct fault *fault, const uint8_t *record) {
    uint32_t point = record[1];
    if (mantelorris_status(state, point) != MANTELORRIS_GIVEN)
        not_held(fault, point);
    else
        because(fault, "move %u is not that of the give of point %u, %u", mantelorris_number_at(record, 4), point, mantelorris_move(state, point));
}

static void why_record(struct fault *fault, struct slice log, struct step step) {
    const uint8_t *record = log.bytes + step.at;
    fault->at = fault->byte = step.at;
    if (bad_field(step.layout, record)) {
        because_field(fault, step.layout, record, step.at);
        return;
    }
    mantelorris_put_number(state, 8, 0);
    switch (step.layout->kind) {
    case KIND_FIRST_EXECUTED:
    case KIND_EXECUTED: why_executed(fault, record); break;
    case KIND_GONE: why_gone(fault, record); break;
    case KIND_GIVE: why_give(fault, record); break;
    case KIND_TAKE: why_taken(fault, (struct slice){record + 8, step.end - step.at - 8}, step.at); break;
    case KIND_RELEASE: why_release(fault, record); break;
    }
}

/* the record at which the walk stops */
static void why_stop(struct fault *fault, struct slice log, struct step stop) {
    fault->at = fault->byte = stop.at;
    if (stop.ending == BAD_KIND)
        because(fault, "byte %zu, the kind of a record, is %u, and there is no such kind", stop.at, log.bytes[stop.at]);
    else if (stop.ending == BAD_LENGTH)
        because_field(fault, stop.layout, log.bytes + stop.at, stop.at);
}

void why_records(struct fault *fault, const uint8_t *before, struct slice log) {
    struct step stop = last_step(log, MANTELORRIS_LOG_HEAD);
    fault->why[0] = 0;
    memcpy(state, before, sizeof state);
    keep();
    size_t at = first_refused(log, stop.at);
    if (at < stop.at)
        why_record(fault, log, step_at(log, at));
    else
        why_stop(fault, log, stop);
}
