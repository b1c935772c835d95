/* What a head, an image or a checkpoint breaks, by its own bytes. */
#include "reader.h"
#include <stdarg.h>
#include <stdio.h>
#include <string.h>

void because(struct fault *fault, const char *format, ...) {
    va_list values;
    va_start(values, format);
    vsnprintf(fault->why, sizeof fault->why, format, values);
    va_end(values);
}

static void because_at(struct fault *fault, size_t at, const char *why) {
    fault->at = fault->byte = at;
    because(fault, "%s", why);
}

/* "0 to 63", "1 or more", "0" */
static const char *range_words(char *to, size_t space, struct range due) {
    if (due.low == due.high)
        snprintf(to, space, "%u", due.low);
    else if (due.high == UINT32_MAX)
        snprintf(to, space, "%u or more", due.low);
    else
        snprintf(to, space, "%u to %u", due.low, due.high);
    return to;
}

void because_field(struct fault *fault, const struct layout *layout, const uint8_t *row, size_t at) {
    char due[48];
    const struct field *f = bad_field(layout, row);
    fault->at = fault->byte = at;
    if (!f) {
        because(fault, "no field is out of the range that this program knows; is the library of a later version?");
        return;
    }
    fault->byte += f->at;
    range_words(due, sizeof due, field_range(layout, f, row));
    because(fault, "byte %zu, %s, is %lld, and %s is due", fault->byte, *f->name ? f->name : "a zero", (long long)plain_value(f, row), due);
}

void why_head(struct fault *fault, struct slice log) {
    fault->at = fault->byte = 0;
    if (log.length < MANTELORRIS_LOG_HEAD)
        because(fault, log.length ? "the head is cut off: %zu of its 8 bytes are here" : "there is no head: %zu bytes", log.length);
    else if (!mantelorris_is_log(log.bytes, log.length))
        because(fault, "bytes 0 to 3 are %02X %02X %02X %02X, and a log begins with 57 4C 47 31", log.bytes[0], log.bytes[1], log.bytes[2],
                log.bytes[3]);
    else if (bad_field(&log_head, log.bytes))
        because_field(fault, &log_head, log.bytes, 0);
}

/* ---- images */

struct id {
    uint32_t client, call;
};

static struct id id_at(const uint8_t *row) {
    return (struct id){mantelorris_number_at(row, 0), mantelorris_number_at(row, 4)};
}

static int below(struct id a, struct id b) {
    return a.client < b.client || (a.client == b.client && a.call < b.call);
}

uint32_t floor_of(const uint8_t *rows, size_t count, uint32_t client) {
    for (size_t i = 0; i < count; i++)
        if (id_at(rows + 8 * i).client == client) return id_at(rows + 8 * i).call;
    return 0;
}

/* words, or NULL where the id goes with the floors */
static const char *against_floors(struct id id, const uint8_t *rows, size_t count) {
    uint32_t floor = floor_of(rows, count, id.client);
    if (!floor) return "its client is not among the clients";
    if (id.call < floor) return "its call is under its client's floor";
    return id.call - floor > 15 ? "its call is more than 15 above its client's floor" : NULL;
}

static int client_row_off(struct fault *fault, const uint8_t *rows, size_t i, size_t at) {
    const uint8_t *row = rows + 8 * i;
    if (bad_field(&client_row, row))
        because_field(fault, &client_row, row, at);
    else if (i > 0 && id_at(row - 8).client >= id_at(row).client)
        because_at(fault, at, "clients do not ascend here");
    return fault->why[0];
}

static int outside(const uint8_t *plan, uint32_t point, int32_t value) {
    size_t row = MANTELORRIS_PLAN_ROW * (size_t)point;
    return plan && (value < (int32_t)mantelorris_number_at(plan, row) || value > (int32_t)mantelorris_number_at(plan, row + 4));
}

static int entry_off(struct fault *fault, struct slice image, struct parts parts, size_t i, const uint8_t *plan, size_t at) {
    const struct layout *entry = parts.entry;
    const uint8_t *row = image.bytes + parts.entries_at + entry->length * i;
    const char *misfit = against_floors(id_at(row), image.bytes + parts.rows_at, parts.rows);
    if (bad_field(entry, row))
        because_field(fault, entry, row, at);
    else if (i > 0 && !below(id_at(row - entry->length), id_at(row)))
        because_at(fault, at, "records do not ascend by client and call here");
    else if (misfit)
        because_at(fault, at, misfit);
    else if (outside(plan, image.bytes[4], (int32_t)mantelorris_number_at(row, 12)))
        because_at(fault, at, "its value is outside the point's range");
    return fault->why[0];
}

static int image_head_off(struct fault *fault, struct slice image, size_t at, const uint8_t *plan) {
    size_t most = image.length > 3 && image.bytes[3] == FIRST_IMAGE ? FIRST_IMAGE_SIZE : MANTELORRIS_IMAGE_SIZE;
    if (image.length < MANTELORRIS_IMAGE_LEAST || image.length > most)
        because(fault, "an image has from 48 to 12,592 bytes, one from before 1.6 at most 10,544, and here are %zu", image.length);
    else if (!mantelorris_is_image(image.bytes, image.length))
        because_at(fault, at, "an image begins with 4D 56 49 32, or 31");
    else if (bad_field(&image_head, image.bytes))
        because_field(fault, &image_head, image.bytes, at);
    else if (!image_parts(image).good)
        because_at(fault, at + 16, "the three pairs of offset and length do not fit the image's length");
    else if (outside(plan, image.bytes[4], (int32_t)mantelorris_number_at(image.bytes, 40)))
        because_at(fault, at + 40, "the point's value is outside its range");
    return fault->why[0];
}

/* of an image that is malformed; plan: or NULL, if ranges of points are not asked for */
void why_image(struct fault *fault, struct slice image, size_t at, const uint8_t *plan) {
    fault->at = fault->byte = at;
    fault->why[0] = 0;
    if (image_head_off(fault, image, at, plan)) return;
    struct parts parts = image_parts(image);
    for (size_t i = 0; i < parts.rows; i++)
        if (client_row_off(fault, image.bytes + parts.rows_at, i, at + parts.rows_at + 8 * i)) return;
    for (size_t i = 0; i < parts.entries; i++)
        if (entry_off(fault, image, parts, i, plan, at + parts.entries_at + parts.entry->length * i)) return;
}

/* ---- checkpoints: the library is asked with fewer rows, and the first row that it refuses is the place */

static uint8_t trial[MANTELORRIS_CHECKPOINT_SIZE], state[MANTELORRIS_STATE_SIZE];

/* the row of a point as founding leaves it */
static void found_row(uint8_t *checkpoint, uint32_t point) {
    const uint8_t *plan = checkpoint + PLAN_AT + MANTELORRIS_PLAN_ROW * (size_t)point;
    uint8_t *row = checkpoint + POINTS_AT + 16 * (size_t)point;
    memset(row, 0, 16);
    row[0] = plan[12] == checkpoint[4] ? MANTELORRIS_HELD : MANTELORRIS_ABSENT;
    row[1] = MANTELORRIS_INVALID;
    memcpy(row + 4, plan + 8, 4);
}

/* whether the library takes the checkpoint with its first rows of each part; points behind them are as founded */
static int front_taken(struct slice checkpoint, uint32_t points, size_t clients, size_t records) {
    struct parts parts = checkpoint_parts(checkpoint);
    const uint8_t head[MANTELORRIS_LOG_HEAD] = {0x57, 0x4C, 0x47, 0x31, checkpoint.bytes[4]};
    memcpy(trial, checkpoint.bytes, CLIENTS_AT + 8 * clients);
    memcpy(trial + CLIENTS_AT + 8 * clients, checkpoint.bytes + parts.entries_at, parts.entry->length * records);
    mantelorris_put_number(trial, 32, (uint32_t)(8 * clients));
    mantelorris_put_number(trial, 36, (uint32_t)(CLIENTS_AT + 8 * clients));
    mantelorris_put_number(trial, 40, (uint32_t)(parts.entry->length * records));
    for (uint32_t p = points; p < MANTELORRIS_POINTS; p++) found_row(trial, p);
    size_t length = CLIENTS_AT + 8 * clients + parts.entry->length * records;
    return !mantelorris_number(mantelorris_recover_checkpoint(state, sizeof state, trial, length, head, sizeof head));
}

static void why_point(struct fault *fault, struct slice checkpoint, uint32_t point) {
    size_t at = POINTS_AT + 16 * (size_t)point;
    const uint8_t *row = checkpoint.bytes + at;
    fault->at = fault->byte = at;
    if (bad_field(&point_row, row))
        because_field(fault, &point_row, row, at);
    else if (outside(checkpoint.bytes + PLAN_AT, point, (int32_t)mantelorris_number_at(row, 4)))
        because(fault, "the value of point %u is outside its range", point);
    else
        because(fault, "status, destination, moves and home of point %u do not fit each other", point);
}

static const char *completion_misfit(struct slice checkpoint, struct parts parts, const uint8_t *row) {
    uint32_t status = checkpoint.bytes[POINTS_AT + 16 * (size_t)row[19]];
    const char *misfit = against_floors(id_at(row), checkpoint.bytes + CLIENTS_AT, parts.rows);
    if (misfit) return misfit;
    if (status != MANTELORRIS_HELD && status != MANTELORRIS_GIVEN) return "its point is neither held nor given";
    if (outside(checkpoint.bytes + PLAN_AT, row[19], (int32_t)mantelorris_number_at(row, 12))) return "its value is outside its point's range";
    return "its client and call stand before already";
}

static void why_completion(struct fault *fault, struct slice checkpoint, struct parts parts, size_t i) {
    size_t at = parts.entries_at + parts.entry->length * i;
    const uint8_t *row = checkpoint.bytes + at;
    if (bad_field(parts.entry, row))
        because_field(fault, parts.entry, row, at);
    else
        because_at(fault, at, completion_misfit(checkpoint, parts, row));
}

static void why_rows(struct fault *fault, struct slice checkpoint, struct parts parts) {
    for (uint32_t p = 0; p < MANTELORRIS_POINTS; p++)
        if (!front_taken(checkpoint, p + 1, 0, 0)) {
            why_point(fault, checkpoint, p);
            return;
        }
    for (size_t i = 0; i < parts.rows; i++)
        if (client_row_off(fault, checkpoint.bytes + CLIENTS_AT, i, CLIENTS_AT + 8 * i)) return;
    for (size_t i = 0; i < parts.entries; i++)
        if (!front_taken(checkpoint, MANTELORRIS_POINTS, parts.rows, i + 1)) {
            why_completion(fault, checkpoint, parts, i);
            return;
        }
}

static void why_plan(struct fault *fault, struct slice checkpoint, uint32_t point) {
    size_t at = PLAN_AT + MANTELORRIS_PLAN_ROW * (size_t)point;
    if (bad_field(&plan_row, checkpoint.bytes + at))
        because_field(fault, &plan_row, checkpoint.bytes + at, at);
    else
        because_at(fault, at, "a fallback outside its own range in the plan");
}

/* of a checkpoint that the library refuses */
void why_checkpoint(struct fault *fault, struct slice checkpoint) {
    struct parts parts = checkpoint_parts(checkpoint);
    size_t due = mantelorris_checkpoint_length(checkpoint.bytes, checkpoint.length);
    fault->at = fault->byte = 0;
    fault->why[0] = 0;
    if (checkpoint.length < MANTELORRIS_CHECKPOINT_HEAD)
        because(fault, "the head is cut off: %zu of its 44 bytes are here", checkpoint.length);
    else if (bad_field(&checkpoint_head, checkpoint.bytes))
        because_field(fault, &checkpoint_head, checkpoint.bytes, 0);
    else if (!due)
        because_at(fault, 12, "the four pairs of offset and length, bytes 12 to 43, are off their layout");
    else if (!parts.good)
        because(fault, "its end is missing: it has %zu bytes, and %zu are here", due, checkpoint.length);
    else if (mantelorris_plan_bad_row(checkpoint.bytes + PLAN_AT) < MANTELORRIS_POINTS)
        why_plan(fault, checkpoint, mantelorris_plan_bad_row(checkpoint.bytes + PLAN_AT));
    else
        why_rows(fault, checkpoint, parts);
}
