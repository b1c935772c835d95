/* docs/FORMATS.md and docs/STATE.md as tables: what stands where, which values it may have, and how it is said. */
#include "reader.h"
#include <string.h>

#define ZEROS_1_TO_3 {"", 1, ZERO, ""}, {"", 2, ZERO, ""}, {"", 3, ZERO, ""}
#define END {NULL, 0, ZERO, NULL}

/* ---- log records. A later kind with a field more at its end is a line among the layouts, and that field among the fields: one past a layout's length
 * is not there */

static const struct field executed[] = {{"client", 4, FROM_ONE, "client %"}, {"call", 8, FROM_ONE, ", call %: "}, {"op", 1, OP, "%"},
    {"point", 2, POINT, " point %"}, {"argument", 16, ARGUMENT, ""}, {"outcome", 3, OUTCOME, ": %"}, {"value", 20, SIGNED, ", value %"},
    {"quality", 24, QUALITY, ", %"}, {"time", 28, ANY, ", time %"}, {"done", 12, DONE, "; done %"}, {"", 25, ZERO, ""}, {"", 26, ZERO, ""},
    {"", 27, ZERO, ""}, END};
static const struct field gone[] = {{"client", 4, FROM_ONE, "client %: its lease has ended"}, {"time", 8, ANY, ", time %"}, ZEROS_1_TO_3, END};
static const struct field give[] = {{"point", 1, POINT, "point % is given"}, {"destination", 2, SERVER, " to server %"},
    {"move", 4, ANY, ", move %"}, {"", 3, ZERO, ""}, END};
static const struct field take[] = {{"image_length", 4, IMAGE_LENGTH, "an image of % bytes"}, ZEROS_1_TO_3, END};
static const struct field release[] = {{"point", 1, POINT, "point % is released"}, {"move", 4, ANY, ", move %"}, {"", 2, ZERO, ""},
    {"", 3, ZERO, ""}, END};

const struct layout record_layouts[] = {{KIND_FIRST_EXECUTED, "executed", 28, executed}, {KIND_GONE, "gone", 12, gone},
    {KIND_GIVE, "give", 8, give}, {KIND_TAKE, "take", 8, take}, {KIND_RELEASE, "release", 8, release},
    {KIND_EXECUTED, "executed", MANTELORRIS_LOG_EXECUTED, executed}, {0, NULL, 0, NULL}};

/* ---- packets */

static const struct field request[] = {{"client", 4, FROM_ONE, "client %"}, {"call", 8, FROM_ONE, ", call %: "}, {"op", 1, OP, "%"},
    {"point", 2, POINT, " point %"}, {"argument", 20, ARGUMENT, ""}, {"done", 12, DONE, "; done %"}, {"lease_end", 16, ANY, ", lease end %"},
    {"", 3, ZERO, ""}, END};
static const struct field result[] = {{"client", 4, FROM_ONE, "client %"}, {"call", 8, FROM_ONE, ", call %"},
    {"point", 2, POINT, " on point %"}, {"outcome", 1, OUTCOME, ": %"}, {"value", 12, SIGNED, ", value %"}, {"quality", 3, QUALITY, ", %"},
    {"time", 16, ANY, ", time %"}, END};
static const struct field refusal[] = {{"client", 4, FROM_ONE, "client %"}, {"call", 8, FROM_ONE, ", call %"},
    {"point", 2, POINT, " on point %"}, {"refusal", 1, REFUSAL, ": %"}, {"", 3, ZERO, ""}, END};
static const struct field receipt[] = {{"point", 1, POINT, "point % was taken"}, {"server", 2, SERVER, " by server %"},
    {"move", 4, ANY, ", move %"}, {"", 3, ZERO, ""}, END};
static const struct field grant[] = {{"client", 4, FROM_ONE, "client %"}, {"lease_end", 8, ANY, ": lease end %"}, ZEROS_1_TO_3, END};

const struct layout packet_layouts[] = {{MANTELORRIS_KIND_REQUEST, "request", 24, request}, {MANTELORRIS_KIND_FIRST_RESULT, "result", 16, result},
    {MANTELORRIS_KIND_REFUSAL, "refusal", 12, refusal}, {MANTELORRIS_KIND_RECEIPT, "receipt", 8, receipt},
    {MANTELORRIS_KIND_NOTICE, "notice", 12, gone}, {MANTELORRIS_KIND_GRANT, "grant", 12, grant},
    {MANTELORRIS_KIND_RESULT, "result", 20, result}, {0, NULL, 0, NULL}};

/* ---- heads and rows; a row of 20 bytes is one from before 1.6, without a time */

static const struct field head[] = {{"server", 4, SERVER, "server %"}, {"heard", 8, ANY, ", heard time %"}, {"", 5, ZERO, ""},
    {"", 6, ZERO, ""}, {"", 7, ZERO, ""}, END};
static const struct field plan_fields[] = {{"low", 0, SIGNED, "from %"}, {"high", 4, SIGNED, " to %"},
    {"fallback", 8, SIGNED, ", fallback %"}, {"home", 12, SERVER, ", home server %"}, {"", 13, ZERO, ""}, {"", 14, ZERO, ""},
    {"", 15, ZERO, ""}, END};
static const struct field point_fields[] = {{"status", 0, STATUS, "%"}, {"destination", 2, GIVEN_TO, ""}, {"value", 4, SIGNED, ", value %"},
    {"quality", 1, QUALITY, ", %"}, {"move", 8, ANY, ", move %"}, {"taken", 12, TAKEN, ""}, {"", 3, ZERO, ""}, END};
static const struct field client_fields[] = {{"client", 0, FROM_ONE, "client %"}, {"floor", 4, FROM_ONE, ": floor %"}, END};
static const struct field completion[] = {{"client", 0, FROM_ONE, "client %"}, {"call", 4, FROM_ONE, ", call %: "}, {"op", 16, OP, "%"},
    {"point", 19, POINT, " point %"}, {"argument", 8, ARGUMENT, ""}, {"outcome", 17, OUTCOME, ": %"}, {"value", 12, SIGNED, ", value %"},
    {"quality", 18, QUALITY, ", %"}, {"time", 20, ANY, ", time %"}, END};
static const struct field image_fields[] = {{"point", 4, POINT, "point %"}, {"source", 6, SERVER, " from server %"},
    {"destination", 5, SERVER, " to server %"}, {"move", 8, ANY, ", move %"}, {"heard", 12, ANY, ", heard time %"},
    {"value", 40, SIGNED, ": value %"}, {"quality", 44, QUALITY, ", %"}, {"", 7, ZERO, ""}, {"", 45, ZERO, ""}, {"", 46, ZERO, ""},
    {"", 47, ZERO, ""}, END};
static const struct field entry[] = {{"client", 0, FROM_ONE, "client %"}, {"call", 4, FROM_ONE, ", call %: "}, {"op", 16, OP, "%"},
    {"argument", 8, ARGUMENT, ""}, {"outcome", 17, OUTCOME, ": %"}, {"value", 12, SIGNED, ", value %"}, {"quality", 18, QUALITY, ", %"},
    {"time", 20, ANY, ", time %"}, {"", 19, ZERO, ""}, END};

const struct layout log_head = {0, "head", MANTELORRIS_LOG_HEAD, head}, checkpoint_head = {0, "head", 12, head},
    plan_row = {0, "plan", MANTELORRIS_PLAN_ROW, plan_fields}, point_row = {0, "point", 16, point_fields},
    client_row = {0, "client", 8, client_fields}, completion_row = {0, "completion", 24, completion},
    first_completion_row = {0, "completion", 20, completion}, image_head = {0, "image", MANTELORRIS_IMAGE_LEAST, image_fields},
    image_entry = {0, "entry", 24, entry}, first_image_entry = {0, "entry", 20, entry};

/* ---- fields */

static const struct {
    uint8_t width;
    struct range range;
} types[] = {
    [ZERO] = {1, {0, 0}}, [OP] = {1, {0, MANTELORRIS_PART}}, [POINT] = {1, {0, MANTELORRIS_POINTS - 1}}, [SERVER] = {1, {0, MANTELORRIS_SERVERS - 1}},
    [OUTCOME] = {1, {0, MANTELORRIS_OUTCOME_STOPPED}}, [QUALITY] = {1, {0, MANTELORRIS_BY_HAND}}, [STATUS] = {1, {0, MANTELORRIS_RELEASED}},
    [REFUSAL] = {1, {3, 9}}, [FROM_ONE] = {4, {1, UINT32_MAX}}, [ANY] = {4, {0, UINT32_MAX}}, [SIGNED] = {4, {0, UINT32_MAX}},
    [ARGUMENT] = {4, {0, UINT32_MAX}}, [DONE] = {4, {1, UINT32_MAX}}, [IMAGE_LENGTH] = {4, {MANTELORRIS_IMAGE_LEAST, MANTELORRIS_IMAGE_SIZE}},
    [GIVEN_TO] = {1, {0, MANTELORRIS_SERVERS - 1}}, [TAKEN] = {4, {0, UINT32_MAX}}};

const struct layout *layout_of(const struct layout *layouts, uint8_t kind) {
    for (; layouts->name; layouts++)
        if (layouts->kind == kind) return layouts;
    return NULL;
}

const struct field *next_field(const struct layout *layout, const struct field *field) {
    for (field = field ? field + 1 : layout->fields; field->name; field++)
        if (field->at < layout->length) return field;
    return NULL;
}

uint32_t field_value(const struct field *field, const uint8_t *row) {
    return types[field->type].width == 1 ? row[field->at] : mantelorris_number_at(row, field->at);
}

int64_t plain_value(const struct field *field, const uint8_t *row) {
    uint32_t value = field_value(field, row);
    return field->type == SIGNED || field->type == ARGUMENT ? (int64_t)(int32_t)value : (int64_t)value;
}

const char *value_name(enum type type, uint32_t value) {
    if (value > types[type].range.high) return NULL;
    switch (type) {
    case OP: return mantelorris_op_name(value);
    case OUTCOME: return mantelorris_outcome_name(value);
    case QUALITY: return mantelorris_quality_name(value);
    case STATUS: return mantelorris_status_name(value);
    case REFUSAL: return mantelorris_refusal_name(value);
    default: return NULL;
    }
}

uint32_t row_value(const struct layout *layout, const char *name, const uint8_t *row) {
    for (const struct field *f = next_field(layout, NULL); f; f = next_field(layout, f))
        if (strcmp(f->name, name) == 0) return field_value(f, row);
    return 0;
}

static struct range argument_range(uint32_t op) {
    switch (op) {
    case MANTELORRIS_READ:
    case MANTELORRIS_FAULT: return (struct range){0, 0};
    case MANTELORRIS_PART: return (struct range){0, 1000};
    default: return (struct range){0, UINT32_MAX};
    }
}

/* at most 15 below the call */
static struct range done_range(uint32_t call) {
    return (struct range){call > 16 ? call - 15 : 1, call};
}

struct range field_range(const struct layout *layout, const struct field *field, const uint8_t *row) {
    if (field->type == ARGUMENT) return argument_range(row_value(layout, "op", row));
    if (field->type == DONE) return done_range(row_value(layout, "call", row));
    return types[field->type].range;
}

const struct field *bad_field(const struct layout *layout, const uint8_t *row) {
    for (const struct field *f = next_field(layout, NULL); f; f = next_field(layout, f)) {
        struct range due = field_range(layout, f, row);
        uint32_t value = field_value(f, row);
        if (value < due.low || value > due.high) return f;
    }
    return NULL;
}

/* ---- the walk over a log */

static int length_of_image_ok(struct slice log, size_t at) {
    uint32_t length = mantelorris_number_at(log.bytes, at + 4);
    return length >= MANTELORRIS_IMAGE_LEAST && length <= MANTELORRIS_IMAGE_SIZE;
}

struct step step_at(struct slice log, size_t at) {
    const struct layout *layout = layout_of(record_layouts, log.bytes[at]);
    struct step step = {BAD_KIND, layout, at, at + 1};
    if (!layout) return step;
    step.end = at + layout->length;
    step.ending = TORN;
    if (step.end > log.length) return step;
    if (layout->kind == KIND_TAKE) {
        step.ending = BAD_LENGTH;
        if (!length_of_image_ok(log, at)) return step;
        step.end += mantelorris_number_at(log.bytes, at + 4);
    }
    step.ending = step.end <= log.length ? WHOLE : TORN;
    return step;
}

struct step last_step(struct slice log, size_t at) {
    while (at < log.length) {
        struct step step = step_at(log, at);
        if (step.ending != WHOLE) return step;
        at = step.end;
    }
    return (struct step){TORN, NULL, at, at};
}

/* ---- parts by pairs of offset and length */

static int pair_is(const uint8_t *bytes, size_t at, size_t offset, size_t length) {
    return mantelorris_number_at(bytes, at) == offset && mantelorris_number_at(bytes, at + 4) == length;
}

struct parts image_parts(struct slice image) {
    struct parts p = {0, MANTELORRIS_IMAGE_LEAST, 0, 0, 0, &image_entry};
    if (image.length < MANTELORRIS_IMAGE_LEAST) return p;
    if (image.bytes[3] == FIRST_IMAGE) p.entry = &first_image_entry;
    size_t rows = mantelorris_number_at(image.bytes, 28), entries = mantelorris_number_at(image.bytes, 36);
    p.rows = rows / 8;
    p.entries_at = p.rows_at + rows;
    p.entries = entries / p.entry->length;
    p.good = pair_is(image.bytes, 16, 40, 8) && pair_is(image.bytes, 24, p.rows_at, 8 * p.rows) && p.rows <= 32 &&
             pair_is(image.bytes, 32, p.entries_at, p.entry->length * p.entries) && p.entries_at + entries == image.length;
    return p;
}

struct parts checkpoint_parts(struct slice checkpoint) {
    size_t length = mantelorris_checkpoint_length(checkpoint.bytes, checkpoint.length);
    struct parts p = {length && length <= checkpoint.length, CLIENTS_AT, 0, 0, 0, &completion_row};
    if (!length) return p;
    if (checkpoint.bytes[3] == FIRST_CHECKPOINT) p.entry = &first_completion_row;
    p.rows = mantelorris_number_at(checkpoint.bytes, 32) / 8;
    p.entries_at = CLIENTS_AT + 8 * p.rows;
    p.entries = mantelorris_number_at(checkpoint.bytes, 40) / p.entry->length;
    return p;
}
