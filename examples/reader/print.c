/* Words, or JSON. */
#include "reader.h"
#include <stdarg.h>
#include <stdio.h>
#include <string.h>

static char buffer[1 << 16];
static size_t filled;
static int json, lost, inside; /* inside: something stands before in this object or list */

/* ---- bytes out */

static void flush(void) {
    if (fwrite(buffer, 1, filled, stdout) != filled) lost = 1;
    filled = 0;
}

static void put(const char *bytes, size_t count) {
    if (count > sizeof buffer - filled) flush();
    memcpy(buffer + filled, bytes, count);
    filled += count;
}

/* most are short: byte by byte, without their length */
static void put_text(const char *string) {
    while (*string) {
        size_t at = filled;
        while (*string && at < sizeof buffer) buffer[at++] = *string++;
        filled = at;
        if (at == sizeof buffer) flush();
    }
}

/* with blanks in front of it, up to this width */
static void put_padded(int64_t value, size_t width) {
    char digits[24];
    size_t at = sizeof digits;
    uint64_t left = value < 0 ? 0 - (uint64_t)value : (uint64_t)value;
    do digits[--at] = (char)('0' + left % 10); while (left /= 10);
    if (value < 0) digits[--at] = '-';
    while (sizeof digits - at < width) digits[--at] = ' ';
    put(digits + at, sizeof digits - at);
}

static void put_number(int64_t value) {
    put_padded(value, 0);
}

static void put_column(const char *string, size_t width) {
    put_text(string);
    for (size_t used = strlen(string); used < width; used++) put_text(" ");
}

int print_end(void) {
    if (json) put_text("\n");
    inside = 0;
    flush();
    return lost || fflush(stdout) ? -1 : 0;
}

/* ---- JSON: all strings are ours, so nothing in them asks for an escape */

void print_json(void) {
    json = 1;
}

static void begin(const char *name, const char *opening) {
    if (inside) put_text(",");
    if (name) {
        put_text("\"");
        put_text(name);
        put_text("\":");
    }
    put_text(opening);
    inside = *opening == 0;
}

static void opened(const char *name, const char *opening) {
    if (json) begin(name, opening);
}

static void closed(const char *closing) {
    if (!json) return;
    put_text(closing);
    inside = 1;
}

void object(const char *name) { opened(name, "{"); }
void list(const char *name) { opened(name, "["); }
void close_object(void) { closed("}"); }
void close_list(void) { closed("]"); }

void number(const char *name, int64_t value) {
    if (!json) return;
    begin(name, "");
    put_number(value);
}

void text(const char *name, const char *value) {
    if (!json) return;
    begin(name, "");
    put_text("\"");
    put_text(value);
    put_text("\"");
}

void hex(const char *name, struct slice bytes) {
    char pair[3];
    if (json) begin(name, "\"");
    for (size_t i = 0; i < bytes.length; i++) {
        if (!json) put_text(" ");
        snprintf(pair, sizeof pair, "%02X", bytes.bytes[i]);
        put(pair, 2);
    }
    closed("\"");
    if (!json) put_text("\n");
}

/* ---- words */

void words(const char *format, ...) {
    char line[1024];
    va_list values;
    if (json) return;
    va_start(values, format);
    vsnprintf(line, sizeof line, format, values);
    va_end(values);
    put_text(line);
}

static const char *argument_phrase(uint32_t op, uint32_t argument) {
    switch (op) {
    case MANTELORRIS_SET: return " to %";
    case MANTELORRIS_STEP: return " by %";
    case MANTELORRIS_REPORT: return " as %";
    case MANTELORRIS_PART: return " to % thousandths";
    default: return argument ? " with argument %" : "";
    }
}

static const char *phrase_of(const struct layout *layout, const struct field *f, const uint8_t *row) {
    switch (f->type) {
    case ARGUMENT: return argument_phrase(row_value(layout, "op", row), field_value(f, row));
    case GIVEN_TO: return row_value(layout, "status", row) >= MANTELORRIS_GIVEN ? " to server %" : "";
    case TAKEN: return field_value(f, row) ? ", taken by move %" : "";
    default: return f->phrase;
    }
}

static void say_value(const struct field *f, const uint8_t *row) {
    const char *name = value_name(f->type, field_value(f, row));
    if (name) {
        put_text(name);
        return;
    }
    if (value_name(f->type, 0)) words("%s ", f->name); /* one of no name among such that have names */
    put_number(plain_value(f, row));
}

static void say_field(const struct layout *layout, const struct field *f, const uint8_t *row) {
    const char *phrase = phrase_of(layout, f, row), *value = strchr(phrase, '%');
    if (!value) {
        put_text(phrase);
        return;
    }
    put(phrase, (size_t)(value - phrase));
    say_value(f, row);
    put_text(value + 1);
}

static void member(const struct field *f, const uint8_t *row) {
    const char *name = value_name(f->type, field_value(f, row));
    if (name)
        text(f->name, name);
    else
        number(f->name, plain_value(f, row));
}

/* ---- rows */

static void row_in_json(const char *name, const struct layout *layout, const uint8_t *row, int64_t at, int point) {
    object(name);
    if (at >= 0) number("at", at);
    if (at >= 0) text("kind", layout->name);
    if (point >= 0) number("point", point);
    for (const struct field *f = next_field(layout, NULL); f; f = next_field(layout, f))
        if (*f->name) member(f, row);
}

static void row_in_words(const struct layout *layout, const uint8_t *row, int64_t at, int point) {
    if (at >= 0) put_padded(at, 9);
    put_text("  ");
    if (at >= 0) put_column(layout->name, 12);
    if (point >= 0) words("point %d: ", point);
    for (const struct field *f = next_field(layout, NULL); f; f = next_field(layout, f)) say_field(layout, f, row);
    put_text("\n");
}

static void begin_row(const char *name, const struct layout *layout, const uint8_t *row, int64_t at, int point) {
    if (json)
        row_in_json(name, layout, row, at, point);
    else
        row_in_words(layout, row, at, point);
}

void show_row(const char *name, const struct layout *layout, const uint8_t *row, int64_t at, int point) {
    begin_row(name, layout, row, at, point);
    close_object();
}

static void show_rows(const char *name, const struct layout *layout, const uint8_t *bytes, size_t at, size_t rows, int64_t place) {
    list(name);
    for (size_t i = 0; i < rows; i++, at += layout->length) show_row(NULL, layout, bytes + at, place < 0 ? -1 : place + (int64_t)at, -1);
    close_list();
}

/* with the parts that its pairs tell, where these are good ones */
void show_image(struct slice image, size_t at) {
    struct parts parts = image_parts(image);
    if (image.length < MANTELORRIS_IMAGE_LEAST) return;
    begin_row("image", &image_head, image.bytes, (int64_t)at, -1);
    if (parts.good) {
        show_rows("clients", &client_row, image.bytes, parts.rows_at, parts.rows, (int64_t)at);
        show_rows("records", parts.entry, image.bytes, parts.entries_at, parts.entries, (int64_t)at);
    }
    close_object();
}

static void show_record(struct slice log, struct step step) {
    const uint8_t *record = log.bytes + step.at;
    begin_row(NULL, step.layout, record, (int64_t)step.at, -1);
    if (step.layout->kind == KIND_TAKE) show_image((struct slice){record + 8, step.end - step.at - 8}, step.at + 8);
    close_object();
}

void show_records(struct slice log, size_t end) {
    list("records");
    for (size_t at = MANTELORRIS_LOG_HEAD; at < end;) {
        struct step step = step_at(log, at);
        show_record(log, step);
        at = step.end;
    }
    close_list();
}

/* ---- points, clients, completion records */

/* held, with its fallback, invalid, never moved */
static int as_founded(const uint8_t *row, const uint8_t *plan) {
    return row[0] == MANTELORRIS_HELD && row[1] == MANTELORRIS_INVALID && mantelorris_number_at(row, 8) == 0 &&
           mantelorris_number_at(row, 4) == mantelorris_number_at(plan, 8);
}

/* those of them that are as founded, in one line */
static void say_founded(const uint8_t *points, size_t row_length, const uint8_t *plan) {
    size_t count = 0;
    for (size_t p = 0; p < MANTELORRIS_POINTS; p++) {
        if (!as_founded(points + p * row_length, plan + MANTELORRIS_PLAN_ROW * p)) continue;
        words(count++ ? ", %zu" : "  as founded (held, fallback, invalid, move 0): points %zu", p);
    }
    if (count) words("\n");
}

/* those that are or were here */
static void show_points(const uint8_t *points, size_t row_length, const uint8_t *plan, int64_t place) {
    list("points");
    for (size_t p = 0; p < MANTELORRIS_POINTS; p++) {
        const uint8_t *row = points + p * row_length;
        if (row[0] == MANTELORRIS_ABSENT || (!json && as_founded(row, plan + MANTELORRIS_PLAN_ROW * p))) continue;
        show_row(NULL, &point_row, row, place < 0 ? -1 : place + (int64_t)(p * row_length), (int)p);
    }
    close_list();
    say_founded(points, row_length, plan);
}

void show_checkpoint(struct slice checkpoint) {
    struct parts parts = checkpoint_parts(checkpoint);
    if (!parts.good) return;
    show_points(checkpoint.bytes + POINTS_AT, 16, checkpoint.bytes + PLAN_AT, POINTS_AT);
    show_rows("clients", &client_row, checkpoint.bytes, CLIENTS_AT, parts.rows, 0);
    show_rows("records", parts.entry, checkpoint.bytes, parts.entries_at, parts.entries, 0);
}

static void show_completions(const uint8_t *state, size_t count) {
    list("records");
    for (size_t i = 0; i < count; i++) show_row(NULL, &completion_row, state + STATE_RECORDS_AT + STATE_RECORD * i, -1, -1);
    close_list();
}

void show_state(const uint8_t *state) {
    uint32_t clients = mantelorris_number_at(state, STATE_CLIENTS), completions = mantelorris_number_at(state, STATE_RECORDS);
    object("state");
    number("server", mantelorris_server(state));
    number("heard", mantelorris_heard(state));
    number("length", (int64_t)mantelorris_length(state));
    words("recovered: server %u, heard time %u, log of %llu bytes\n", mantelorris_server(state), mantelorris_heard(state),
          (unsigned long long)mantelorris_length(state));
    words("points that are or were here:\n");
    show_points(state + mantelorris_point_at(0), 32, state + STATE_PLAN, -1);
    words("clients, %u of 32:\n", clients);
    show_rows("clients", &client_row, state, STATE_CLIENTS_AT, clients, -1);
    words("completion records, %u of 512:\n", completions);
    show_completions(state, completions);
    close_object();
}
