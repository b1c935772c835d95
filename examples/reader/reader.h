/* mantelorris-card prints what is on a card, in words or as JSON. Its units:
 *     main.c      options                          what.c       what the bytes are
 *     files.c     files, opened to read alone      raw.c        the raw card of examples/card_raw.c
 *     plan.c      the plan of a log                card.c       what is said of a card, an image or a packet
 *     layouts.c   docs/FORMATS.md and docs/STATE.md as tables, and the walk over a log
 *     print.c     words and JSON
 *     why.c, why_log.c   what the library refuses, where, and why
 * Whether bytes are good is always the library's answer; these units find the place and the words. */
#ifndef READER_H
#define READER_H

#include "mantelorris.h"

struct slice {
    const uint8_t *bytes;
    size_t length;
};

/* ---- layouts.c */

/* what a field holds; its range and its name follow */
enum type { ZERO, OP, POINT, SERVER, OUTCOME, QUALITY, STATUS, REFUSAL, FROM_ONE, ANY, SIGNED, ARGUMENT, DONE, IMAGE_LENGTH, GIVEN_TO, TAKEN };

/* phrase: its part of the row's sentence, with % where its value stands. A field at or past its layout's length is not there */
struct field {
    const char *name;
    uint8_t at;
    enum type type;
    const char *phrase;
};

/* the fields in the order of the sentence; the last one has no name */
struct layout {
    uint8_t kind;
    const char *name;
    uint8_t length;
    const struct field *fields;
};

struct range {
    uint32_t low, high;
};

extern const struct layout log_head, checkpoint_head, plan_row, point_row, client_row, completion_row, first_completion_row, image_head, image_entry,
    first_image_entry;
extern const struct layout packet_layouts[], record_layouts[]; /* the last one has no name */

const struct layout *layout_of(const struct layout *layouts, uint8_t kind);
const struct field *next_field(const struct layout *layout, const struct field *field); /* the first, of NULL; NULL behind the last */
uint32_t field_value(const struct field *field, const uint8_t *row);
int64_t plain_value(const struct field *field, const uint8_t *row); /* with its sign */
const char *value_name(enum type type, uint32_t value); /* NULL where it is a number */
struct range field_range(const struct layout *layout, const struct field *field, const uint8_t *row);
uint32_t row_value(const struct layout *layout, const char *name, const uint8_t *row);
const struct field *bad_field(const struct layout *layout, const uint8_t *row); /* the first that is out of its range, or NULL */

enum { KIND_FIRST_EXECUTED = 1, KIND_GONE, KIND_GIVE, KIND_TAKE, KIND_RELEASE, KIND_EXECUTED };
enum ending { WHOLE, TORN, BAD_KIND, BAD_LENGTH };

/* the record that begins at a place of a log; end: where it ends, or would end if it were whole, as far as that is known */
struct step {
    enum ending ending;
    const struct layout *layout; /* NULL of a bad kind */
    size_t at, end;
};

struct step step_at(struct slice log, size_t at);
struct step last_step(struct slice log, size_t at); /* from `at` on: the first that is not whole; TORN, at the log's end, where all are */

/* the parts of an image or of a checkpoint, by its pairs; good: they stand as the layout says, and end with or within the slice; entry: of its records */
struct parts {
    int good;
    size_t rows_at, rows, entries_at, entries;
    const struct layout *entry;
};

/* the fourth byte of an image and of a checkpoint from before 1.6, and what such an image has at most */
enum { FIRST_IMAGE = 0x31, FIRST_CHECKPOINT = 0x32, FIRST_IMAGE_SIZE = 10544 };

/* places in a checkpoint, and in a state */
enum {
    PLAN_AT = MANTELORRIS_CHECKPOINT_HEAD, POINTS_AT = PLAN_AT + MANTELORRIS_PLAN_SIZE, CLIENTS_AT = POINTS_AT + 16 * MANTELORRIS_POINTS,
    STATE_CLIENTS = 12, STATE_RECORDS = 16, STATE_PLAN = 40, STATE_CLIENTS_AT = 3112, STATE_RECORDS_AT = 3368, STATE_RECORD = 32
};

struct parts image_parts(struct slice image);
struct parts checkpoint_parts(struct slice checkpoint);

/* ---- print.c: every function prints either words or JSON; what the other form does not have, it leaves out */

void print_json(void);                                     /* from here on */
int print_end(void);                                       /* 0: all of it is written */
void words(const char *format, ...);                       /* in words alone */
void object(const char *name);                             /* the rest in JSON alone; a member of a list has no name */
void list(const char *name);
void close_object(void);
void close_list(void);
void number(const char *name, int64_t value);
void text(const char *name, const char *value);
void hex(const char *name, struct slice bytes);

/* a row with its place; of rows of the state, -1; point: the number of a point's row, else -1; name: in JSON, NULL in a list */
void show_row(const char *name, const struct layout *layout, const uint8_t *row, int64_t at, int point);
void show_image(struct slice image, size_t at);
void show_records(struct slice log, size_t end);
void show_checkpoint(struct slice checkpoint);
void show_state(const uint8_t *state);

/* ---- why.c, why_log.c */

/* where a part is refused, and why; of a row, its place and, where one field is out of its range, that field's */
struct fault {
    const char *part;
    size_t at, byte;
    char why[320];
};

void because(struct fault *fault, const char *format, ...);
void because_field(struct fault *fault, const struct layout *layout, const uint8_t *row, size_t at); /* of a row that has a bad field */
uint32_t floor_of(const uint8_t *rows, size_t count, uint32_t client);                                   /* in rows of clients; 0: it has none */
void why_head(struct fault *fault, struct slice log);
void why_image(struct fault *fault, struct slice image, size_t at, const uint8_t *plan);
void why_checkpoint(struct fault *fault, struct slice checkpoint);
void why_records(struct fault *fault, const uint8_t *state, struct slice log); /* state: of the log's head, or of the checkpoint before it */

/* ---- plan.c */

struct slice plan_named(const char *name);
struct slice plan_of_log(struct slice log);
struct slice widest_plan(uint32_t home);
void why_plan_bad(struct fault *fault, struct slice plan);

/* ---- card.c, what.c: 0, or the number of the library's refusal; plan: or NULL */

/* a log, or a checkpoint and its tail; and where they stand in the file */
struct card {
    struct slice checkpoint, log;
    size_t checkpoint_at, log_at;
};

uint32_t show_card(struct card card, const struct slice *plan);
uint32_t show_image_alone(struct slice image, const struct slice *plan);
uint32_t show_packet(struct slice packet);
/* path: of these bytes; tail: of the tail; each or NULL */
uint32_t show_bytes(struct slice bytes, const char *path, const char *tail, const struct slice *plan);

/* ---- files.c: on a failure they say so and end the program with status 2 */

struct slice read_file(const char *path, size_t device_part); /* of a device its front alone */
_Noreturn void fail(const char *format, ...);

/* ---- raw.c */

enum { RAW_SIZE = 8422400 };

struct raw {
    int good[2]; /* superblocks */
    uint64_t sequence[2];
    int counts; /* the one that counts; -1: neither */
    uint32_t slot;
    size_t checkpoint_at, log_at; /* in the card */
    struct slice checkpoint, log;
};

struct raw settled_raw(const char *path, struct slice card); /* path: of the card, or NULL */

#endif
