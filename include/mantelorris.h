/* The server (paper: cabinet), from libmantelorris.a. C11, and C++.
 *
 * Memory. A slice is a pointer and its length. Every slice is the host's; it is lent for one call, and the library keeps nothing of it.
 * The library allocates nothing and has no variables of its own. The slices of one call must not overlap (an image to take, for
 * example, must not lie in the log). A slice of length 0 may have a null pointer. One server's calls come one after another.
 *     state   at least MANTELORRIS_STATE_SIZE bytes, in memory; only the calls below change it. Its layout is that of docs/STATE.md
 *     log     the whole space for the log; the first mantelorris_length(state) bytes of it are the log, calls append behind them, and no
 *             call changes a byte of the log once written
 *     plan    MANTELORRIS_PLAN_SIZE bytes, the same for all servers and at each recovery
 *     out     at least 20 bytes (request, fetch), 8 (receipt), 12,592 (image); bytes past what is written are kept
 *     checkpoint, tail   of checkpoint: at least MANTELORRIS_CHECKPOINT_SIZE and MANTELORRIS_LOG_HEAD bytes; bytes past what is written are kept
 *
 * Answer. mantelorris_number(answer) is 0 or the refusal's number, mantelorris_written(answer) the number of bytes written to out, 0 where
 * there are none. A refused call leaves all lent memory as it was, but for the refusal packet of a request (numbers 3 to 9).
 *
 * Request. Number 0 and nothing written: the command is executed, and its record stands in the log. There is no packet to send yet: send a
 * result once its record is synced. The client repeats its request for that, or the host calls fetch after the sync and sends what it
 * gives. Number 0 and 20 bytes: the result packet; send it. A number from 3 to 9: 12 bytes, the refusal packet; send it. No number says that
 * the command was not executed: it may have been, by an earlier packet or at another server.
 *
 * Time. A result has the time of its execution: the heard time of the server that carried the command out, as it was then. It goes with the result
 * wherever that goes, and a repeat has the same one. Since 1.6; a record, image or checkpoint from before has none, and its results have time 0.
 *
 * Sync. Write the log's bytes from mantelorris_mark(state) to mantelorris_length(state) to the card; when the card has them for certain, call
 * sync with the length up to which it has them. Results, images and receipts are given for what is synced, and for nothing else (7). One
 * sync may cover many requests.
 *
 * Crash. The state is lost. The card must keep a prefix of the log, with any length from the mark to the length. Call recover with these bytes
 * as the log slice, exactly these: bytes behind them would be read as records. The next calls are lent the whole space again, which
 * begins with the same bytes. An incomplete last record is dropped; mantelorris_length(state) is the log's length then, and all of it
 * counts as synced. Until recover has answered 0, call nothing else; after a refusal call it again.
 * Both recoveries take the server's number from the card and compare it with nothing: all servers have one plan, so the card of another one is as good.
 * Compare mantelorris_server(state) with the number of this cabinet before anything else is done, and do not serve where they differ. Nor do they tell another
 * plan: a log that fits the given plan is taken, and with a checkpoint the plan is the card's. Compare mantelorris_plan(state) with this cabinet's too.
 * Recover without a crash (another program takes over) is lent the log up to its recorded length, which the card must have.
 *
 * Log end. Recover walks the log twice: it finds the ends of all records, then it replays them. mantelorris_log_end is the first walk by itself, on
 * a log alone, without a state and without a plan: the end of the last whole record, which is the length that recover will record; or
 * MANTELORRIS_BAD_LOG where the head, a record's kind or an image's length is off its layout, which recover refuses too. It looks at nothing else in a
 * record, so recover may still refuse a log that has an end.
 *
 * Checkpoint. A log that is never cut fills its card. mantelorris_checkpoint writes what the state holds as a checkpoint, at most
 * MANTELORRIS_CHECKPOINT_LONGEST bytes (mantelorris_written(answer) of them), and the head of a new log, its tail; length and mark become 8. All of
 * the log must be synced (7). The order of work of the host:
 *     1. checkpoint; the old log and the checkpoint stored before, if there is one, stay in force
 *     2. store the checkpoint and the tail's 8 bytes so that the card has both or neither (write a new file, sync it, rename it; or two slots and
 *        a superblock that says which of them counts, and both lengths: docs/GUIDE.md, The card)
 *     3. only then drop the old log, and go on: the log slice of every later call begins with the tail's head
 * Between 1 and 3 call nothing else of this server. If storing fails, or the power does, what was in force is still: recover from that. examples/card.c
 * does it in one file.
 *
 * Recovery with a checkpoint. mantelorris_recover_checkpoint gets the last stored checkpoint, whole (bytes behind it are not read), and what the card
 * kept of its own tail, at least the head and the synced part; it takes the plan from the checkpoint. Never call mantelorris_recover once a checkpoint is
 * stored: a tail begins like any log, recover cannot tell it from a whole one, and would give the state of a server that has forgotten all that was
 * before it.
 *
 * Inspect. mantelorris_inspect tells where the bytes of a completion record lie: in the tail (an executed record, or an entry of the image in a take
 * record) or in the checkpoint (an entry); the latest, if there are several. Before the first checkpoint that slice is empty, and the tail is the log. It
 * shows what is not synced too.
 *
 * Moving a point. Giver: give, sync, image. Taker: take (the image), sync, receipt. Giver: release (the receipt). Images and receipts may be
 * lost, late or repeated: make them again as often as is needed. Until release the giver keeps the point's completion records.
 *
 * What the host owes, for the promise that each command is carried out once (docs/SAFETY.md): every server has its own number and is founded
 * once; all have one plan; a card keeps what was synced; packets and images are those that servers, clients and the lease manager made, whole
 * or not at all (add a checksum where the line needs one); each grant of a new client number starts one client, once. */
#ifndef MANTELORRIS_H
#define MANTELORRIS_H

#include <stddef.h>
#include <stdint.h>

/* 32 bits, or the greatest byte of a number first, is another library than this one (docs/GUIDE.md, 64-bit Arm) */
#if defined(__SIZEOF_SIZE_T__) && defined(__BYTE_ORDER__)
#if __SIZEOF_SIZE_T__ != 8 || __BYTE_ORDER__ != __ORDER_LITTLE_ENDIAN__
#error "mantelorris is for x86-64 and for 64-bit Arm, little-endian"
#endif
#endif

#ifdef __cplusplus
extern "C" {
#endif

/* The version of this header and, by mantelorris_version(), of the library: major * 65,536 + minor. The major number changes with a layout that
 * an older program would misread (packets, images, log, state); the minor one with what is added. Compare the two at start and do not serve where they
 * differ: a struct that a call gives may be longer in one than in the other. */
#define MANTELORRIS_VERSION_MAJOR 1
#define MANTELORRIS_VERSION_MINOR 7
#define MANTELORRIS_VERSION ((uint32_t)MANTELORRIS_VERSION_MAJOR << 16 | MANTELORRIS_VERSION_MINOR)

/* least lengths of slices; a plan has exactly its length */
#define MANTELORRIS_STATE_SIZE 32768
#define MANTELORRIS_PLAN_SIZE 1024
#define MANTELORRIS_REPLY_SIZE 20 /* out of request and fetch */
#define MANTELORRIS_RECEIPT_SIZE 8
#define MANTELORRIS_IMAGE_SIZE 12592
#define MANTELORRIS_CHECKPOINT_SIZE 32768
#define MANTELORRIS_CHECKPOINT_LONGEST 14636 /* what a checkpoint has at most */

/* log space: the head, and a record of each kind that is written; a take has its image behind the 8 bytes */
#define MANTELORRIS_LOG_HEAD 8
#define MANTELORRIS_LOG_EXECUTED 32
#define MANTELORRIS_LOG_GONE 12
#define MANTELORRIS_LOG_GIVE 8
#define MANTELORRIS_LOG_TAKE 8
#define MANTELORRIS_LOG_RELEASE 8

/* points are 0 to 63, servers 0 to 15 */
#define MANTELORRIS_POINTS 64
#define MANTELORRIS_SERVERS 16

/* ops of a command, with the argument that each takes */
enum mantelorris_op {
    MANTELORRIS_READ = 0,   /* 0: gives value and quality, changes nothing */
    MANTELORRIS_SET = 1,    /* the new value, by hand */
    MANTELORRIS_STEP = 2,   /* added to the value, where that is not invalid; stops at the ends of the range, and leaves the quality */
    MANTELORRIS_REPORT = 3, /* a measured value: valid; one outside the range makes the point invalid */
    MANTELORRIS_FAULT = 4,  /* 0: the point gets its fallback and is invalid */
    MANTELORRIS_PART = 5    /* 0 to 1000: thousandths of the way from low to high, to the nearest unit, a half to the even quotient; by hand */
};

/* outcomes of a command that was carried out */
enum mantelorris_outcome {
    MANTELORRIS_OUTCOME_DONE = 0,         /* as asked */
    MANTELORRIS_OUTCOME_OUT_OF_RANGE = 1, /* set out of the point's range: nothing changed (of a version before 1.1: step too) */
    MANTELORRIS_OUTCOME_INVALID = 2,      /* step on an invalid value: nothing changed */
    MANTELORRIS_OUTCOME_FALLBACK = 3,     /* report out of range, or fault: value = fallback, invalid */
    MANTELORRIS_OUTCOME_STOPPED = 4       /* step past an end of the range: value = that end, the quality as it was */
};

/* What a value is worth. By hand since 1.7; results, points and logs from before have 0 where a value was set. A value by hand is one to go by: ask for
 * MANTELORRIS_INVALID, never for "not 0" */
enum mantelorris_quality {
    MANTELORRIS_VALID = 0,   /* reported, in range */
    MANTELORRIS_INVALID = 1, /* the fallback: newly founded, a fault, or reported out of range */
    MANTELORRIS_BY_HAND = 2  /* entered by set or part, and stepped from there */
};

/* where a point stands at a server */
enum mantelorris_status { MANTELORRIS_ABSENT = 0, MANTELORRIS_HELD = 1, MANTELORRIS_GIVEN = 2, MANTELORRIS_RELEASED = 3 };

/* the first byte of a packet; an image's is 4D hexadecimal */
enum mantelorris_kind {
    MANTELORRIS_KIND_REQUEST = 1,      /* 24 bytes, from a client */
    MANTELORRIS_KIND_FIRST_RESULT = 2, /* 16 bytes, from a server before 1.6: a result without a time. Read, and not made any more */
    MANTELORRIS_KIND_REFUSAL = 3,      /* 12 bytes, from a server */
    MANTELORRIS_KIND_RECEIPT = 4,      /* 8 bytes, from a server that took a point */
    MANTELORRIS_KIND_NOTICE = 5,       /* 12 bytes, from the lease manager: a lease has ended */
    MANTELORRIS_KIND_GRANT = 6,        /* 12 bytes, from the lease manager: a lease runs */
    MANTELORRIS_KIND_RESULT = 7        /* 20 bytes, from a server: a result with its time of execution */
};

/* Refusals, by number, each with its line here and the answer of mantelorris_refusal_name. No refusal says that a command was not carried out. */
#define MANTELORRIS_REFUSALS(X) \
    X(MALFORMED, 1, "malformed")                 /* a packet, plan or number off its layout or range */ \
    X(TOO_SHORT, 2, "too short")                 /* a lent slice is shorter than the call needs */ \
    X(NOT_HELD, 3, "not held")                   /* the point is not held here; not given, or released; never taken */ \
    X(LEASE_ENDED, 4, "lease ended")             /* the lease end is at or under heard time */ \
    X(UNDER_FLOOR, 5, "under the floor")         /* the call is under its client's floor: finished long ago */ \
    X(OTHER_COMMAND, 6, "other command")         /* this client and call stand for another op, point or argument */ \
    X(NOT_SYNCED, 7, "not synced")               /* executed, given or taken, and not synced yet: ask again */ \
    X(CLIENTS_FULL, 8, "clients full")           /* 32 clients are known, this one would be more */ \
    X(LOG_FULL, 9, "log full")                   /* the log lacks space for the record */ \
    X(BAD_MARK, 10, "bad mark")                  /* a mark below the present one or above the log's length */ \
    X(BAD_DESTINATION, 11, "bad destination")    /* give to this server; an image for another one */ \
    X(OLD_MOVE, 12, "old move")                  /* an image's move is not above the own one; a receipt's is below the given one */ \
    X(HELD_HERE, 13, "held here")                /* take of a point that is held here, or of an id held for another point */ \
    X(BAD_LOG, 14, "bad log")                    /* a log or checkpoint breaks a layout; a record cannot follow; they are of two servers */ \
    X(WINDOW_FULL, 15, "window full")            /* client: sixteen numbers from its first open call are used */ \
    X(NUMBER_SPENT, 16, "number spent")          /* a move, call, client or time number is at its greatest */ \
    X(UNKNOWN, 17, "unknown")                    /* no such call, client or lease */ \
    X(LEASES_FULL, 18, "leases full")            /* lease manager: 32 leases run */ \
    X(NOT_SOUND, 19, "not sound")                /* the state is not sound, or the log slice is shorter than its recorded length */ \
    X(NOT_SAFE, 20, "not safe")                  /* lock chamber controller: the reads do not allow to open the gate */

enum mantelorris_refusal {
    MANTELORRIS_OK = 0,
#define MANTELORRIS_NUMBERED(name, number, text) MANTELORRIS_##name = number,
    MANTELORRIS_REFUSALS(MANTELORRIS_NUMBERED)
#undef MANTELORRIS_NUMBERED
};

/* a refusal's name; "ok" for 0 */
static inline const char *mantelorris_refusal_name(uint32_t number) {
    switch (number) {
    case MANTELORRIS_OK: return "ok";
#define MANTELORRIS_NAMED(name, number, text) case number: return text;
    MANTELORRIS_REFUSALS(MANTELORRIS_NAMED)
#undef MANTELORRIS_NAMED
    default: return "no refusal of this version";
    }
}

/* the library's version, as MANTELORRIS_VERSION */
uint32_t mantelorris_version(void);

/* founds the server with this number: writes the log's head; the mark is 8, so write the head to the card first of all */
uint64_t mantelorris_found(uint8_t *state, size_t state_length, uint8_t *log, size_t log_length, const uint8_t *plan, size_t plan_length,
                           uint32_t server);
/* a request packet of a client */
uint64_t mantelorris_request(uint8_t *state, size_t state_length, uint8_t *log, size_t log_length, const uint8_t *packet,
                             size_t packet_length, uint8_t *out, size_t out_length);
/* the result packet of a command that was executed */
uint64_t mantelorris_fetch(const uint8_t *state, size_t state_length, const uint8_t *log, size_t log_length, uint32_t client, uint32_t call,
                           uint8_t *out, size_t out_length);
/* the card has the log up to mark */
uint64_t mantelorris_sync(uint8_t *state, size_t state_length, const uint8_t *log, size_t log_length, uint64_t mark);
/* a notice of the lease manager: the client's lease has ended, its place is freed */
uint64_t mantelorris_notice(uint8_t *state, size_t state_length, uint8_t *log, size_t log_length, const uint8_t *packet,
                            size_t packet_length);
/* closes the point here and gives it to server destination */
uint64_t mantelorris_give(uint8_t *state, size_t state_length, uint8_t *log, size_t log_length, uint32_t point, uint32_t destination);
/* the image of a point given */
uint64_t mantelorris_image(const uint8_t *state, size_t state_length, const uint8_t *log, size_t log_length, uint32_t point, uint8_t *out,
                           size_t out_length);
/* takes the point of an image */
uint64_t mantelorris_take(uint8_t *state, size_t state_length, uint8_t *log, size_t log_length, const uint8_t *image, size_t image_length);
/* the receipt packet of the latest take of a point */
uint64_t mantelorris_receipt(const uint8_t *state, size_t state_length, const uint8_t *log, size_t log_length, uint32_t point, uint8_t *out,
                             size_t out_length);
/* a receipt packet: drops the completion records of the point given */
uint64_t mantelorris_release(uint8_t *state, size_t state_length, uint8_t *log, size_t log_length, const uint8_t *packet,
                             size_t packet_length);
/* the state of a kept log; the log slice is exactly what was kept */
uint64_t mantelorris_recover(uint8_t *state, size_t state_length, const uint8_t *log, size_t log_length, const uint8_t *plan,
                             size_t plan_length);

/* a checkpoint of the state, and the head of its tail; the log is lent to be measured */
uint64_t mantelorris_checkpoint(uint8_t *state, size_t state_length, const uint8_t *log, size_t log_length, uint8_t *checkpoint,
                                size_t checkpoint_length, uint8_t *tail, size_t tail_length);
/* the state of a stored checkpoint and of what was kept of its tail; the tail slice is exactly that */
uint64_t mantelorris_recover_checkpoint(uint8_t *state, size_t state_length, const uint8_t *checkpoint, size_t checkpoint_length,
                                        const uint8_t *tail, size_t tail_length);

/* number is MANTELORRIS_OK or MANTELORRIS_BAD_LOG; end is 8 or more, 0 where refused */
struct mantelorris_log_end_reply {
    uint32_t number;
    uint64_t end;
};

/* the layouts that the library has */
#if defined(__cplusplus)
#define MANTELORRIS_HOLDS(test, text) static_assert(test, text)
#else
#define MANTELORRIS_HOLDS(test, text) _Static_assert(test, text)
#endif
#define MANTELORRIS_HAS_SIZE(type, size) MANTELORRIS_HOLDS(sizeof(type) == (size), #type)
#define MANTELORRIS_HAS_OFFSET(type, field, offset) MANTELORRIS_HOLDS(offsetof(type, field) == (offset), #type ": " #field)
MANTELORRIS_HAS_SIZE(struct mantelorris_log_end_reply, 16);
MANTELORRIS_HAS_OFFSET(struct mantelorris_log_end_reply, end, 8);

/* the end of a log's last whole record; the log slice is exactly what was kept */
struct mantelorris_log_end_reply mantelorris_log_end(const uint8_t *log, size_t log_length);

/* what holds a completion record's bytes: a log record (32 bytes, kind 6), an entry of an image in a log record (24), an entry of the checkpoint (24). One
 * from before 1.6 has no time: 28 bytes (kind 1), 20, 20 */
enum mantelorris_source { MANTELORRIS_IN_RECORD = 1, MANTELORRIS_IN_IMAGE = 2, MANTELORRIS_IN_CHECKPOINT = 3 };

/* number is MANTELORRIS_OK or the refusal's number; source and the bytes from start to end of the tail (1, 2) or of the checkpoint (3) are 0 where refused */
struct mantelorris_place {
    uint32_t number;
    uint32_t source;
    size_t start;
    size_t end;
};

MANTELORRIS_HAS_SIZE(struct mantelorris_place, 24);
MANTELORRIS_HAS_OFFSET(struct mantelorris_place, source, 4);
MANTELORRIS_HAS_OFFSET(struct mantelorris_place, start, 8);
MANTELORRIS_HAS_OFFSET(struct mantelorris_place, end, 16);

/* where the completion record of client and call lies; tail is the log that the state records */
struct mantelorris_place mantelorris_inspect(const uint8_t *state, size_t state_length, const uint8_t *checkpoint, size_t checkpoint_length,
                                             const uint8_t *tail, size_t tail_length, uint32_t client, uint32_t call);
/* its first byte; a null pointer where refused. It has place.end - place.start bytes */
static inline const uint8_t *mantelorris_shown(struct mantelorris_place place, const uint8_t *checkpoint, const uint8_t *tail) {
    if (place.number) return 0;
    return (place.source == MANTELORRIS_IN_CHECKPOINT ? checkpoint : tail) + place.start;
}

/* ---- what an answer says */

static inline uint32_t mantelorris_number(uint64_t answer) {
    return (uint32_t)answer;
}

static inline uint32_t mantelorris_written(uint64_t answer) {
    return (uint32_t)(answer >> 32);
}

/* ---- numbers in bytes, the least byte first */

static inline uint32_t mantelorris_number_at(const uint8_t *bytes, size_t at) {
    return bytes[at] | (uint32_t)bytes[at + 1] << 8 | (uint32_t)bytes[at + 2] << 16 | (uint32_t)bytes[at + 3] << 24;
}

static inline uint64_t mantelorris_word_at(const uint8_t *bytes, size_t at) {
    return mantelorris_number_at(bytes, at) | (uint64_t)mantelorris_number_at(bytes, at + 4) << 32;
}

static inline void mantelorris_put_number(uint8_t *bytes, size_t at, uint32_t number) {
    for (size_t i = 0; i < 4; i++) bytes[at + i] = (uint8_t)(number >> 8 * i);
}

/* ---- what a state says (docs/STATE.md), after a call on it that answered 0: the server's number, heard time (the greatest of its notices and images), the
 * recorded length of the log, and the sync mark */

static inline uint32_t mantelorris_server(const uint8_t *state) {
    return state[4];
}

static inline uint32_t mantelorris_heard(const uint8_t *state) {
    return mantelorris_number_at(state, 8);
}

static inline uint64_t mantelorris_length(const uint8_t *state) {
    return mantelorris_word_at(state, 24);
}

static inline uint64_t mantelorris_mark(const uint8_t *state) {
    return mantelorris_word_at(state, 32);
}

/* the plan that the state has, MANTELORRIS_PLAN_SIZE bytes: the one that was given, or the checkpoint's */
static inline const uint8_t *mantelorris_plan(const uint8_t *state) {
    return state + 40;
}

/* ---- the clients that a state knows, at most MANTELORRIS_CLIENTS, by ascending number: how many there are, and of each (from 0) its number and its floor. After refusal 8 ask
 * the lease manager for each of them */

#define MANTELORRIS_CLIENTS 32

static inline uint32_t mantelorris_clients(const uint8_t *state) {
    return mantelorris_number_at(state, 12);
}

static inline uint32_t mantelorris_client_number(const uint8_t *state, uint32_t index) {
    return mantelorris_number_at(state, 3112 + 8 * (size_t)(index % MANTELORRIS_CLIENTS));
}

static inline uint32_t mantelorris_client_floor(const uint8_t *state, uint32_t index) {
    return mantelorris_number_at(state, 3116 + 8 * (size_t)(index % MANTELORRIS_CLIENTS));
}

/* ---- a point in the state, after a call that answered 0. Drive a gate from its value, and only once the log is synced */

static inline size_t mantelorris_point_at(uint32_t point) {
    return 1064 + 32 * (size_t)(point % MANTELORRIS_POINTS);
}

static inline uint32_t mantelorris_status(const uint8_t *state, uint32_t point) {
    return state[mantelorris_point_at(point)];
}

static inline uint32_t mantelorris_quality(const uint8_t *state, uint32_t point) {
    return state[mantelorris_point_at(point) + 1];
}

/* where the point was given to; 0 where the status is neither MANTELORRIS_GIVEN nor MANTELORRIS_RELEASED */
static inline uint32_t mantelorris_destination(const uint8_t *state, uint32_t point) {
    return state[mantelorris_point_at(point) + 2];
}

static inline int32_t mantelorris_value(const uint8_t *state, uint32_t point) {
    return (int32_t)mantelorris_number_at(state, mantelorris_point_at(point) + 4);
}

static inline uint32_t mantelorris_move(const uint8_t *state, uint32_t point) {
    return mantelorris_number_at(state, mantelorris_point_at(point) + 8);
}

/* ---- the plan: write the row of each of the 64 points, then ask which row is bad */

#define MANTELORRIS_PLAN_ROW 16

/* the row of this point in a plan of MANTELORRIS_PLAN_SIZE bytes, as given, good or not; of a point above 63 nothing is written */
static inline void mantelorris_plan_row(uint8_t *plan, uint32_t point, int32_t low, int32_t high, int32_t fallback, uint32_t home) {
    size_t at = MANTELORRIS_PLAN_ROW * (size_t)point;
    if (point >= MANTELORRIS_POINTS) return;
    mantelorris_put_number(plan, at, (uint32_t)low);
    mantelorris_put_number(plan, at + 4, (uint32_t)high);
    mantelorris_put_number(plan, at + 8, (uint32_t)fallback);
    mantelorris_put_number(plan, at + 12, home);
}

/* the point of the first row that found and recover refuse with 1, MANTELORRIS_POINTS where there is none: low <= fallback <= high, and the home is a server */
static inline uint32_t mantelorris_plan_bad_row(const uint8_t *plan) {
    for (uint32_t point = 0; point < MANTELORRIS_POINTS; point++) {
        size_t at = MANTELORRIS_PLAN_ROW * (size_t)point;
        int32_t low = (int32_t)mantelorris_number_at(plan, at), high = (int32_t)mantelorris_number_at(plan, at + 4);
        int32_t fallback = (int32_t)mantelorris_number_at(plan, at + 8);
        if (fallback < low || high < fallback || mantelorris_number_at(plan, at + 12) >= MANTELORRIS_SERVERS) return point;
    }
    return MANTELORRIS_POINTS;
}

/* ---- what bytes are, by the first four: of a card the log or a checkpoint, of what came over the line an image. Recovery and take tell whether they are
 * good ones */

static inline int mantelorris_begins(const uint8_t *bytes, size_t length, uint32_t magic) {
    return length >= 4 && mantelorris_number_at(bytes, 0) == magic;
}

/* 57 4C 47 31: a log, or the tail of a checkpoint */
static inline int mantelorris_is_log(const uint8_t *bytes, size_t length) {
    return mantelorris_begins(bytes, length, 0x31474C57);
}

/* 57 4C 47 33, or 32 before 1.6 */
static inline int mantelorris_is_checkpoint(const uint8_t *bytes, size_t length) {
    return mantelorris_begins(bytes, length, 0x33474C57) || mantelorris_begins(bytes, length, 0x32474C57);
}

/* 4D 56 49 32, or 31 before 1.6 */
static inline int mantelorris_is_image(const uint8_t *bytes, size_t length) {
    return mantelorris_begins(bytes, length, 0x3249564D) || mantelorris_begins(bytes, length, 0x3149564D);
}

#define MANTELORRIS_CHECKPOINT_HEAD 44

/* the length of the checkpoint that begins here, by its head alone: lend the first MANTELORRIS_CHECKPOINT_HEAD bytes or more. 0: no checkpoint begins here, or its
 * head is damaged */
static inline size_t mantelorris_checkpoint_length(const uint8_t *bytes, size_t length) {
    if (length < MANTELORRIS_CHECKPOINT_HEAD || !mantelorris_is_checkpoint(bytes, length)) return 0;
    uint32_t clients = mantelorris_number_at(bytes, 32), records = mantelorris_number_at(bytes, 40), row = bytes[3] == 0x33 ? 24 : 20;
    if (mantelorris_number_at(bytes, 12) != MANTELORRIS_CHECKPOINT_HEAD || mantelorris_number_at(bytes, 16) != 1024) return 0;
    if (mantelorris_number_at(bytes, 20) != 1068 || mantelorris_number_at(bytes, 24) != 1024) return 0;
    if (mantelorris_number_at(bytes, 28) != 2092 || clients % 8 || clients > 8 * 32) return 0;
    if (mantelorris_number_at(bytes, 36) != 2092 + clients || records % row || records > row * 512) return 0;
    return 2092 + (size_t)clients + records;
}

/* ---- what an image says of itself, of MANTELORRIS_IMAGE_LEAST bytes or more that mantelorris_is_image tells: where to send it on after refusal 11, say */

#define MANTELORRIS_IMAGE_LEAST 48

static inline uint32_t mantelorris_image_point(const uint8_t *image) {
    return image[4];
}

static inline uint32_t mantelorris_image_destination(const uint8_t *image) {
    return image[5];
}

static inline uint32_t mantelorris_image_source(const uint8_t *image) {
    return image[6];
}

static inline uint32_t mantelorris_image_move(const uint8_t *image) {
    return mantelorris_number_at(image, 8);
}

/* ---- of a packet that a call has accepted or made: the client, of all but a receipt; the call, of a request, result or refusal; the time, of a notice, and the lease end, of a grant */

static inline uint32_t mantelorris_packet_client(const uint8_t *packet) {
    return mantelorris_number_at(packet, 4);
}

static inline uint32_t mantelorris_packet_call(const uint8_t *packet) {
    return mantelorris_number_at(packet, 8);
}

static inline uint32_t mantelorris_packet_time(const uint8_t *packet) {
    return mantelorris_number_at(packet, 8);
}

/* of a result packet its time of execution, 0 where it has none */
static inline uint32_t mantelorris_result_time(const uint8_t *packet) {
    return packet[0] == MANTELORRIS_KIND_RESULT ? mantelorris_number_at(packet, 16) : 0;
}

/* ---- names, to print; of what this version does not have: "unknown op" and so on */

static inline const char *mantelorris_op_name(uint32_t op) {
    switch (op) {
    case MANTELORRIS_READ: return "read";
    case MANTELORRIS_SET: return "set";
    case MANTELORRIS_STEP: return "step";
    case MANTELORRIS_REPORT: return "report";
    case MANTELORRIS_FAULT: return "fault";
    case MANTELORRIS_PART: return "part";
    default: return "unknown op";
    }
}

static inline const char *mantelorris_outcome_name(uint32_t outcome) {
    switch (outcome) {
    case MANTELORRIS_OUTCOME_DONE: return "done";
    case MANTELORRIS_OUTCOME_OUT_OF_RANGE: return "out of range";
    case MANTELORRIS_OUTCOME_INVALID: return "invalid";
    case MANTELORRIS_OUTCOME_FALLBACK: return "fallback";
    case MANTELORRIS_OUTCOME_STOPPED: return "stopped";
    default: return "unknown outcome";
    }
}

static inline const char *mantelorris_quality_name(uint32_t quality) {
    switch (quality) {
    case MANTELORRIS_VALID: return "valid";
    case MANTELORRIS_INVALID: return "invalid";
    case MANTELORRIS_BY_HAND: return "by hand";
    default: return "unknown quality";
    }
}

static inline const char *mantelorris_status_name(uint32_t status) {
    switch (status) {
    case MANTELORRIS_ABSENT: return "absent";
    case MANTELORRIS_HELD: return "held";
    case MANTELORRIS_GIVEN: return "given";
    case MANTELORRIS_RELEASED: return "released";
    default: return "unknown status";
    }
}

#ifdef __cplusplus
}
#endif

#endif
