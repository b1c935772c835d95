/* The lock chamber controller, from libmantelorris.a: a client (paper: desk) that drives the two gates of a lock. C11, and C++.
 *
 * Five points. upper and lower are the gates, 0 is closed. level1 lies above the upper gate, level2 in the chamber, level3 below the lower gate: the
 * upper gate adjoins levels 1 and 2, the lower gate levels 2 and 3.
 *
 * What it is for. Of the two gates at most one is ever away from 0, provided that only controllers command the gates, that both gates' fallback is 0 in the
 * plan, and that a new controller is started only once the one before is fenced off (docs/GUIDE.md).
 *
 * Commands. Read any of the five; set or part (MANTELORRIS_PART) a gate. One command is open at a time: send its packet, and again
 * (mantelorris_chamber_resend) until its result comes; then the next one. Only a result ends a command, a refusal packet does not.
 *
 * Opening. Any set or part of a gate is an opening, part 0 too; set 0 is none and needs no reads. Before an opening, and since the
 * last set or part that was issued, on either gate, read
 *     1. the other gate: 0, valid or by hand
 *     2. after it the two levels that adjoin the gate to open, in any order: both valid, at most 5 apart. A level by hand (set by a fitter) keeps the gates
 *        shut, 20: report it
 * Of each point the latest read counts; so a gate that is read again asks for its levels again. An example for the upper gate: set lower to 0, read lower,
 * read level1, read level2, set upper.
 *
 * Values. The controller is given and returned by value: keep the one that a call returns, in place of the one that it was given. Its fields are
 * the library's: keep them, read them, do not change them. Copy it whole; compare field by field, since bytes between fields may hold anything. There is one
 * current value; an older one must not be used again. A refused call returns the controller as it was given. mantelorris_lock_issue, _resend and _receive
 * take it by pointer and put the new one there.
 *
 * number is MANTELORRIS_OK or one of these:
 *     1   MALFORMED     start: a point over 63, two equal points, or not a grant. issue: no such command, a point that is none of the five, another op
 *                       on a gate than read, set, part, or another on a level than read. receive: no well-formed result, refusal or grant
 *     15  WINDOW_FULL   issue: a command is open, its result has not come
 *     20  NOT_SAFE      issue: an opening, and the reads that it needs are missing, too old, or do not allow it
 *     16  NUMBER_SPENT  issue: the last call number is used; start a new controller
 *     17  UNKNOWN       resend: this call is not open. receive: not for this client and its open command, or a lease end that falls
 * Where several hold, issue gives the first in this order. A byte slice is a pointer and its length. */
#ifndef MANTELORRIS_CHAMBER_H
#define MANTELORRIS_CHAMBER_H

#include "mantelorris_client.h"

#ifdef __cplusplus
extern "C" {
#endif

/* levels at most this far apart count as level */
#define MANTELORRIS_LEVEL_STEP 5

struct mantelorris_lock_points {
    uint8_t upper;
    uint8_t lower;
    uint8_t level1;
    uint8_t level2;
    uint8_t level3;
};

/* a point's latest read that has its result; call 0: none yet. value is the point's value + 2^31, as the argument of an open call is the command's + 2^31 */
struct mantelorris_latest_read {
    uint32_t call;
    uint32_t value;
    uint8_t quality;
};

/* moved: the call of the last set or part that was issued, 0: none. reads: in the order of the five points */
struct mantelorris_chamber {
    struct mantelorris_client client;
    struct mantelorris_lock_points points;
    uint32_t moved;
    struct mantelorris_latest_read reads[5];
};

struct mantelorris_chamber_start_reply {
    struct mantelorris_chamber chamber;
    uint32_t number;
};

struct mantelorris_chamber_send_reply {
    struct mantelorris_chamber chamber;
    struct mantelorris_send_reply reply;
};

struct mantelorris_chamber_receive_reply {
    struct mantelorris_chamber chamber;
    struct mantelorris_receive_reply reply;
};

/* packet: the grant of a new client number; start one controller with it, once */
struct mantelorris_chamber_start_reply mantelorris_chamber_start(const uint8_t *packet, size_t length, uint32_t upper, uint32_t lower,
                                                                 uint32_t level1, uint32_t level2, uint32_t level3);
struct mantelorris_chamber_send_reply mantelorris_chamber_issue(struct mantelorris_chamber chamber, uint32_t op, uint32_t point, int32_t argument);
struct mantelorris_chamber_send_reply mantelorris_chamber_resend(struct mantelorris_chamber chamber, uint32_t call);
struct mantelorris_chamber_receive_reply mantelorris_chamber_receive(struct mantelorris_chamber chamber, const uint8_t *packet, size_t length);

/* ---- the same three with the controller in its place: it becomes the one that the call returns, so that no older one is left */

static inline struct mantelorris_send_reply mantelorris_lock_issue(struct mantelorris_chamber *lock, uint32_t op, uint32_t point, int32_t argument) {
    struct mantelorris_chamber_send_reply s = mantelorris_chamber_issue(*lock, op, point, argument);
    *lock = s.chamber;
    return s.reply;
}

static inline struct mantelorris_send_reply mantelorris_lock_resend(struct mantelorris_chamber *lock, uint32_t call) {
    struct mantelorris_chamber_send_reply s = mantelorris_chamber_resend(*lock, call);
    *lock = s.chamber;
    return s.reply;
}

static inline struct mantelorris_receive_reply mantelorris_lock_receive(struct mantelorris_chamber *lock, const uint8_t *packet, size_t length) {
    struct mantelorris_chamber_receive_reply r = mantelorris_chamber_receive(*lock, packet, length);
    *lock = r.chamber;
    return r.reply;
}

/* the layouts that the library has */
MANTELORRIS_HAS_SIZE(struct mantelorris_lock_points, 5);
MANTELORRIS_HAS_SIZE(struct mantelorris_latest_read, 12);
MANTELORRIS_HAS_OFFSET(struct mantelorris_latest_read, quality, 8);
MANTELORRIS_HAS_SIZE(struct mantelorris_chamber, 276);
MANTELORRIS_HAS_OFFSET(struct mantelorris_chamber, points, 204);
MANTELORRIS_HAS_OFFSET(struct mantelorris_chamber, moved, 212);
MANTELORRIS_HAS_OFFSET(struct mantelorris_chamber, reads, 216);
MANTELORRIS_HAS_SIZE(struct mantelorris_chamber_start_reply, 280);
MANTELORRIS_HAS_OFFSET(struct mantelorris_chamber_start_reply, number, 276);
MANTELORRIS_HAS_SIZE(struct mantelorris_chamber_send_reply, 312);
MANTELORRIS_HAS_OFFSET(struct mantelorris_chamber_send_reply, reply, 276);
MANTELORRIS_HAS_SIZE(struct mantelorris_chamber_receive_reply, 304);
MANTELORRIS_HAS_OFFSET(struct mantelorris_chamber_receive_reply, reply, 276);

#ifdef __cplusplus
}
#endif

#endif
