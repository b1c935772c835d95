/* The raw card of examples/card_raw.c: two superblocks of which the later good one counts, two slots, each with room for a checkpoint and a log. */
#include "reader.h"
#include <stdlib.h>
#include <string.h>

enum {
    SECTOR = 512,
    COPY = 4096,
    CHECKPOINT_AREA = 29 * SECTOR,
    LOG_AREA = (1 << 22) - 4 * SECTOR,
    SLOT = CHECKPOINT_AREA + LOG_AREA,
    FIRST_SLOTS = 2, LESS = 4 * SECTOR, /* slots 0 and 1 are those of a card from before 1.6 */
    SEQUENCE = 0, IN_FORCE = 8, CHECKPOINT = 12, LOG = 16, LAST = 20, CHECK = LAST + SECTOR,
    TRIES = 100
};

_Static_assert(RAW_SIZE == 2 * COPY + 2 * SLOT, "the size of a raw card");

static uint32_t checksum(const uint8_t *bytes, size_t count) {
    uint32_t sum = ~0u;
    for (size_t i = 0; i < count; i++) {
        sum ^= bytes[i];
        for (int bit = 0; bit < 8; bit++) sum = sum >> 1 ^ (sum & 1 ? 0xEDB88320u : 0);
    }
    return ~sum;
}

static int good(const uint8_t *super) {
    return checksum(super, CHECK) == mantelorris_number_at(super, CHECK) && mantelorris_number_at(super, IN_FORCE) < 2 * FIRST_SLOTS &&
           mantelorris_number_at(super, CHECKPOINT) <= CHECKPOINT_AREA && mantelorris_number_at(super, LOG) <= LOG_AREA + LESS;
}

static int that_counts(const struct raw *raw) {
    if (raw->good[0] && raw->good[1]) return raw->sequence[1] > raw->sequence[0];
    return raw->good[0] ? 0 : raw->good[1] ? 1 : -1;
}

/* a copy of the log's area, with the superblock's copy of its last sector over that one */
static struct slice log_of(const uint8_t *area, const uint8_t *super) {
    size_t length = mantelorris_number_at(super, LOG), last = length % SECTOR;
    uint8_t *log = malloc(length ? length : 1);
    if (!log) fail("no memory for the log's %zu bytes", length);
    memcpy(log, area, length - last);
    memcpy(log + length - last, super + LAST, last);
    return (struct slice){log, length};
}

static struct raw read_raw(struct slice card) {
    struct raw raw = {.counts = -1};
    for (int i = 0; i < 2; i++) {
        raw.good[i] = good(card.bytes + i * COPY);
        raw.sequence[i] = mantelorris_word_at(card.bytes, (size_t)i * COPY + SEQUENCE);
    }
    raw.counts = that_counts(&raw);
    if (raw.counts < 0) return raw;
    const uint8_t *super = card.bytes + raw.counts * COPY;
    raw.slot = mantelorris_number_at(super, IN_FORCE);
    raw.checkpoint_at = 2 * COPY + raw.slot % 2 * (size_t)SLOT;
    raw.log_at = raw.checkpoint_at + CHECKPOINT_AREA - (raw.slot < FIRST_SLOTS ? LESS : 0);
    raw.checkpoint = (struct slice){card.bytes + raw.checkpoint_at, mantelorris_number_at(super, CHECKPOINT)};
    raw.log = log_of(card.bytes + raw.log_at, super);
    return raw;
}

/* ---- beside a host that serves from the card: what is read may be of two moments */

static int begins_with(struct slice whole, struct slice front) {
    return whole.length >= front.length && memcmp(whole.bytes, front.bytes, front.length) == 0;
}

/* whether what a second reading found has all of the first one's, and more log at most: then the first is of one moment */
static int goes_on(const struct raw *first, const struct raw *second) {
    if (first->counts < 0 || second->counts < 0) return first->counts == second->counts;
    return first->checkpoint.length == second->checkpoint.length && begins_with(second->checkpoint, first->checkpoint) &&
           begins_with(second->log, first->log);
}

struct raw settled_raw(const char *path, struct slice card) {
    struct raw raw = read_raw(card);
    for (int i = 0; path && i < TRIES; i++) {
        struct slice again = read_file(path, RAW_SIZE);
        if (again.length < RAW_SIZE) break;
        struct raw second = read_raw(again);
        if (goes_on(&raw, &second)) return raw;
        free((void *)raw.log.bytes);
        free((void *)card.bytes);
        raw = second;
        card = again;
    }
    if (path) fail("%s: it changes all the time; stop the host that serves from it", path);
    return raw;
}
