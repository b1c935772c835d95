/* The card of card.h on raw sectors of 512 bytes, each of which a power cut may lose, keep, tear or garble by itself: a superblock in two copies, and two slots, each
 * with room for a checkpoint and a log (docs/GUIDE.md, The card). A file plays the flash; on your card put your driver into write_sectors, read_at, sync_card and card_open. */
#define _POSIX_C_SOURCE 200809L
#include "card.h"
#include <fcntl.h>
#include <stdio.h>
#include <stdlib.h>
#include <string.h>
#include <sys/file.h>
#include <unistd.h>

enum {
    SECTOR = 512,
    COPY = 4096, /* superblocks begin at 0 and here, and behind them the slots */
    CHECKPOINT_AREA = 29 * SECTOR,
    LOG_AREA = (1 << 22) - 4 * SECTOR,
    SLOT = CHECKPOINT_AREA + LOG_AREA,
    CARD_SIZE = 2 * COPY + 2 * SLOT,
    /* a superblock, two sectors: sequence number, slot, the lengths of checkpoint and log, the log's bytes behind its last whole sector, checksum */
    SEQUENCE = 0, IN_FORCE = 8, CHECKPOINT = 12, LOG = 16, LAST = 20, CHECK = LAST + SECTOR, SUPER = 2 * SECTOR,
    /* the slots are numbered 2 and 3. A card from before 1.6 has them as 0 and 1, at the same places, with four sectors less for the checkpoint, which was shorter
     * then, and four more for the log: it is read so, and what is stored next goes to slot 2 or 3 */
    FIRST_SLOTS = 2, LESS = 4 * SECTOR
};

_Static_assert(CHECKPOINT_AREA >= MANTELORRIS_CHECKPOINT_LONGEST && CHECK + 4 <= SUPER && SUPER <= COPY, "areas");

static void fail(const char *what) {
    perror(what);
    exit(1);
}

static void stop(const char *what) {
    fprintf(stderr, "%s\n", what);
    exit(1);
}

/* ---- the flash: whole sectors are written */

static void write_at(int file, const uint8_t *bytes, size_t count, size_t at) {
    for (size_t done = 0; done < count;) {
        ssize_t n = pwrite(file, bytes + done, count - done, (off_t)(at + done));
        if (n <= 0) fail("card: write");
        done += (size_t)n;
    }
}

/* the last sector is filled up with zeros; `at` begins a sector */
static void write_sectors(int file, const uint8_t *bytes, size_t count, size_t at) {
    uint8_t last[SECTOR] = {0};
    size_t whole = count - count % SECTOR;
    write_at(file, bytes, whole, at);
    if (whole == count) return;
    memcpy(last, bytes + whole, count - whole);
    write_at(file, last, SECTOR, at + whole);
}

static void read_at(int file, uint8_t *bytes, size_t count, size_t at) {
    for (size_t done = 0; done < count;) {
        ssize_t n = pread(file, bytes + done, count - done, (off_t)(at + done));
        if (n < 0) fail("card: read");
        if (n == 0) stop("card: its end is missing");
        done += (size_t)n;
    }
}

static void sync_card(const struct card *card) {
    if (fdatasync(card->file)) fail("card: sync");
}

/* ---- the superblock */

static uint32_t checksum(const uint8_t *bytes, size_t count) {
    uint32_t sum = ~0u;
    for (size_t i = 0; i < count; i++) {
        sum ^= bytes[i];
        for (int bit = 0; bit < 8; bit++) sum = sum >> 1 ^ (sum & 1 ? 0xEDB88320u : 0);
    }
    return ~sum;
}

static int good(const uint8_t super[SUPER]) {
    return checksum(super, CHECK) == mantelorris_number_at(super, CHECK) && mantelorris_number_at(super, IN_FORCE) < 2 * FIRST_SLOTS &&
           mantelorris_number_at(super, CHECKPOINT) <= CHECKPOINT_AREA && mantelorris_number_at(super, LOG) <= LOG_AREA + LESS;
}

/* of two good copies the later one counts */
static int later(const uint8_t super[SUPER], const uint8_t than[SUPER]) {
    return mantelorris_word_at(super, SEQUENCE) > mantelorris_word_at(than, SEQUENCE);
}

/* the copy that counts; 0: there is none */
static int read_super(const struct card *card, uint8_t super[SUPER]) {
    uint8_t other[SUPER];
    read_at(card->file, super, SUPER, 0);
    read_at(card->file, other, SUPER, COPY);
    if (good(other) && (!good(super) || later(other, super))) memcpy(super, other, SUPER);
    return good(super);
}

/* over the copy that does not count */
static void write_super(struct card *card, const uint8_t *log, size_t length) {
    uint8_t super[SUPER] = {0};
    card->sequence++;
    mantelorris_put_number(super, SEQUENCE, (uint32_t)card->sequence);
    mantelorris_put_number(super, SEQUENCE + 4, (uint32_t)(card->sequence >> 32));
    mantelorris_put_number(super, IN_FORCE, card->slot);
    mantelorris_put_number(super, CHECKPOINT, (uint32_t)card->base);
    mantelorris_put_number(super, LOG, (uint32_t)length);
    memcpy(super + LAST, log + length - length % SECTOR, length % SECTOR);
    mantelorris_put_number(super, CHECK, checksum(super, CHECK));
    write_sectors(card->file, super, SUPER, card->sequence % 2 ? COPY : 0);
    sync_card(card);
}

/* ---- start */

static size_t slot_at(const struct card *card) {
    return 2 * COPY + card->slot % 2 * (size_t)SLOT;
}

static size_t log_at(const struct card *card) {
    return slot_at(card) + CHECKPOINT_AREA - (card->slot < FIRST_SLOTS ? LESS : 0);
}

static void check_size(const struct card *card) {
    if (lseek(card->file, 0, SEEK_END) < CARD_SIZE) stop("card: it is smaller than a card of this kind");
}

/* Between us and the flash may be a cache, with a superblock that the flash lacks; the next one goes over the other copy, and a tear would leave none. So what the cache
 * has goes to the flash, and what is read comes from there, even where a sync had failed. */
void card_open(struct card *card, const char *path, int found) {
    card->file = open(path, found ? O_RDWR | O_CREAT : O_RDWR, 0644);
    if (card->file < 0) fail(path);
    if (flock(card->file, LOCK_EX | LOCK_NB)) fail("card: another program has it");
    if (found && lseek(card->file, 0, SEEK_END) == 0 && ftruncate(card->file, CARD_SIZE)) fail("card: size"); /* a flash has its size */
    check_size(card);
    sync_card(card);
    if (posix_fadvise(card->file, 0, 0, POSIX_FADV_DONTNEED)) stop("card: its cache cannot be emptied");
}

void card_look(struct card *card, const char *path) {
    card->file = open(path, O_RDONLY);
    if (card->file < 0) fail(path);
    check_size(card);
}

/* what the superblock that counts says, all of it together; its copy of the log's last sector goes over that one, which an append may have torn */
static size_t read_slot(struct card *card, const uint8_t super[SUPER], uint8_t *checkpoint, uint8_t *log, size_t log_space) {
    size_t length = mantelorris_number_at(super, LOG), last = length % SECTOR;
    card->sequence = mantelorris_word_at(super, SEQUENCE);
    card->slot = mantelorris_number_at(super, IN_FORCE);
    card->base = mantelorris_number_at(super, CHECKPOINT);
    if (length > log_space) stop("card: its log is longer than the space for it");
    read_at(card->file, checkpoint, card->base, slot_at(card));
    read_at(card->file, log, length - last, log_at(card));
    memcpy(log + length - last, super + LAST, last);
    return length;
}

/* again, if a host has gone on meanwhile */
size_t card_read(struct card *card, uint8_t checkpoint[MANTELORRIS_CHECKPOINT_SIZE], uint8_t *log, size_t log_space) {
    uint8_t super[SUPER], after[SUPER];
    size_t length;
    do {
        if (!read_super(card, super)) return 0;
        length = read_slot(card, super, checkpoint, log, log_space);
    } while (!read_super(card, after) || memcmp(super, after, SUPER));
    return length;
}

/* ---- work */

/* the log's own sectors in any order, and then the superblock that speaks of them */
void card_append(struct card *card, const uint8_t *log, size_t start, size_t end) {
    size_t from = start - start % SECTOR;
    if (end > LOG_AREA) stop("card: full");
    write_sectors(card->file, log + from, end - from, log_at(card) + from);
    sync_card(card);
    write_super(card, log, end);
}

/* into the slot that is not in force, which one superblock then puts in force */
void card_store(struct card *card, const uint8_t *checkpoint, size_t base, const uint8_t *log, size_t length) {
    card->slot = FIRST_SLOTS + (card->slot + 1) % 2;
    card->base = base;
    if (length > LOG_AREA) stop("card: full");
    write_sectors(card->file, checkpoint, base, slot_at(card));
    write_sectors(card->file, log, length, log_at(card));
    sync_card(card);
    write_super(card, log, length);
}
