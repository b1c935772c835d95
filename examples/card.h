/* A memory card: empty, or a log from the founding on, or a checkpoint and the log since then, its tail. Two are here: card.c, a file whose size tells the log's
 * length, and card_raw.c, raw sectors with a superblock, on a file that plays a flash.
 *
 * For another card write these five functions anew; what each must keep stands with it, and the host asks nothing else. Where one fails, it says so and ends the
 * program, as if the power had failed, and the next start recovers from what the card has. It tries nothing again: a sync that failed once may answer 0 the next
 * time, and the card still lacks the bytes. */
#ifndef EXAMPLE_CARD_H
#define EXAMPLE_CARD_H

#include "mantelorris.h"

struct card {
    size_t base; /* the length of its checkpoint, 0 where there is none */
    int file;
    int folder; /* of card.c, with CARD's path, and CARD.new's, which is there while a checkpoint or a log is being stored */
    char path[4096], next_path[4096 + 4];
    uint32_t slot; /* of card_raw.c: what the superblock says that counts */
    uint64_t sequence;
};

/* Opens the card to serve from it; found: one that is not there is made, and empty. Keep: as long as one program has it open so, no other gets it; the rest of
 * what was not stored never counts; a card that is not there is no empty one. */
void card_open(struct card *card, const char *path, int found);

/* Opens the card to look at it, be a host serving from it or not. Keep: nothing on the card changes. card_read is all that may follow. */
void card_look(struct card *card, const char *path);

/* Reads the checkpoint, if there is one, and the log; returns the log's length. Keep: just the bytes that the card kept, a prefix of what was written with
 * all that was certain; no byte behind them, no hole. Whether there is a checkpoint is told by what is on the card, never by trying. */
size_t card_read(struct card *card, uint8_t checkpoint[MANTELORRIS_CHECKPOINT_SIZE], uint8_t *log, size_t log_space);

/* Writes the log's bytes from start to end; those before are on the card. Keep: it returns when the card has them for certain; a crash on the way leaves a
 * prefix of them, and changes nothing in front of start. */
void card_append(struct card *card, const uint8_t *log, size_t start, size_t end);

/* A checkpoint of `base` bytes, or none at 0, and a log of `length` bytes take the place of all that is on the card: at the founding, for a new checkpoint, and at
 * each start, where this cuts off a torn record and makes certain what may have been read from a cache. Keep: at every moment the card is the old one or the new
 * one, whole; it returns when it is the new one for certain. */
void card_store(struct card *card, const uint8_t *checkpoint, size_t base, const uint8_t *log, size_t length);

#endif
