/* The card of card.h as a file: a checkpoint, if there is one, and at once behind it the log; with pwrite, fdatasync, rename and flock. Its size tells how long the
 * log is: enough where a crash leaves a prefix of what was written; if you are not certain, keep a superblock (card_raw.c; docs/GUIDE.md, The card). */
#define _POSIX_C_SOURCE 200809L
#include "card.h"
#include <errno.h>
#include <fcntl.h>
#include <libgen.h>
#include <stdio.h>
#include <stdlib.h>
#include <string.h>
#include <sys/file.h>
#include <sys/stat.h>
#include <unistd.h>

static void fail(const char *what) {
    perror(what);
    exit(1);
}

static void stop(const char *what) {
    fprintf(stderr, "%s\n", what);
    exit(1);
}

static void write_at(int file, const uint8_t *bytes, size_t count, size_t at) {
    for (size_t done = 0; done < count;) {
        ssize_t n = pwrite(file, bytes + done, count - done, (off_t)(at + done));
        if (n <= 0) fail("card: write");
        done += (size_t)n;
    }
}

static void read_at(int file, uint8_t *bytes, size_t count, size_t at) {
    for (size_t done = 0; done < count;) {
        ssize_t n = pread(file, bytes + done, count - done, (off_t)(at + done));
        if (n < 0) fail("card: read");
        if (n == 0) stop("card: its end is missing");
        done += (size_t)n;
    }
}

/* ---- start */

/* until the program ends. Whoever has the card may have put another file in its place since this one was opened */
static void lock(const struct card *card) {
    struct stat mine, named;
    if (flock(card->file, LOCK_EX | LOCK_NB)) fail("card: another program has it");
    if (fstat(card->file, &mine) || stat(card->path, &named)) fail(card->path);
    if (mine.st_ino != named.st_ino) stop("card: another program has just replaced it");
}

void card_open(struct card *card, const char *path, int found) {
    char copy[sizeof card->path];
    if ((size_t)snprintf(card->path, sizeof card->path, "%s", path) >= sizeof card->path) stop("card: its name is too long");
    snprintf(card->next_path, sizeof card->next_path, "%s.new", card->path);
    card->file = open(card->path, found ? O_RDWR | O_CREAT : O_RDWR, 0644);
    if (card->file < 0) fail(card->path);
    lock(card);
    if (unlink(card->next_path) && errno != ENOENT) fail(card->next_path); /* the rest of what was not stored */
    memcpy(copy, card->path, sizeof copy);
    card->folder = open(dirname(copy), O_RDONLY | O_DIRECTORY);
    if (card->folder < 0) fail("card: folder");
}

void card_look(struct card *card, const char *path) {
    card->file = open(path, O_RDONLY);
    if (card->file < 0) fail(path);
}

/* the length of the checkpoint that a card of this size begins with, 0 if it begins with none */
static size_t checkpoint_length(const struct card *card, size_t size, uint8_t checkpoint[MANTELORRIS_CHECKPOINT_SIZE]) {
    size_t head = size < MANTELORRIS_CHECKPOINT_HEAD ? size : MANTELORRIS_CHECKPOINT_HEAD;
    read_at(card->file, checkpoint, head, 0);
    if (!mantelorris_is_checkpoint(checkpoint, head)) return 0;
    size_t length = mantelorris_checkpoint_length(checkpoint, head);
    if (length == 0 || size < length + MANTELORRIS_LOG_HEAD) stop("checkpoint: bad log: the card is damaged, or its end is missing");
    return length;
}

size_t card_read(struct card *card, uint8_t checkpoint[MANTELORRIS_CHECKPOINT_SIZE], uint8_t *log, size_t log_space) {
    struct stat about;
    if (fstat(card->file, &about)) fail("card");
    size_t size = (size_t)about.st_size;
    card->base = checkpoint_length(card, size, checkpoint);
    if (size - card->base > log_space) stop("card: its log is longer than the space for it");
    read_at(card->file, checkpoint, card->base, 0);
    read_at(card->file, log, size - card->base, card->base);
    return size - card->base;
}

/* ---- work */

void card_append(struct card *card, const uint8_t *log, size_t start, size_t end) {
    write_at(card->file, log + start, end - start, card->base + start);
    if (fdatasync(card->file)) fail("card: sync");
}

/* to CARD.new, which is renamed once it is certain: from then on it is the card, and locked as that was. All is written anew, at a start too: a second sync of bytes
 * whose first one failed proves nothing */
void card_store(struct card *card, const uint8_t *checkpoint, size_t base, const uint8_t *log, size_t length) {
    int next = open(card->next_path, O_RDWR | O_CREAT | O_TRUNC, 0644);
    if (next < 0 || flock(next, LOCK_EX | LOCK_NB)) fail(card->next_path);
    write_at(next, checkpoint, base, 0);
    write_at(next, log, length, base);
    if (fdatasync(next)) fail("card: sync of what is stored");
    if (rename(card->next_path, card->path)) fail("card: rename");
    if (fsync(card->folder)) fail("card: folder");
    close(card->file);
    card->file = next;
    card->base = base;
}
