/* Cards through the card reader (examples/reader), many in one process. Each line of standard input has the bytes of one, in hexadecimal; for each two lines are printed: what the
 * library answers when it is asked here, with the length of the shortest front of its log, or of its checkpoint's tail, that the library refuses (0: it refuses the head or the
 * checkpoint, or nothing); and what the reader says, as JSON, or in words if there is an argument. Every point has the range -100 to 1000, fallback 0, home server 0. tests/c/reader.py compares.
 * With two arguments: what the reader says of the first file, if it was read from the second one, which a host has gone on with since. */
#include "../../examples/reader/reader.h"
#include <stdio.h>
#include <stdlib.h>

enum { LONGEST = 1 << 16 };

static uint8_t state[MANTELORRIS_STATE_SIZE];

static uint32_t recovered(struct slice checkpoint, struct slice log, struct slice plan) {
    if (checkpoint.length) return mantelorris_number(mantelorris_recover_checkpoint(state, sizeof state, checkpoint.bytes, checkpoint.length, log.bytes, log.length));
    return mantelorris_number(mantelorris_recover(state, sizeof state, log.bytes, log.length, plan.bytes, plan.length));
}

/* of a card whose head is taken and whose whole is refused: what is refused at one length is refused at each greater one */
static size_t shortest_refused(struct slice checkpoint, struct slice log, struct slice plan) {
    size_t taken = MANTELORRIS_LOG_HEAD, refused = log.length;
    while (refused - taken > 1) {
        size_t middle = (taken + refused) / 2;
        if (recovered(checkpoint, (struct slice){log.bytes, middle}, plan))
            refused = middle;
        else
            taken = middle;
    }
    return refused;
}

static void ask_library(struct slice bytes, struct slice plan) {
    size_t base = mantelorris_checkpoint_length(bytes.bytes, bytes.length);
    if (mantelorris_is_checkpoint(bytes.bytes, bytes.length) && (base == 0 || base > bytes.length)) base = bytes.length;
    struct slice checkpoint = {bytes.bytes, base}, log = {bytes.bytes + base, bytes.length - base};
    uint32_t answer = recovered(checkpoint, log, plan);
    int head = log.length >= MANTELORRIS_LOG_HEAD && !recovered(checkpoint, (struct slice){log.bytes, MANTELORRIS_LOG_HEAD}, plan);
    printf("%u %zu\n", answer, answer && head ? shortest_refused(checkpoint, log, plan) : 0);
}

static void say(struct slice bytes, const char *path, struct slice plan) {
    object(NULL);
    show_bytes(bytes, path, NULL, &plan);
    close_object();
    if (print_end()) exit(1);
}

/* a copy with nothing behind its end, for a build that finds a read past it */
static void ask(const uint8_t *from, size_t length) {
    uint8_t *copy = malloc(length ? length : 1);
    struct slice plan = plan_named("-100,1000,0,0"), bytes = {copy, length};
    for (size_t i = 0; i < length; i++) copy[i] = from[i];
    ask_library(bytes, plan);
    say(bytes, NULL, plan);
    free(copy);
}

int main(int count, char **arguments) {
    static char line[2 * LONGEST + 2];
    static uint8_t bytes[LONGEST];
    if (count != 2) print_json();
    if (count == 3) {
        say(read_file(arguments[1], RAW_SIZE), arguments[2], plan_named("-100,1000,0,0"));
        return 0;
    }
    while (fgets(line, sizeof line, stdin)) {
        size_t length = 0;
        unsigned byte;
        for (const char *at = line; sscanf(at, "%2x", &byte) == 1; at += 2) bytes[length++] = (uint8_t)byte;
        ask(bytes, length);
    }
    return 0;
}
