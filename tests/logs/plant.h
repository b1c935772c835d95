/* plant.h: two servers in memory, for write.c and recover.c. Every point has the range -100 to 1000, fallback 0, home server 0. */
#ifndef PLANT_H
#define PLANT_H

#include "mantelorris_client.h"
#include <stdio.h>
#include <stdlib.h>

struct server {
    uint8_t state[MANTELORRIS_STATE_SIZE], log[4096];
};

#define SLICES(s) (s)->state, sizeof (s)->state, (s)->log, sizeof (s)->log

static inline void must(int holds, const char *what) {
    if (holds) return;
    fprintf(stderr, "not so: %s\n", what);
    exit(1);
}

static inline void number(uint8_t *at, int32_t value) {
    for (int i = 0; i < 4; i++) at[i] = (uint8_t)((uint32_t)value >> 8 * i);
}

static inline void plan_of(uint8_t *plan) {
    for (int p = 0; p < MANTELORRIS_POINTS; p++) {
        for (int i = 0; i < 16; i++) plan[16 * p + i] = 0;
        number(plan + 16 * p, -100);
        number(plan + 16 * p + 4, 1000);
    }
}

/* a request's refusal, 0 where it is executed or answered */
static inline uint32_t ask(struct server *s, const uint8_t *packet, size_t length) {
    uint8_t out[MANTELORRIS_REPLY_SIZE];
    return mantelorris_number(mantelorris_request(SLICES(s), packet, length, out, sizeof out));
}

static inline void sync(struct server *s) {
    must(mantelorris_sync(SLICES(s), mantelorris_length(s->state)) == 0, "sync");
}

/* the notice of a client that the server knows: its lease has ended at this second */
static inline void hear(struct server *s, uint32_t client, uint32_t second) {
    uint8_t notice[12] = {MANTELORRIS_KIND_NOTICE};
    mantelorris_put_number(notice, 4, client);
    mantelorris_put_number(notice, 8, second);
    must(mantelorris_notice(SLICES(s), notice, sizeof notice) == 0, "notice");
    sync(s);
}

static inline void save(const char *path, const uint8_t *bytes, size_t length) {
    FILE *f = fopen(path, "wb");
    must(f != NULL && fwrite(bytes, 1, length, f) == length && fclose(f) == 0, path);
}

/* a line for each completion record that a server holds: server, client, call, outcome, value, quality, and the time of execution where it is not 0 */
static inline void results(FILE *out, struct server *servers) {
    uint8_t r[MANTELORRIS_REPLY_SIZE];
    for (int i = 0; i < 2; i++)
        for (uint32_t call = 1; call <= 16; call++) {
            struct server *s = &servers[i];
            if (mantelorris_number(mantelorris_fetch(SLICES(s), 1, call, r, sizeof r)) != 0) continue;
            fprintf(out, "%d %u %u %u %d %u", i, 1u, call, r[1], (int32_t)mantelorris_number_at(r, 12), r[3]);
            if (mantelorris_result_time(r)) fprintf(out, " %u", mantelorris_result_time(r));
            fprintf(out, "\n");
        }
    for (uint32_t p = 5; p <= 6; p++)
        for (int i = 0; i < 2; i++)
            if (mantelorris_status(servers[i].state, p) == MANTELORRIS_HELD)
                fprintf(out, "point %u at %d: value %d, quality %u\n", p, i, mantelorris_value(servers[i].state, p), mantelorris_quality(servers[i].state, p));
}

#endif
