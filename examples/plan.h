/* The plan of the lock and of the benchmark beside SQLite, as of host.c: every point from -1,000,000 to 1,000,000, fallback 0, at home at server 0. */
#ifndef EXAMPLE_PLAN_H
#define EXAMPLE_PLAN_H

#include "mantelorris.h"
#include <string.h>

static inline void put32(uint8_t *p, uint32_t v) {
    mantelorris_put_number(p, 0, v);
}

static inline void make_plan(uint8_t plan[MANTELORRIS_PLAN_SIZE]) {
    for (uint32_t point = 0; point < MANTELORRIS_POINTS; point++) mantelorris_plan_row(plan, point, -1000000, 1000000, 0, 0);
}

#endif
