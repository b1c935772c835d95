/* The plan that a log is recovered with: a file of 1,024 bytes, one row for all points, or, where none is given, what the log itself tells. */
#include "reader.h"
#include <stdio.h>
#include <string.h>

static uint8_t made[MANTELORRIS_PLAN_SIZE];

static void all_rows(int32_t low, int32_t high, int32_t fallback, uint32_t home) {
    for (uint32_t p = 0; p < MANTELORRIS_POINTS; p++) mantelorris_plan_row(made, p, low, high, fallback, home);
}

static int32_t bound(long long value) {
    if (value < INT32_MIN || value > INT32_MAX) fail("--plan: %lld has more than 32 bits", value);
    return (int32_t)value;
}

struct slice plan_named(const char *name) {
    long long low, high, fallback, home;
    int end = 0;
    if (sscanf(name, "%lld,%lld,%lld,%lld%n", &low, &high, &fallback, &home, &end) != 4 || name[end]) return read_file(name, MANTELORRIS_PLAN_SIZE);
    all_rows(bound(low), bound(high), bound(fallback), (uint32_t)bound(home));
    return (struct slice){made, sizeof made};
}

struct slice widest_plan(uint32_t home) {
    all_rows(INT32_MIN, INT32_MAX, 0, home);
    return (struct slice){made, sizeof made};
}

/* the point of a record, MANTELORRIS_POINTS where it has none */
static uint32_t point_of(struct slice log, struct step step) {
    const uint8_t *record = log.bytes + step.at;
    if (step.layout->kind == KIND_GONE) return MANTELORRIS_POINTS;
    return step.layout->kind == KIND_TAKE ? mantelorris_image_point(record + MANTELORRIS_LOG_TAKE) : row_value(step.layout, "point", record);
}

/* A point whose first record is no take was here from the founding on, so this server is its home; of any other the home is another server. Ranges and
 * fallbacks do not stand in a log: each range is the widest, and each fallback 0. */
struct slice plan_of_log(struct slice log) {
    uint8_t seen[MANTELORRIS_POINTS] = {0};
    uint32_t here = log.length < MANTELORRIS_LOG_HEAD ? 0 : log.bytes[4] % MANTELORRIS_SERVERS;
    struct slice plan = widest_plan(here ^ 1);
    for (size_t at = MANTELORRIS_LOG_HEAD; at < log.length;) {
        struct step step = step_at(log, at);
        if (step.ending != WHOLE) break;
        uint32_t point = point_of(log, step);
        at = step.end;
        if (point >= MANTELORRIS_POINTS || seen[point]) continue;
        seen[point] = 1;
        if (step.layout->kind != KIND_TAKE) mantelorris_plan_row(made, point, INT32_MIN, INT32_MAX, 0, here);
    }
    return plan;
}

void why_plan_bad(struct fault *fault, struct slice plan) {
    uint32_t point = plan.length == MANTELORRIS_PLAN_SIZE ? mantelorris_plan_bad_row(plan.bytes) : MANTELORRIS_POINTS;
    const uint8_t *row = plan.bytes + MANTELORRIS_PLAN_ROW * (size_t)point;
    *fault = (struct fault){.part = "plan"};
    if (point == MANTELORRIS_POINTS)
        because(fault, "a plan has 1024 bytes, and this one has %zu", plan.length);
    else if (bad_field(&plan_row, row))
        because_field(fault, &plan_row, row, MANTELORRIS_PLAN_ROW * (size_t)point);
    else {
        fault->at = fault->byte = MANTELORRIS_PLAN_ROW * (size_t)point;
        because(fault, "of point %u the fallback is outside its own range", point);
    }
}
