/* The worked example of docs/GUIDE.md: a card that is not cut after recover. A record of 32 bytes was torn after 20, an 8-byte record is written over its start, and the
 * stale 12 bytes behind it read as a record of their own: a client is forgotten, and its step is carried out twice. With the card cut it is carried out once.
 * Prints the card's bytes and what comes of them; fails where either way ends otherwise. */
#include "mantelorris.h"
#include <stdio.h>
#include <stdlib.h>
#include <string.h>

enum { LOG = 4096, GATE = 5 };

static uint8_t state[MANTELORRIS_STATE_SIZE], log_space[LOG], plan[MANTELORRIS_PLAN_SIZE], card[LOG], out[MANTELORRIS_REPLY_SIZE];
static size_t card_length;

static void put32(uint8_t *p, uint32_t v) {
    for (int i = 0; i < 4; i++) p[i] = (uint8_t)(v >> 8 * i);
}

static void due(const char *what, uint64_t is, uint64_t want) {
    if (is == want) return;
    printf("%s: %llu, and %llu is due\n", what, (unsigned long long)is, (unsigned long long)want);
    exit(1);
}

static uint64_t request(uint32_t client, uint32_t call, uint8_t op, uint32_t argument) {
    uint8_t p[24] = {MANTELORRIS_KIND_REQUEST, op, GATE, 0};
    put32(p + 4, client);
    put32(p + 8, call);
    put32(p + 12, 1);   /* done */
    put32(p + 16, 600); /* lease end */
    put32(p + 20, argument);
    return mantelorris_request(state, sizeof state, log_space, LOG, p, sizeof p, out, sizeof out);
}

/* the card gets the log's bytes up to `end`; nothing is cut off behind them */
static void write_card(size_t end) {
    memcpy(card, log_space, end);
    if (end > card_length) card_length = end;
}

static void sync_log(void) {
    size_t length = (size_t)mantelorris_length(state);
    write_card(length);
    due("sync", mantelorris_sync(state, sizeof state, log_space, LOG, length), 0);
}

static void power_cut(void) {
    memset(state, 0xEE, sizeof state);
    memcpy(log_space, card, card_length);
    due("recover", mantelorris_recover(state, sizeof state, log_space, card_length, plan, sizeof plan), 0);
}

static void show(const char *what, size_t from) {
    printf("%s:", what);
    for (size_t i = from; i < card_length; i++) printf(" %02X", card[i]);
    printf("\n");
}

static void step_twice(int cut) {
    card_length = 0;
    due("found", mantelorris_found(state, sizeof state, log_space, LOG, plan, sizeof plan, 0), 0);
    due("client 2 sets 100", request(2, 1, MANTELORRIS_SET, 100), 0);
    due("client 1 steps 20", request(1, 1, MANTELORRIS_STEP, 20), 0);
    sync_log();
    due("client 1 steps 20 once more", request(1, 2, MANTELORRIS_STEP, 20), 0);
    write_card((size_t)mantelorris_length(state) - 12); /* torn: 20 of its 32 bytes */
    show("card from byte 72, torn", 72);
    power_cut();
    due("length after recover", mantelorris_length(state), 72);
    if (cut) card_length = 72;
    due("point 7 goes to server 1", mantelorris_give(state, sizeof state, log_space, LOG, 7, 1), 0);
    sync_log();
    show(cut ? "card from byte 72, cut, with the give" : "card from byte 72, not cut, with the give", 72);
    power_cut();
    uint64_t length = mantelorris_length(state);
    uint64_t again = request(1, 1, MANTELORRIS_STEP, 20); /* a late repeat of the first step */
    printf("length after the second recover %llu; a repeat of the first step: %s; the gate at %d\n", (unsigned long long)length,
           mantelorris_written(again) ? "answered from the log" : "carried out a second time", mantelorris_value(state, GATE));
    due("length", length, cut ? 80 : 92);
    due("packet", mantelorris_written(again), cut ? 20 : 0);
    due("gate", (uint64_t)mantelorris_value(state, GATE), cut ? 120 : 140);
}

int main(void) {
    for (int p = 0; p < MANTELORRIS_POINTS; p++) put32(plan + 16 * p + 4, 1000);
    step_twice(0);
    step_twice(1);
    return 0;
}
