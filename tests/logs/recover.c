/* recover.c: recovers the logs that write.c wrote with an earlier version of the library, and the checkpoints where there are some, with the library
 * that it is linked with:
 *     recover FOLDER     prints the results that the servers hold then, which must be those in FOLDER/results
 * After that commands are executed on what was recovered, by today's rules and in today's form: the log that goes on so is cut at every byte behind what
 * was recovered, becomes a checkpoint, and goes on behind that; each time the servers hold what they held, and a point that no command was for has the value
 * and quality that it had. */
#include "plant.h"
#include <string.h>

enum { CALLS = 16, RECORDS = 6, OWNER = 1, VISITOR = 8, DESK = 9, FITTER = 10, SECOND = 500, LEFT_ALONE = 6 };

static struct server servers[2], again;

/* what a server is recovered from, beside its log */
static struct card {
    uint8_t checkpoint[MANTELORRIS_CHECKPOINT_SIZE], plan[MANTELORRIS_PLAN_SIZE];
    size_t base; /* the checkpoint's length, 0 where there is none */
} cards[2];

/* the result packets of a client's calls, zeros where there is none; and the point that no new command is for */
struct held {
    uint8_t packets[CALLS][MANTELORRIS_REPLY_SIZE];
    int32_t value;
    uint32_t quality;
};

static struct held holds(struct server *s, uint32_t client) {
    struct held h = {.value = mantelorris_value(s->state, LEFT_ALONE), .quality = mantelorris_quality(s->state, LEFT_ALONE)};
    for (uint32_t call = 1; call <= CALLS; call++) mantelorris_fetch(SLICES(s), client, call, h.packets[call - 1], sizeof h.packets[0]);
    return h;
}

static void same(struct held a, struct held b, const char *what) {
    must(memcmp(&a, &b, sizeof a) == 0, what);
}

/* the bytes of FOLDER/server I.KIND, 0 where there is no such file */
static size_t load(const char *folder, int i, const char *kind, uint8_t *bytes, size_t space) {
    char path[512];
    snprintf(path, sizeof path, "%s/server%d.%s", folder, i, kind);
    FILE *f = fopen(path, "rb");
    if (f == NULL) return 0;
    size_t length = fread(bytes, 1, space, f);
    must(fclose(f) == 0 && length < space, path);
    return length;
}

static void recover(struct server *s, const struct card *card, size_t length) {
    uint64_t a = card->base == 0 ? mantelorris_recover(s->state, sizeof s->state, s->log, length, card->plan, sizeof card->plan)
                                 : mantelorris_recover_checkpoint(s->state, sizeof s->state, card->checkpoint, card->base, s->log, length);
    must(a == 0, "recover");
}

static void recover_stored(const char *folder, int i) {
    struct server *s = &servers[i];
    struct card *card = &cards[i];
    size_t length = load(folder, i, "log", s->log, sizeof s->log);
    card->base = load(folder, i, "checkpoint", card->checkpoint, sizeof card->checkpoint);
    plan_of(card->plan);
    must(length >= MANTELORRIS_LOG_HEAD, "a log");
    recover(s, card, length);
    must(mantelorris_length(s->state) == length, "every record is whole");
}

/* ---- the log goes on */

static void set(struct server *s, uint32_t client, uint32_t call, uint32_t point) {
    uint8_t packet[24] = {MANTELORRIS_KIND_REQUEST, MANTELORRIS_SET, (uint8_t)point};
    mantelorris_put_number(packet, 4, client);
    mantelorris_put_number(packet, 8, call);
    mantelorris_put_number(packet, 12, 1);   /* done */
    mantelorris_put_number(packet, 16, 600); /* lease end */
    mantelorris_put_number(packet, 20, call);
    must(ask(s, packet, sizeof packet) == 0, "a command behind what was recovered");
    sync(s);
}

/* records of today's form behind those that were recovered, a notice among them, and where each ends */
static void go_on(struct server *s, uint32_t point, size_t ends[RECORDS]) {
    ends[0] = mantelorris_length(s->state);
    for (int i = 1; i < RECORDS; i++) {
        if (i == 2)
            hear(s, VISITOR, SECOND);
        else
            set(s, i == 1 ? VISITOR : DESK, i == 1 ? 1 : (uint32_t)i - 2, point);
        ends[i] = mantelorris_length(s->state);
        must(ends[i] - ends[i - 1] == (i == 2 ? MANTELORRIS_LOG_GONE : MANTELORRIS_LOG_EXECUTED) && s->log[ends[i - 1]] == (i == 2 ? 2 : 6), "its form");
    }
    struct held new = holds(s, DESK);
    for (uint32_t call = 1; call <= RECORDS - 3; call++) {
        must(mantelorris_result_time(new.packets[call - 1]) == SECOND, "its time");
        must(new.packets[call - 1][3] == MANTELORRIS_BY_HAND, "a set is by hand");
    }
    must(mantelorris_quality(s->state, point) == MANTELORRIS_BY_HAND, "the point is by hand");
}

/* with this front of the log alone it holds what it held, and of the desk's calls those whose records are whole */
static void cut(const struct server *s, const struct card *card, size_t kept, const size_t ends[RECORDS], struct held old, struct held new) {
    int whole = 0;
    while (whole + 1 < RECORDS && ends[whole + 1] <= kept) whole++;
    for (uint32_t call = 1; call <= CALLS; call++)
        if ((int)call + 2 > whole) memset(new.packets[call - 1], 0, sizeof new.packets[0]);
    memset(again.state, 0xEE, sizeof again.state);
    memcpy(again.log, s->log, sizeof again.log);
    recover(&again, card, kept);
    must(mantelorris_length(again.state) == ends[whole], "the whole records");
    same(holds(&again, OWNER), old, "what it held, of a log that was cut");
    same(holds(&again, DESK), new, "the new results, of a log that was cut");
}

/* a checkpoint in today's form takes the log's place, and the log goes on behind it */
static void replace(struct server *s, struct card *card, uint32_t point, struct held old, struct held new) {
    uint8_t head[MANTELORRIS_LOG_HEAD];
    uint64_t a = mantelorris_checkpoint(SLICES(s), card->checkpoint, sizeof card->checkpoint, head, sizeof head);
    must(mantelorris_number(a) == 0 && memcmp(card->checkpoint, "WLG3", 4) == 0, "a checkpoint");
    card->base = mantelorris_written(a);
    memcpy(s->log, head, sizeof head);
    for (int i = 0; i < 2; i++) {
        memset(s->state, 0xEE, sizeof s->state);
        recover(s, card, i == 0 ? sizeof head : sizeof head + MANTELORRIS_LOG_EXECUTED);
        same(holds(s, OWNER), old, "what it held, from a checkpoint");
        same(holds(s, DESK), new, "the new results, from a checkpoint");
        if (i == 0) set(s, VISITOR, 2, point);
    }
}

static void continued(int i) {
    struct server *s = &servers[i];
    uint32_t point = i == 0 ? LEFT_ALONE + 1 : 5;
    size_t ends[RECORDS];
    struct held old = holds(s, OWNER), new;
    go_on(s, point, ends);
    same(holds(s, OWNER), old, "what it held, with new commands behind it");
    new = holds(s, DESK);
    for (size_t kept = ends[0]; kept <= ends[RECORDS - 1]; kept++) cut(s, &cards[i], kept, ends, old, new);
    replace(s, &cards[i], point, old, new);
}

/* ---- a command under a call that no log has: the result, shown once it is synced, and that it is this one */

static struct mantelorris_receive_reply command(struct server *s, uint32_t client, uint32_t call, uint32_t op, uint32_t point, int32_t argument) {
    uint8_t r[MANTELORRIS_REPLY_SIZE];
    struct mantelorris_client desk = {.client = client, .lease = 600, .next = call};
    struct mantelorris_send_reply q = mantelorris_issue(&desk, op, point, argument);
    must(q.number == 0 && ask(s, q.packet, q.length) == 0, "a command on what was recovered");
    sync(s);
    must(mantelorris_number(mantelorris_fetch(SLICES(s), client, q.call, r, sizeof r)) == 0, "fetch");
    struct mantelorris_receive_reply got = mantelorris_receive(&desk, r, sizeof r);
    must(got.number == 0 && got.time == mantelorris_heard(s->state), "its time is the heard time");
    return got;
}

static void gives(struct mantelorris_receive_reply got, uint8_t outcome, int32_t value, uint8_t quality) {
    must(got.outcome == outcome && got.value == value && got.quality == quality, "its result is by today's rule");
}

/* what was recovered has the quality that its version gave it, read and stepped too, until it is set (go_on) */
static void first_commands(void) {
    int32_t value = mantelorris_value(servers[1].state, 5);
    uint8_t quality = (uint8_t)mantelorris_quality(servers[1].state, 5);
    gives(command(&servers[1], FITTER, 1, MANTELORRIS_READ, 5, 0), MANTELORRIS_OUTCOME_DONE, value, quality);
    gives(command(&servers[1], FITTER, 2, MANTELORRIS_STEP, 5, -1), MANTELORRIS_OUTCOME_DONE, value - 1, quality);
}

static void last_commands(void) {
    gives(command(&servers[1], OWNER, 15, MANTELORRIS_STEP, 5, 1000), MANTELORRIS_OUTCOME_STOPPED, 1000, MANTELORRIS_BY_HAND);
    gives(command(&servers[1], OWNER, 16, MANTELORRIS_PART, 5, 5), MANTELORRIS_OUTCOME_DONE, -94, MANTELORRIS_BY_HAND);
    gives(command(&servers[1], FITTER, 3, MANTELORRIS_REPORT, 5, 7), MANTELORRIS_OUTCOME_DONE, 7, MANTELORRIS_VALID);
    gives(command(&servers[0], FITTER, 1, MANTELORRIS_SET, LEFT_ALONE, 7), MANTELORRIS_OUTCOME_DONE, 7, MANTELORRIS_BY_HAND);
}

int main(int count, char **words) {
    must(count == 2, "usage: recover FOLDER");
    for (int i = 0; i < 2; i++) recover_stored(words[1], i);
    results(stdout, servers);
    first_commands();
    for (int i = 0; i < 2; i++) continued(i);
    last_commands();
    return 0;
}
