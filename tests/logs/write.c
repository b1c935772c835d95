/* write.c: writes the logs of two servers and the results of their commands, with the library that it is linked with:
 *     write FOLDER     FOLDER/server0.log, server1.log, results, and server0.checkpoint, server1.checkpoint: the logs are their tails
 * Run once with the library of a version that is about to change, it keeps what that version wrote; recover.c reads it with every later one.
 * Point 5 steps past both ends of its range, by small and by the greatest arguments, moves from server 0 to server 1, and steps past an end there;
 * point 6 is reported out of range and stepped while invalid. Both are put at parts whose product is no multiple of 1000, point 5 before its move and
 * after it. Server 0 makes its checkpoint before the move, server 1 after it, before its last commands. Each has heard of a second before some of its
 * commands, by the notice of a client that has read a point there. No result is acknowledged, so that every completion record stays. */
#include "plant.h"
#include <string.h>

static struct server servers[2];
static struct mantelorris_client desk;
static struct mantelorris_lease_manager manager;

/* one command, executed and synced */
static void command(int at, uint32_t op, uint32_t point, int32_t argument) {
    struct mantelorris_send_reply q = mantelorris_issue(&desk, op, point, argument);
    must(q.number == 0, "issue");
    must(ask(&servers[at], q.packet, q.length) == 0, "request");
    sync(&servers[at]);
}

/* a client reads the point, and its lease ends at this second */
static void visit(int at, uint32_t point, uint32_t second) {
    struct mantelorris_lease_reply grant = mantelorris_open(&manager, manager.time, second - manager.time);
    struct mantelorris_client other = mantelorris_start(grant.packet, grant.length).client;
    struct mantelorris_send_reply q = mantelorris_issue(&other, MANTELORRIS_READ, point, 0);
    must(q.number == 0 && ask(&servers[at], q.packet, q.length) == 0, "a visitor's read");
    must(mantelorris_query(&manager, other.client, second).kind == MANTELORRIS_KIND_NOTICE, "its lease has ended");
    hear(&servers[at], other.client, second);
}

static void move_point(uint32_t point) {
    static uint8_t image[MANTELORRIS_IMAGE_SIZE];
    uint8_t receipt[MANTELORRIS_RECEIPT_SIZE];
    struct server *from = &servers[0], *to = &servers[1];
    must(mantelorris_give(SLICES(from), point, 1) == 0, "give");
    sync(from);
    uint64_t a = mantelorris_image(SLICES(from), point, image, sizeof image);
    must(mantelorris_number(a) == 0, "image");
    must(mantelorris_take(SLICES(to), image, mantelorris_written(a)) == 0, "take");
    sync(to);
    must(mantelorris_number(mantelorris_receipt(SLICES(to), point, receipt, sizeof receipt)) == 0, "receipt");
    must(mantelorris_release(SLICES(from), receipt, sizeof receipt) == 0, "release");
    sync(from);
}

/* FOLDER/server N.checkpoint; the server goes on with the tail as its log */
static void check(const char *folder, int at) {
    static uint8_t checkpoint[MANTELORRIS_CHECKPOINT_SIZE];
    uint8_t head[MANTELORRIS_LOG_HEAD];
    char path[512];
    struct server *s = &servers[at];
    uint64_t a = mantelorris_checkpoint(SLICES(s), checkpoint, sizeof checkpoint, head, sizeof head);
    must(mantelorris_number(a) == 0, "checkpoint");
    memcpy(s->log, head, sizeof head);
    snprintf(path, sizeof path, "%s/server%d.checkpoint", folder, at);
    save(path, checkpoint, mantelorris_written(a));
}

int main(int count, char **words) {
    uint8_t plan[MANTELORRIS_PLAN_SIZE];
    char path[512];
    must(count == 2, "usage: write FOLDER");
    plan_of(plan);
    for (int i = 0; i < 2; i++) must(mantelorris_found(SLICES(&servers[i]), plan, sizeof plan, (uint32_t)i) == 0, "found");
    manager = mantelorris_leases();
    struct mantelorris_lease_reply grant = mantelorris_open(&manager, 0, 600);
    desk = mantelorris_start(grant.packet, grant.length).client;

    command(0, MANTELORRIS_SET, 5, 1000);
    command(0, MANTELORRIS_STEP, 5, 1);
    command(0, MANTELORRIS_STEP, 5, -1);
    visit(0, 6, 60);
    command(0, MANTELORRIS_SET, 5, -100);
    command(0, MANTELORRIS_STEP, 5, -1);
    command(0, MANTELORRIS_STEP, 5, INT32_MIN);
    command(0, MANTELORRIS_STEP, 5, INT32_MAX);
    command(0, MANTELORRIS_REPORT, 6, 2000);
    command(0, MANTELORRIS_STEP, 6, 1);
    visit(0, 6, 75);
    command(0, MANTELORRIS_PART, 6, 5);
    command(0, MANTELORRIS_PART, 5, 7);
    check(words[1], 0);
    move_point(5);
    command(1, MANTELORRIS_PART, 5, 5);
    check(words[1], 1);
    visit(1, 5, 90);
    command(1, MANTELORRIS_STEP, 5, 600);
    command(1, MANTELORRIS_STEP, 5, 600);

    for (int i = 0; i < 2; i++) {
        snprintf(path, sizeof path, "%s/server%d.log", words[1], i);
        save(path, servers[i].log, mantelorris_length(servers[i].state));
    }
    snprintf(path, sizeof path, "%s/results", words[1]);
    FILE *out = fopen(path, "w");
    must(out != NULL, path);
    results(out, servers);
    return fclose(out);
}
