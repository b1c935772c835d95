/* Desks over UDP: one client after the other steps a gate by 1, has up to four commands open, repeats them until their results come, and lets its
 * lease end. Whatever the line loses or repeats and however often the host is killed, each step is carried out once: the results are the
 * numbers 1, 2, 3 .., each once.
 *
 *     desk PORT [COMMANDS]      through 127.0.0.1:PORT; ends with 0 when every command has completed and every result was right
 *
 * The lease manager runs here too. Its memory must live as long as its client numbers do: yours keeps it on a disk. */
#include "mantelorris.h"
#include "mantelorris_client.h"
#include <arpa/inet.h>
#include <poll.h>
#include <stdio.h>
#include <stdlib.h>
#include <string.h>
#include <sys/socket.h>
#include <time.h>
#include <unistd.h>

enum { GATE = 5, OPEN = 4, EACH = 12, MOST = 1000000, LEASE = 600, AGAIN_MS = 12, PATIENCE_MS = 30000 };

static struct mantelorris_lease_manager manager;
static struct mantelorris_client client;
static uint32_t now;                       /* seconds, by the lease manager's clock */
static uint8_t seen[MOST + 1];             /* results by value */
static int line;
static unsigned long sent, again, completed, results, refused[32];
static long last_news;

static long milliseconds(void) {
    struct timespec t;
    clock_gettime(CLOCK_MONOTONIC, &t);
    return t.tv_sec * 1000 + t.tv_nsec / 1000000;
}

static void fail(const char *what) {
    fprintf(stderr, "\ndesk: %s\n", what);
    exit(1);
}

/* ---- leases */

static struct mantelorris_lease_reply settled(struct mantelorris_lease_reply r) {
    if (r.number) fail(mantelorris_refusal_name(r.number));
    return r;
}

static void open_client(void) {
    struct mantelorris_lease_reply grant = settled(mantelorris_open(&manager, now, LEASE));
    struct mantelorris_start_reply s = mantelorris_start(grant.packet, grant.length);
    if (s.number) fail("start");
    client = s.client;
}

/* the lease ends; the notice frees the client's place at the host. It has no answer, so it is sent a few times: one more client is known there if all are lost */
static void close_client(void) {
    now += LEASE;
    struct mantelorris_lease_reply notice = settled(mantelorris_query(&manager, client.client, now));
    for (int i = 0; i < 4; i++) send(line, notice.packet, notice.length, 0);
}

/* ---- commands */

static void issue(uint32_t op, int32_t argument) {
    struct mantelorris_send_reply r = mantelorris_issue(&client, op, GATE, argument);
    if (r.number) fail(mantelorris_refusal_name(r.number));
    send(line, r.packet, r.length, 0);
    sent++;
}

static int open_calls(void) {
    int n = 0;
    for (int i = 0; i < 16; i++) n += client.calls[i].call != 0;
    return n;
}

static void repeat_all(void) {
    for (int i = 0; i < 16; i++) {
        if (!client.calls[i].call) continue;
        struct mantelorris_send_reply r = mantelorris_resend(&client, client.calls[i].call);
        if (r.number == 0) send(line, r.packet, r.length, 0);
        again++;
    }
}

static void completes(const struct mantelorris_receive_reply *r) {
    last_news = milliseconds();
    if (r->outcome != MANTELORRIS_OUTCOME_DONE) fail("a command was carried out with another outcome");
    if (results++ == 0) return; /* the first command sets the gate to 0 */
    completed++;
    if (r->value < 1 || r->value > MOST || seen[r->value]) fail("a result that another command had: a step was carried out twice, or not at all");
    seen[r->value] = 1;
}

static void listen_for(int timeout) {
    struct pollfd ready = {.fd = line, .events = POLLIN};
    poll(&ready, 1, timeout);
    uint8_t packet[64];
    ssize_t n;
    while ((n = recv(line, packet, sizeof packet, MSG_DONTWAIT)) >= 0) {
        struct mantelorris_receive_reply r = mantelorris_receive(&client, packet, (size_t)n);
        if (r.number == 0 && r.kind == MANTELORRIS_KIND_RESULT) completes(&r);
        if (r.number == 0 && r.kind == MANTELORRIS_KIND_REFUSAL) refused[r.refusal % 32]++;
    }
}

/* waits for all open calls but `most`, and repeats them */
static void settle(int most) {
    long asked = milliseconds();
    while (open_calls() > most) {
        listen_for(AGAIN_MS);
        long t = milliseconds();
        if (t - last_news > PATIENCE_MS) fail("no result for 30 seconds");
        if (t - asked >= AGAIN_MS) {
            repeat_all();
            asked = t;
        }
    }
}

static void progress(unsigned long total) {
    static long shown;
    long t = milliseconds();
    if (t - shown < 200 && completed < total) return;
    shown = t;
    fprintf(stderr, "\r%lu of %lu commands completed, %lu packets repeated ", completed, total, again);
}

int main(int argc, char **argv) {
    if (argc < 2 || argc > 3) {
        fprintf(stderr, "usage: desk PORT [COMMANDS]\n");
        return 2;
    }
    if (mantelorris_version() != MANTELORRIS_VERSION) {
        fprintf(stderr, "desk: the library is of another version than its headers\n");
        return 2;
    }
    unsigned long total = argc == 3 ? strtoul(argv[2], NULL, 10) : 300, begun = 0;
    if (total > MOST) fail("too many commands");
    struct sockaddr_in to = {.sin_family = AF_INET, .sin_port = htons((uint16_t)atoi(argv[1])), .sin_addr.s_addr = htonl(INADDR_LOOPBACK)};
    line = socket(AF_INET, SOCK_DGRAM, 0);
    if (line < 0 || connect(line, (struct sockaddr *)&to, sizeof to)) fail("line");
    manager = mantelorris_leases();
    last_news = milliseconds();
    open_client();
    issue(MANTELORRIS_SET, 0);
    settle(0);
    while (begun < total) {
        for (int i = 0; i < EACH && begun < total; i++, begun++) {
            issue(MANTELORRIS_STEP, 1);
            settle(OPEN - 1);
            progress(total);
        }
        settle(0);
        progress(total);
        close_client();
        if (begun < total) open_client();
    }
    for (unsigned long v = 1; v <= total; v++)
        if (!seen[v]) fail("a result is missing");
    fprintf(stderr, "\n");
    printf("desk: %lu commands sent, %lu packets repeated, %lu completed, each result once; refusals:", sent, again, completed + 1);
    for (uint32_t n = 1; n < 32; n++)
        if (refused[n]) printf(" %lu %s", refused[n], mantelorris_refusal_name(n));
    printf("\n");
    return 0;
}
