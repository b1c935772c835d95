/* Runs the client and the lease manager from C: each line of its output is one check, its last 'N passed, M failed'. */
#include "mantelorris_client.h"
#include <stdio.h>
#include <string.h>

static int passed, failed;

static void expect(const char *what, long long have, long long want) {
    if (have == want) {
        passed++;
    } else {
        failed++;
        printf("FAILED %s: %lld, not %lld\n", what, have, want);
    }
}

static void word(uint8_t *p, uint32_t v) {
    p[0] = v & 255;
    p[1] = v >> 8 & 255;
    p[2] = v >> 16 & 255;
    p[3] = v >> 24;
}

static uint32_t at(const uint8_t *p) {
    return p[0] | (uint32_t)p[1] << 8 | (uint32_t)p[2] << 16 | (uint32_t)p[3] << 24;
}

/* packets 7, 3 and 6; packet 2 is packet 7 without its last four bytes */
static void result(uint8_t *p, uint8_t outcome, uint8_t point, uint8_t quality, uint32_t client, uint32_t call, int32_t value, uint32_t time) {
    p[0] = 7;
    p[1] = outcome;
    p[2] = point;
    p[3] = quality;
    word(p + 4, client);
    word(p + 8, call);
    word(p + 12, (uint32_t)value);
    word(p + 16, time);
}

static void refusal(uint8_t *p, uint8_t number, uint8_t point, uint32_t client, uint32_t call) {
    p[0] = 3;
    p[1] = number;
    p[2] = point;
    p[3] = 0;
    word(p + 4, client);
    word(p + 8, call);
}

static void grant(uint8_t *p, uint32_t client, uint32_t lease) {
    memset(p, 0, 4);
    p[0] = 6;
    word(p + 4, client);
    word(p + 8, lease);
}

static void request(const char *what, struct mantelorris_send_reply r, uint8_t op, uint8_t point, uint32_t client, uint32_t call, uint32_t done,
                    uint32_t lease, int32_t argument) {
    expect(what, r.number, 0);
    expect(what, r.length, 24);
    expect(what, r.packet[0], 1);
    expect(what, r.packet[1], op);
    expect(what, r.packet[2], point);
    expect(what, r.packet[3], 0);
    expect(what, at(r.packet + 4), client);
    expect(what, r.call, call);
    expect(what, at(r.packet + 8), call);
    expect(what, at(r.packet + 12), done);
    expect(what, at(r.packet + 16), lease);
    expect(what, (int32_t)at(r.packet + 20), argument);
}

static void send_refused(const char *what, struct mantelorris_send_reply r, uint32_t number) {
    uint8_t none[24] = {0};
    expect(what, r.number, number);
    expect(what, r.call, 0);
    expect(what, r.length, 0);
    expect(what, memcmp(r.packet, none, 24), 0);
}

static void clients(void) {
    uint8_t p[32];
    struct mantelorris_receive_reply got;

    expect("start: no packet", mantelorris_start(NULL, 0).number, 1);
    refusal(p, 7, 5, 1, 1);
    expect("start: not a grant", mantelorris_start(p, 12).number, 1);
    grant(p, 0, 100);
    expect("start: client 0", mantelorris_start(p, 12).number, 1);
    grant(p, 9, 100);
    expect("start: a byte too many", mantelorris_start(p, 13).number, 1);
    struct mantelorris_start_reply s = mantelorris_start(p, 12);
    expect("start", s.number, 0);
    struct mantelorris_client d = s.client, before;
    expect("start: client", d.client, 9);
    expect("start: lease", d.lease, 100);
    expect("start: next", d.next, 1);

    /* issue, and its refusals */
    before = d;
    send_refused("issue: op 6", mantelorris_issue(&d, 6, 5, 0), 1);
    send_refused("issue: op 256", mantelorris_issue(&d, 256, 5, 0), 1);
    send_refused("issue: point 64", mantelorris_issue(&d, 1, 64, 0), 1);
    send_refused("issue: read with an argument", mantelorris_issue(&d, 0, 5, 1), 1);
    send_refused("issue: part 1001", mantelorris_issue(&d, 5, 5, 1001), 1);
    send_refused("resend: nothing open", mantelorris_resend(&d, 1), 17);
    expect("refused: the client is as it was", memcmp(&before, &d, sizeof d), 0);
    request("issue 1", mantelorris_issue(&d, 1, 5, -40), 1, 5, 9, 1, 1, 100, -40);
    for (uint32_t call = 2; call <= 16; call++)
        request("issue 2 to 16", mantelorris_issue(&d, 2, 7, 2147483647), 2, 7, 9, call, 1, 100, 2147483647);
    before = d;
    send_refused("issue: 16 open", mantelorris_issue(&d, 1, 5, 0), 15);
    send_refused("resend: next", mantelorris_resend(&d, 17), 17);
    send_refused("resend: 0", mantelorris_resend(&d, 0), 17);
    expect("refused: the client is as it was", memcmp(&before, &d, sizeof d), 0);

    /* receive */
    refusal(p, 4, 5, 9, 1);
    got = mantelorris_receive(&d, p, 12);
    expect("receive: a refusal", got.number, 0);
    expect("receive: its kind", got.kind, 3);
    expect("receive: its number", got.refusal, 4);
    expect("receive: its call", got.call, 1);
    request("resend 1: a refusal closes nothing", mantelorris_resend(&d, 1), 1, 5, 9, 1, 1, 100, -40);
    before = d;
    result(p, 0, 6, 0, 9, 1, -40, 70);
    expect("receive: another point", mantelorris_receive(&d, p, 20).number, 17);
    result(p, 0, 5, 0, 8, 1, -40, 70);
    expect("receive: another client", mantelorris_receive(&d, p, 20).number, 17);
    result(p, 0, 5, 0, 9, 17, -40, 70);
    expect("receive: not open", mantelorris_receive(&d, p, 20).number, 17);
    result(p, 5, 5, 0, 9, 1, -40, 70);
    expect("receive: outcome 5", mantelorris_receive(&d, p, 20).number, 1);
    result(p, 0, 5, 3, 9, 1, -40, 70);
    expect("receive: quality 3", mantelorris_receive(&d, p, 20).number, 1);
    p[0] = 2;
    expect("receive: quality 3, without a time", mantelorris_receive(&d, p, 16).number, 1);
    result(p, 0, 5, 0, 9, 1, -40, 70);
    for (size_t length = 0; length <= 24; length++)
        if (length != 20) expect("receive: packet 7 of another length", mantelorris_receive(&d, p, length).number, 1);
    p[0] = 2;
    for (size_t length = 0; length <= 24; length++)
        if (length != 16) expect("receive: packet 2 of another length", mantelorris_receive(&d, p, length).number, 1);
    p[0] = 8;
    expect("receive: packet 8", mantelorris_receive(&d, p, 20).number, 1);
    grant(p, 9, 99);
    expect("receive: an earlier end", mantelorris_receive(&d, p, 12).number, 17);
    expect("receive: no packet", mantelorris_receive(&d, NULL, 0).number, 1);
    expect("refused: the client is as it was", memcmp(&before, &d, sizeof d), 0);
    grant(p, 9, 250);
    got = mantelorris_receive(&d, p, 12);
    expect("receive: a later end", got.number, 0);
    expect("receive: its kind", got.kind, 6);
    expect("receive: its end", got.lease, 250);
    expect("receive: no time", got.time, 0);
    result(p, 1, 7, 1, 9, 3, -2147483647 - 1, 4294967295u);
    got = mantelorris_receive(&d, p, 20);
    expect("receive: a result", got.number, 0);
    expect("receive: its kind", got.kind, 7);
    expect("receive: its time", got.time, 4294967295u);
    expect("receive: its call", got.call, 3);
    expect("receive: its outcome", got.outcome, 1);
    expect("receive: its quality", got.quality, 1);
    expect("receive: its value", got.value, -2147483647 - 1);
    expect("receive: the same again", mantelorris_receive(&d, p, 20).number, 17);
    send_refused("issue: 1 is still open", mantelorris_issue(&d, 1, 5, 0), 15);
    result(p, 0, 5, 2, 9, 1, -40, 70);
    p[0] = 2;
    got = mantelorris_receive(&d, p, 16);
    expect("receive: 1, without a time", got.number, 0);
    expect("receive: 1, its kind", got.kind, 7);
    expect("receive: 1, by hand", got.quality, MANTELORRIS_BY_HAND);
    expect("receive: 1, its value", got.value, -40);
    expect("receive: 1, its time", got.time, 0);
    request("issue 17: done is 2, with today's lease end", mantelorris_issue(&d, 4, 63, 0), 4, 63, 9, 17, 2, 250, 0);
    result(p, 0, 7, 2, 9, 2, 1, 0);
    got = mantelorris_receive(&d, p, 20);
    expect("receive: 2", got.number, 0);
    expect("receive: 2, by hand", got.quality, MANTELORRIS_BY_HAND);
    request("resend 4: done is 4", mantelorris_resend(&d, 4), 2, 7, 9, 4, 4, 250, 2147483647);

    /* the last number */
    grant(p, 9, 1);
    d = mantelorris_start(p, 12).client;
    d.next = 4294967294u;
    request("issue: the last number", mantelorris_issue(&d, 0, 0, 0), 0, 0, 9, 4294967294u, 4294967294u, 1, 0);
    send_refused("issue: no number left", mantelorris_issue(&d, 0, 0, 0), 16);
}

static void told(const char *what, struct mantelorris_lease_reply r, uint8_t kind, uint32_t client, uint32_t time) {
    expect(what, r.number, 0);
    expect(what, r.kind, kind);
    expect(what, r.length, 12);
    expect(what, at(r.packet), kind);
    expect(what, at(r.packet + 4), client);
    expect(what, at(r.packet + 8), time);
}

/* m is the manager that the call was lent, before what it was then */
static void lease_refused(const char *what, const struct mantelorris_lease_manager *m, struct mantelorris_lease_manager before,
                          struct mantelorris_lease_reply r, uint32_t number) {
    uint8_t none[12] = {0};
    expect(what, r.number, number);
    expect(what, r.kind, 0);
    expect(what, r.length, 0);
    expect(what, memcmp(r.packet, none, 12), 0);
    expect(what, memcmp(&before, m, sizeof before), 0);
}

static void leases(void) {
    struct mantelorris_lease_manager m = mantelorris_leases(), before;
    expect("leases: time", m.time, 0);
    expect("leases: issued", m.issued, 0);

    before = m;
    lease_refused("open: span 0", &m, before, mantelorris_open(&m, 5, 0), 1);
    before = m;
    lease_refused("open: span 86401", &m, before, mantelorris_open(&m, 5, 86401), 1);
    told("open 1", mantelorris_open(&m, 10, 100), 6, 1, 110);
    told("open 2: the office's time", mantelorris_open(&m, 5, 86400), 6, 2, 86410);
    expect("time", m.time, 10);
    told("renew 1: not greater", mantelorris_renew(&m, 1, 20, 1), 6, 1, 110);
    told("renew 1", mantelorris_renew(&m, 1, 109, 100), 6, 1, 209);
    before = m;
    lease_refused("renew: never issued", &m, before, mantelorris_renew(&m, 3, 300, 1), 17);
    before = m;
    lease_refused("renew: client 0", &m, before, mantelorris_renew(&m, 0, 300, 1), 17);
    before = m;
    lease_refused("query: never issued", &m, before, mantelorris_query(&m, 3, 300), 17);
    before = m;
    lease_refused("query: client 0", &m, before, mantelorris_query(&m, 0, 300), 17);
    told("query 1: running", mantelorris_query(&m, 1, 208), 6, 1, 209);
    before = m;
    lease_refused("renew 1: ended, time as before", &m, before, mantelorris_renew(&m, 1, 209, 1), 17);
    expect("time", m.time, 208);
    told("query 1: ended", mantelorris_query(&m, 1, 209), 5, 1, 209);
    told("query 1: still", mantelorris_query(&m, 1, 0), 5, 1, 209);
    before = m;
    lease_refused("open: end past 32 bits", &m, before, mantelorris_open(&m, 4294967295u, 1), 16);
    told("open: the last end", mantelorris_open(&m, 4294967294u, 1), 6, 3, 4294967295u);

    m = mantelorris_leases();
    for (uint32_t x = 1; x <= 32; x++)
        told("open 1 to 32", mantelorris_open(&m, 0, x), 6, x, x);
    before = m;
    lease_refused("open: full", &m, before, mantelorris_open(&m, 0, 1), 18);
    told("open 33: a place is free", mantelorris_open(&m, 1, 7), 6, 33, 8);
    told("query 33", mantelorris_query(&m, 33, 1), 6, 33, 8);
    m.issued = 4294967295u;
    before = m;
    lease_refused("open: no number left", &m, before, mantelorris_open(&m, 40, 1), 16);
}

int main(void) {
    clients();
    leases();
    printf("%d passed, %d failed\n", passed, failed);
    return failed != 0;
}
