/* The client (paper: desk) and the lease manager (paper: lease office), from libmantelorris.a. C11, and C++.
 *
 * A client is made by mantelorris_start, a lease manager by mantelorris_leases; both are lent to the other calls. Their fields are the
 * library's: keep them, read them, do not change them. Copy them whole; compare them field by field, since bytes between fields may hold anything.
 * number is MANTELORRIS_OK or the refusal's number (mantelorris.h has their names); a refused call leaves the client or the manager as it was.
 * A byte slice is a pointer and its length. It must not overlap what is lent beside it.
 *
 * Client. Start it once from the grant of a new client number; one client for each number, never a second. Issue a command and send the packet;
 * send it again (mantelorris_resend) until its result comes. Only a result says what became of a command: a refusal packet does not say that it was
 * not carried out, so never issue the command anew because of one.
 *
 * Lease manager. Open gives a new client number, renew a later end, query says whether a lease runs: a grant, or a notice that it has ended, which
 * goes to the servers. Times are whole seconds and only rise. Keep its memory as long as there are clients: a second lease manager would
 * give client numbers again. */
#ifndef MANTELORRIS_CLIENT_H
#define MANTELORRIS_CLIENT_H

#include "mantelorris.h"

#ifdef __cplusplus
extern "C" {
#endif

/* call 0: no call stands here. argument is the command's argument + 2^31, here and in no packet: 2147483648 for 0 */
struct mantelorris_open_call {
    uint32_t call;
    uint8_t op;
    uint8_t point;
    uint32_t argument;
};

struct mantelorris_client {
    uint32_t client;
    uint32_t lease;
    uint32_t next;
    struct mantelorris_open_call calls[16];
};

struct mantelorris_start_reply {
    struct mantelorris_client client;
    uint32_t number;
};

/* call: the command's number; length: of the request in packet, 24; both are 0 where refused */
struct mantelorris_send_reply {
    uint32_t number;
    uint32_t call;
    uint32_t length;
    uint8_t packet[24];
};

/* kind: 7 a result, of either packet (time 0 where it has none), 3 a refusal (its number in refusal), 6 a grant (its end in lease), 0 where refused; what a
 * kind lacks is 0. time: the heard time of the server that carried the command out, as it was then */
struct mantelorris_receive_reply {
    uint32_t number;
    uint32_t kind;
    uint32_t call;
    int32_t value;
    uint32_t lease;
    uint8_t point;
    uint8_t outcome;
    uint8_t quality;
    uint8_t refusal;
    uint32_t time;
};

struct mantelorris_start_reply mantelorris_start(const uint8_t *packet, size_t length);
struct mantelorris_send_reply mantelorris_issue(struct mantelorris_client *client, uint32_t op, uint32_t point, int32_t argument);
struct mantelorris_send_reply mantelorris_resend(struct mantelorris_client *client, uint32_t call);
struct mantelorris_receive_reply mantelorris_receive(struct mantelorris_client *client, const uint8_t *packet, size_t length);

struct mantelorris_lease {
    uint32_t client;
    uint32_t lease;
};

struct mantelorris_lease_manager {
    uint32_t time;
    uint32_t issued;
    struct mantelorris_lease leases[32];
};

/* kind: MANTELORRIS_KIND_GRANT or MANTELORRIS_KIND_NOTICE; length: of it in packet, 12; both are 0 where refused */
struct mantelorris_lease_reply {
    uint32_t number;
    uint32_t kind;
    uint32_t length;
    uint8_t packet[12];
};

/* time 0, no leases */
struct mantelorris_lease_manager mantelorris_leases(void);
struct mantelorris_lease_reply mantelorris_open(struct mantelorris_lease_manager *manager, uint32_t time, uint32_t span);
struct mantelorris_lease_reply mantelorris_renew(struct mantelorris_lease_manager *manager, uint32_t client, uint32_t time, uint32_t span);
struct mantelorris_lease_reply mantelorris_query(struct mantelorris_lease_manager *manager, uint32_t client, uint32_t time);

/* the layouts that the library has */
MANTELORRIS_HAS_SIZE(struct mantelorris_open_call, 12);
MANTELORRIS_HAS_OFFSET(struct mantelorris_open_call, op, 4);
MANTELORRIS_HAS_OFFSET(struct mantelorris_open_call, point, 5);
MANTELORRIS_HAS_OFFSET(struct mantelorris_open_call, argument, 8);
MANTELORRIS_HAS_SIZE(struct mantelorris_client, 204);
MANTELORRIS_HAS_OFFSET(struct mantelorris_client, calls, 12);
MANTELORRIS_HAS_SIZE(struct mantelorris_start_reply, 208);
MANTELORRIS_HAS_OFFSET(struct mantelorris_start_reply, number, 204);
MANTELORRIS_HAS_SIZE(struct mantelorris_send_reply, 36);
MANTELORRIS_HAS_OFFSET(struct mantelorris_send_reply, packet, 12);
MANTELORRIS_HAS_SIZE(struct mantelorris_receive_reply, 28);
MANTELORRIS_HAS_OFFSET(struct mantelorris_receive_reply, value, 12);
MANTELORRIS_HAS_OFFSET(struct mantelorris_receive_reply, lease, 16);
MANTELORRIS_HAS_OFFSET(struct mantelorris_receive_reply, refusal, 23);
MANTELORRIS_HAS_OFFSET(struct mantelorris_receive_reply, time, 24);
MANTELORRIS_HAS_SIZE(struct mantelorris_lease, 8);
MANTELORRIS_HAS_OFFSET(struct mantelorris_lease, lease, 4);
MANTELORRIS_HAS_SIZE(struct mantelorris_lease_manager, 264);
MANTELORRIS_HAS_OFFSET(struct mantelorris_lease_manager, leases, 8);
MANTELORRIS_HAS_SIZE(struct mantelorris_lease_reply, 24);
MANTELORRIS_HAS_OFFSET(struct mantelorris_lease_reply, packet, 12);

#ifdef __cplusplus
}
#endif

#endif
