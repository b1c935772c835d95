/* The calls of the library with their arguments, the version aside: for record.c, which stands between compare/ and the library and writes each call down, and for replay.c, which
 * makes it again on another processor. A tape has, in numbers of 8 bytes: the call's place in CALLS; the arguments in their order; what the call gave; then each argument that it may change. */
#include "mantelorris_chamber.h"
#include <string.h>

/* kinds of arguments: IN a slice that is read, MUT one that is written too; U32, I32, U64 numbers; CLIENT, MANAGER a struct lent by pointer; CHAMBER one by value. F is for the first, M for the others */
#define ARGS_found(F, M) F(MUT, state) M(MUT, log) M(IN, plan) M(U32, server)
#define ARGS_request(F, M) F(MUT, state) M(MUT, log) M(IN, packet) M(MUT, out)
#define ARGS_fetch(F, M) F(IN, state) M(IN, log) M(U32, client) M(U32, call) M(MUT, out)
#define ARGS_sync(F, M) F(MUT, state) M(IN, log) M(U64, mark)
#define ARGS_notice(F, M) F(MUT, state) M(MUT, log) M(IN, packet)
#define ARGS_give(F, M) F(MUT, state) M(MUT, log) M(U32, point) M(U32, destination)
#define ARGS_image(F, M) F(IN, state) M(IN, log) M(U32, point) M(MUT, out)
#define ARGS_take(F, M) F(MUT, state) M(MUT, log) M(IN, image)
#define ARGS_receipt(F, M) F(IN, state) M(IN, log) M(U32, point) M(MUT, out)
#define ARGS_release(F, M) F(MUT, state) M(MUT, log) M(IN, packet)
#define ARGS_recover(F, M) F(MUT, state) M(IN, log) M(IN, plan)
#define ARGS_checkpoint(F, M) F(MUT, state) M(IN, log) M(MUT, checkpoint) M(MUT, tail)
#define ARGS_recover_checkpoint(F, M) F(MUT, state) M(IN, checkpoint) M(IN, tail)
#define ARGS_log_end(F, M) F(IN, log)
#define ARGS_inspect(F, M) F(IN, state) M(IN, checkpoint) M(IN, tail) M(U32, client) M(U32, call)
#define ARGS_start(F, M) F(IN, packet)
#define ARGS_issue(F, M) F(CLIENT, client) M(U32, op) M(U32, point) M(I32, argument)
#define ARGS_resend(F, M) F(CLIENT, client) M(U32, call)
#define ARGS_receive(F, M) F(CLIENT, client) M(IN, packet)
#define ARGS_leases(F, M)
#define ARGS_open(F, M) F(MANAGER, manager) M(U32, time) M(U32, span)
#define ARGS_renew(F, M) F(MANAGER, manager) M(U32, client) M(U32, time) M(U32, span)
#define ARGS_query(F, M) F(MANAGER, manager) M(U32, client) M(U32, time)
#define ARGS_chamber_start(F, M) F(IN, packet) M(U32, upper) M(U32, lower) M(U32, level1) M(U32, level2) M(U32, level3)
#define ARGS_chamber_issue(F, M) F(CHAMBER, chamber) M(U32, op) M(U32, point) M(I32, argument)
#define ARGS_chamber_resend(F, M) F(CHAMBER, chamber) M(U32, call)
#define ARGS_chamber_receive(F, M) F(CHAMBER, chamber) M(IN, packet)

/* each with what it gives */
#define CALLS(C) \
    C(found, answer) C(request, answer) C(fetch, answer) C(sync, answer) C(notice, answer) C(give, answer) C(image, answer) C(take, answer) C(receipt, answer) C(release, answer) \
    C(recover, answer) C(checkpoint, answer) C(recover_checkpoint, answer) C(log_end, log_end_reply) C(inspect, place) C(start, start_reply) C(issue, send_reply) C(resend, send_reply) \
    C(receive, receive_reply) C(leases, manager_struct) C(open, lease_reply) C(renew, lease_reply) C(query, lease_reply) C(chamber_start, chamber_start_reply) C(chamber_issue, chamber_send_reply) \
    C(chamber_resend, chamber_send_reply) C(chamber_receive, chamber_receive_reply)

enum calls {
#define NUMBERED(name, gives) CALL_##name,
    CALLS(NUMBERED)
#undef NUMBERED
    CALL_END /* behind the last call, with their count */
};

/* slices shorter than this stand on the tape whole; of a longer one its memory's number and what is changed in it since it was seen last */
enum { SMALL = 1024 };
static const uint64_t WHOLE = UINT64_MAX, FILLED = 1ULL << 63;

typedef uint64_t answer;
typedef struct mantelorris_log_end_reply log_end_reply;
typedef struct mantelorris_place place;
typedef struct mantelorris_client client_struct;
typedef struct mantelorris_start_reply start_reply;
typedef struct mantelorris_send_reply send_reply;
typedef struct mantelorris_receive_reply receive_reply;
typedef struct mantelorris_lease_manager manager_struct;
typedef struct mantelorris_lease_reply lease_reply;
typedef struct mantelorris_chamber chamber_struct;
typedef struct mantelorris_chamber_start_reply chamber_start_reply;
typedef struct mantelorris_chamber_send_reply chamber_send_reply;
typedef struct mantelorris_chamber_receive_reply chamber_receive_reply;

/* the bytes between fields may hold anything: they are made 0 before two structs are compared */
static inline void clear(void *bytes, size_t from, size_t to) { memset((uint8_t *)bytes + from, 0, to - from); }
static inline void clean_answer(answer *a) { (void)a; }
static inline void clean_log_end_reply(log_end_reply *r) { clear(r, 4, 8); }
static inline void clean_place(place *p) { (void)p; }
static inline void clean_client_struct(client_struct *c) {
    for (int i = 0; i < 16; i++) clear(&c->calls[i], 6, 8);
}
static inline void clean_start_reply(start_reply *r) { clean_client_struct(&r->client); }
static inline void clean_send_reply(send_reply *r) { (void)r; }
static inline void clean_receive_reply(receive_reply *r) { (void)r; }
static inline void clean_manager_struct(manager_struct *m) { (void)m; }
static inline void clean_lease_reply(lease_reply *r) { (void)r; }
static inline void clean_chamber_struct(chamber_struct *c) {
    clean_client_struct(&c->client);
    clear(c, 209, 212);
    for (int i = 0; i < 5; i++) clear(&c->reads[i], 9, 12);
}
static inline void clean_chamber_start_reply(chamber_start_reply *r) { clean_chamber_struct(&r->chamber); }
static inline void clean_chamber_send_reply(chamber_send_reply *r) { clean_chamber_struct(&r->chamber); }
static inline void clean_chamber_receive_reply(chamber_receive_reply *r) { clean_chamber_struct(&r->chamber); }
