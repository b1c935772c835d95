/* The lease manager of a plant, over the line of line.h. There is one, and what it knows must outlive it: it keeps it in a file.
 *
 *     leases --found FILE             once, when the plant is commissioned: no number was given out yet. Refuses a file that is there
 *     leases FILE PORT CABINET..      serves on 127.0.0.1:PORT until it is killed, at any moment; the cabinets' ports in the order of their numbers, 0 for one that is lost for good
 *     leases FILE                     prints what the file has, and ends
 *
 *   1. What a call has changed is on the disk before its packet leaves: two copies, each with a sequence number and a sum, written in turn.
 *   2. A desk names itself by a number that it drew at its start. The name is stored with the client number that it got, so an open that is repeated gets the same
 *      grant again, over a restart too. (A repeat so late that the lease has ended and every cabinet knows it takes a lease that nobody uses, and that ends.)
 *   3. When a lease has ended, its notice goes to every cabinet, once a second, until the cabinet has answered that its card has it; then the name is forgotten. A lost cabinet
 *      never answers: waited for, it would fill the table with names, and no desk would get a lease any more.
 *   4. Its time goes on from the stored one by seconds that it has run: it cannot fall, nor jump ahead. While it is down, no lease ends. */
#define _GNU_SOURCE
#include "line.h"
#include "mantelorris_client.h"
#include <errno.h>
#include <fcntl.h>
#include <libgen.h>
#include <sys/file.h>
#include <unistd.h>

enum { NAMES = 64, COPY_AT = 4096, TURN = 64 };

/* a desk, from its open until all cabinets have its notice; client 0: free. told: a bit for each cabinet that has it */
struct named {
    uint64_t name;
    uint32_t client, told;
};

static struct book {
    uint64_t sequence;
    struct mantelorris_lease_manager manager;
    struct named names[NAMES];
    uint64_t sum;
} book;
_Static_assert(sizeof book == 16 + 264 + 16 * NAMES, "no bytes between the fields");

static int file = -1, line = -1, cabinets;
static address cabinet[MANTELORRIS_SERVERS];
static uint32_t lost; /* a bit for each cabinet that is */
static uint32_t began_at;
static long began;

static void fail(const char *what) {
    perror(what);
    exit(1);
}

/* ---- the file */

/* returns when the disk has it for certain; the other copy stays as it was. Where this fails, the program ends and has answered nothing */
static void put_copy(void) {
    if (pwrite(file, &book, sizeof book, (off_t)(book.sequence % 2 * COPY_AT)) != (ssize_t)sizeof book) fail("leases: write");
    if (fdatasync(file)) fail("leases: sync");
}

static void store(void) {
    book.sequence++;
    book.sum = sum_of(&book, offsetof(struct book, sum));
    put_copy();
}

static int whole(const struct book *copy, size_t length) {
    return length == sizeof *copy && copy->sequence && copy->sum == sum_of(copy, offsetof(struct book, sum));
}

/* the later one of the whole copies; without one there is no way on: a manager that begins anew gives numbers out again */
static void load(const char *path) {
    for (int i = 0; i < 2; i++) {
        static struct book copy;
        ssize_t n = pread(file, &copy, sizeof copy, (off_t)(i * COPY_AT));
        if (n > 0 && whole(&copy, (size_t)n) && copy.sequence > book.sequence) book = copy;
    }
    if (book.sequence) return;
    fprintf(stderr, "leases: %s has no whole copy. Without one the plant is commissioned anew\n", path);
    exit(1);
}

/* Two managers on one file would give each number out twice. What was read may be in the system's cache alone, after a sync that failed even where the next one answers 0: it is
 * written once more, in its place, before the other copy is written over. */
static void take_file(const char *path) {
    file = open(path, O_RDWR);
    if (file < 0) fail(path);
    if (flock(file, LOCK_EX | LOCK_NB)) fail("leases: a lease manager runs on this file");
    load(path);
    put_copy();
}

static void found(const char *path) {
    char *copy = strdup(path);
    int folder = copy ? open(dirname(copy), O_RDONLY | O_DIRECTORY) : -1;
    file = open(path, O_RDWR | O_CREAT | O_EXCL, 0644);
    if (file < 0 || folder < 0) fail(path);
    book.manager = mantelorris_leases();
    store();
    if (fsync(folder)) fail("leases: folder");
}

static void print_book(const char *path) {
    file = open(path, O_RDONLY);
    if (file < 0) fail(path);
    load(path);
    int names = 0;
    for (int i = 0; i < NAMES; i++) names += book.names[i].client != 0;
    printf("time %u, %u numbers given out, %d desks\n", book.manager.time, book.manager.issued, names);
}

/* ---- leases */

static uint32_t now(void) {
    return began_at + (uint32_t)((milliseconds() - began) / 1000);
}

static struct named *named(uint64_t name) {
    for (int i = 0; i < NAMES; i++)
        if (book.names[i].client && book.names[i].name == name) return &book.names[i];
    return NULL;
}

static struct named *free_row(void) {
    for (int i = 0; i < NAMES; i++)
        if (book.names[i].client == 0) return &book.names[i];
    return NULL;
}

/* a name that has a client gets that client's grant, as long as the lease runs */
static struct mantelorris_lease_reply open_lease(uint64_t name, uint32_t span) {
    struct named *row = named(name);
    if (row) return mantelorris_query(&book.manager, row->client, now());
    row = free_row();
    if (!row) return (struct mantelorris_lease_reply){.number = MANTELORRIS_LEASES_FULL};
    struct mantelorris_lease_reply r = mantelorris_open(&book.manager, now(), span);
    if (r.number == 0) *row = (struct named){.name = name, .client = mantelorris_packet_client(r.packet)};
    return r;
}

static struct mantelorris_lease_reply renew_lease(uint64_t name, uint32_t span) {
    struct named *row = named(name);
    return row ? mantelorris_renew(&book.manager, row->client, now(), span) : (struct mantelorris_lease_reply){.number = MANTELORRIS_UNKNOWN};
}

/* stored, then answered; a lease that has ended is no lease any more */
static void asked(const uint8_t *message, const address *from) {
    uint64_t name = mantelorris_word_at(message, 4);
    uint32_t wanted = mantelorris_number_at(message, 12), span = wanted < SPAN ? wanted : SPAN; /* 0: malformed */
    struct mantelorris_lease_reply r = message[0] == LINE_OPEN ? open_lease(name, span) : renew_lease(name, span);
    uint8_t out[LEASE_SIZE] = {LINE_LEASE, (uint8_t)r.number};
    if (r.number == 0) store();
    if (r.kind == MANTELORRIS_KIND_NOTICE) out[1] = MANTELORRIS_UNKNOWN;
    put64(out + 4, name);
    if (r.kind == MANTELORRIS_KIND_GRANT) memcpy(out + 12, r.packet, r.length);
    line_send(line, from, out, sizeof out);
}

/* ---- notices */

/* a cabinet whose table is full asks for each of its clients, a desk for the one whose duty it takes over */
static void queried(uint32_t client, const address *from) {
    struct mantelorris_lease_reply r = mantelorris_query(&book.manager, client, now());
    if (r.number || r.kind != MANTELORRIS_KIND_NOTICE) return;
    store();
    line_send(line, from, r.packet, r.length);
}

/* once a second: the notices that a cabinet has not answered; their time is stored first */
static void send_notices(void) {
    static uint32_t last;
    static struct mantelorris_lease_reply notices[NAMES];
    int any = 0;
    if (now() == last) return;
    last = now();
    for (int i = 0; i < NAMES; i++) {
        if (book.names[i].client) notices[i] = mantelorris_query(&book.manager, book.names[i].client, last);
        any |= book.names[i].client && notices[i].kind == MANTELORRIS_KIND_NOTICE;
    }
    if (!any) return;
    store();
    for (int i = 0; i < NAMES; i++)
        for (int c = 0; c < cabinets && book.names[i].client && notices[i].kind == MANTELORRIS_KIND_NOTICE; c++)
            if (!((book.names[i].told | lost) >> c & 1)) line_send(line, &cabinet[c], notices[i].packet, notices[i].length);
}

/* all cabinets have the notice, but those that are lost */
static void forget(struct named *row) {
    if (row->told == 0 || (row->told | lost) + 1 != 1u << cabinets) return;
    *row = (struct named){0};
    store();
}

/* a cabinet has the notice; one that is forgotten with the power is sent again, and answered again */
static void saved(uint32_t server, uint32_t client) {
    for (int i = 0; i < NAMES; i++) {
        struct named *row = &book.names[i];
        if (row->client != client || client == 0 || server >= (uint32_t)cabinets) continue;
        row->told |= 1u << server;
        forget(row);
    }
}

static void take_message(const uint8_t *message, size_t length, const address *from) {
    int kind = message[0];
    if ((kind == LINE_OPEN || kind == LINE_RENEW) && length == ASK_SIZE) asked(message, from);
    if (kind == LINE_QUERY && length == QUERY_SIZE) queried(mantelorris_number_at(message, 4), from);
    if (kind == LINE_SAVED && length == SAVED_SIZE) saved(message[1], mantelorris_number_at(message, 4));
}

static void serve(void) {
    uint8_t message[LINE_LONGEST];
    address from;
    size_t n;
    began_at = book.manager.time;
    began = milliseconds();
    for (int i = 0; i < NAMES; i++) forget(&book.names[i]); /* those that waited for a cabinet that is lost now */
    for (;;) {
        line_wait(line, 100);
        for (int i = 0; i < TURN && (n = line_receive(line, message, &from)); i++) take_message(message, n, &from);
        send_notices();
    }
}

int main(int argc, char **argv) {
    if (mantelorris_version() != MANTELORRIS_VERSION) {
        fprintf(stderr, "leases: the library is of another version than its headers\n");
        return 2;
    }
    if (argc == 3 && strcmp(argv[1], "--found") == 0) {
        found(argv[2]);
        return 0;
    }
    if (argc == 2) {
        print_book(argv[1]);
        return 0;
    }
    if (argc < 4 || argc > 3 + MANTELORRIS_SERVERS) {
        fprintf(stderr, "usage: leases --found FILE, leases FILE [PORT CABINET..]\n");
        return 2;
    }
    take_file(argv[1]);
    cabinets = argc - 3;
    for (int i = 0; i < cabinets; i++) {
        cabinet[i] = line_address(argv[3 + i]);
        lost |= (uint32_t)(cabinet[i].sin_port == 0) << i;
    }
    line = line_open(argv[2]);
    serve();
}
