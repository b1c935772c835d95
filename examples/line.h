/* The line of a plant with several cabinets, a lease manager and desks: UDP on 127.0.0.1, and the messages that go over it beside the library's packets (first byte 1
 * to 7). Each may be lost, late or repeated, and whoever sent one sends it again until the answer has come, so each is made such that a repeat does no harm.
 *
 *     OPEN    desk to lease manager      0 0 0, name (8), seconds           a lease for the desk of this name, drawn at random at each of its starts
 *     RENEW   desk to lease manager      0 0 0, name (8), seconds           a later end
 *     LEASE   the answer to both         number 0 0, name (8), grant (12)   number: 0, or the refusal's, and then there is no grant
 *     QUERY   any to lease manager       0 0 0, client                      has its lease ended? Then the notice comes, to hand on to cabinets
 *     SAVED   cabinet, to a notice       server 0 0, client, heard time,    the client is not known here, and the card has that; which points are held here then, a bit
 *                                        points (8)                         for each: of these the card's heard time is the fence
 *     MOVE    desk to cabinets           point destination 0, move          give the point away, if this would be its move of this number
 *     PLACE   the answer                 point status server, move          where the point stands there
 *     PIECE   giver to taker             point index 0, length, sum (8)     up to 1,024 bytes of an image of this length and sum; the answer is a receipt
 *
 * Numbers are little-endian, 4 bytes where nothing else is said. A line that damages bytes needs a checksum around each message, an open one a keyed tag. */
#ifndef EXAMPLE_LINE_H
#define EXAMPLE_LINE_H

#include "mantelorris.h"
#include "plan.h"
#include <arpa/inet.h>
#include <poll.h>
#include <stdio.h>
#include <stdlib.h>
#include <sys/socket.h>
#include <time.h>

enum { LINE_OPEN = 0x81, LINE_RENEW, LINE_LEASE, LINE_QUERY, LINE_SAVED, LINE_MOVE, LINE_PLACE, LINE_PIECE };
enum { ASK_SIZE = 16, LEASE_SIZE = 24, QUERY_SIZE = 8, SAVED_SIZE = 20, MOVE_SIZE = 8, PIECE_HEAD = 16, PIECE_BYTES = 1024, LINE_LONGEST = PIECE_HEAD + PIECE_BYTES };
enum { CABINETS = 2 };

#ifndef SPAN
#define SPAN 600 /* seconds of a lease, at most */
#endif

typedef struct sockaddr_in address;

static inline long milliseconds(void) {
    struct timespec t;
    clock_gettime(CLOCK_MONOTONIC, &t);
    return t.tv_sec * 1000 + t.tv_nsec / 1000000;
}

static inline address line_address(const char *port) {
    return (address){.sin_family = AF_INET, .sin_port = htons((uint16_t)atoi(port)), .sin_addr.s_addr = htonl(INADDR_LOOPBACK)};
}

/* port "0": any */
static inline int line_open(const char *port) {
    address here = line_address(port);
    int line = socket(AF_INET, SOCK_DGRAM, 0);
    if (line >= 0 && bind(line, (struct sockaddr *)&here, sizeof here) == 0) return line;
    perror("line");
    exit(1);
}

/* what is lost is sent again */
static inline void line_send(int line, const address *to, const uint8_t *bytes, size_t length) {
    sendto(line, bytes, length, 0, (const struct sockaddr *)to, sizeof *to);
}

/* waits up to so many milliseconds */
static inline void line_wait(int line, int timeout) {
    struct pollfd ready = {.fd = line, .events = POLLIN};
    poll(&ready, 1, timeout);
}

/* a datagram that has arrived: its length, 0 if there is none; an empty one is none */
static inline size_t line_receive(int line, uint8_t bytes[LINE_LONGEST], address *from) {
    socklen_t size = sizeof *from;
    ssize_t n = recvfrom(line, bytes, LINE_LONGEST, MSG_DONTWAIT, (struct sockaddr *)from, &size);
    return n > 0 ? (size_t)n : 0;
}

static inline void put64(uint8_t *p, uint64_t v) {
    put32(p, (uint32_t)v);
    put32(p + 4, (uint32_t)(v >> 32));
}

/* tells one image from another, and whole bytes from torn ones (FNV-1a); where someone may mean harm, take a keyed one */
static inline uint64_t sum_of(const void *bytes, size_t length) {
    const uint8_t *p = bytes;
    uint64_t sum = 0xCBF29CE484222325u;
    for (size_t i = 0; i < length; i++) sum = (sum ^ p[i]) * 0x100000001B3u;
    return sum;
}

#endif
