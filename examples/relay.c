/* A poor line between a desk and a host: it loses, repeats and delays datagrams, each way.
 *
 *     relay PORT HOST_PORT [LOSS [REPEAT [DELAY [SEED]]]]      in percent; ends, with its counts, when it gets SIGTERM
 */
#include <arpa/inet.h>
#include <poll.h>
#include <signal.h>
#include <stdint.h>
#include <stdio.h>
#include <stdlib.h>
#include <string.h>
#include <sys/socket.h>
#include <unistd.h>

enum { HELD = 32, LONGEST = 2048 };

struct datagram {
    int to_host;
    size_t length;
    uint8_t bytes[LONGEST];
};

static int desk_side, host_side, loss = 20, repeat = 20, delay = 20;
static struct sockaddr_in desk, host;
static struct datagram held[HELD];
static size_t holding;
static unsigned long passed, lost, repeated, delayed;
static volatile sig_atomic_t ending;

static void end(int signal) {
    (void)signal;
    ending = 1;
}

static uint32_t seed = 1;

static int chance(int percent) {
    seed ^= seed << 13;
    seed ^= seed >> 17;
    seed ^= seed << 5;
    return (int)(seed % 100) < percent;
}

static struct sockaddr_in local(int port) {
    return (struct sockaddr_in){.sin_family = AF_INET, .sin_port = htons((uint16_t)port), .sin_addr.s_addr = htonl(INADDR_LOOPBACK)};
}

static void pass(const struct datagram *d) {
    if (!d->to_host && desk.sin_port == 0) return;
    const struct sockaddr_in *to = d->to_host ? &host : &desk;
    sendto(d->to_host ? host_side : desk_side, d->bytes, d->length, 0, (const struct sockaddr *)to, sizeof *to);
    passed++;
}

static void take(const struct datagram *d) {
    if (chance(loss)) {
        lost++;
        return;
    }
    if (chance(delay) && holding < HELD) {
        held[holding++] = *d;
        delayed++;
    } else {
        pass(d);
    }
    if (chance(repeat)) {
        pass(d);
        repeated++;
    }
}

/* one datagram of a side, if there is one */
static int receive(int side, int to_host) {
    struct datagram d = {.to_host = to_host};
    struct sockaddr_in from;
    socklen_t size = sizeof from;
    ssize_t n = recvfrom(side, d.bytes, sizeof d.bytes, MSG_DONTWAIT, (struct sockaddr *)&from, &size);
    if (n < 0) return 0;
    if (to_host) desk = from;
    d.length = (size_t)n;
    take(&d);
    return 1;
}

int main(int argc, char **argv) {
    if (argc < 3 || argc > 7) {
        fprintf(stderr, "usage: relay PORT HOST_PORT [LOSS [REPEAT [DELAY [SEED]]]]\n");
        return 2;
    }
    if (argc > 3) loss = atoi(argv[3]);
    if (argc > 4) repeat = atoi(argv[4]);
    if (argc > 5) delay = atoi(argv[5]);
    if (argc > 6) seed = (uint32_t)atoi(argv[6]) * 2654435761u | 1;
    struct sockaddr_in here = local(atoi(argv[1]));
    host = local(atoi(argv[2]));
    desk_side = socket(AF_INET, SOCK_DGRAM, 0);
    host_side = socket(AF_INET, SOCK_DGRAM, 0);
    if (bind(desk_side, (struct sockaddr *)&here, sizeof here)) {
        perror("relay");
        return 1;
    }
    struct sigaction action = {.sa_handler = end};
    sigaction(SIGTERM, &action, NULL);
    sigaction(SIGINT, &action, NULL);
    while (!ending) {
        struct pollfd ready[2] = {{.fd = desk_side, .events = POLLIN}, {.fd = host_side, .events = POLLIN}};
        poll(ready, 2, holding ? 2 : 100);
        while (receive(desk_side, 1) || receive(host_side, 0)) {
        }
        /* what was held comes late, and in another order */
        if (holding && chance(30)) {
            size_t i = seed % holding;
            pass(&held[i]);
            held[i] = held[--holding];
        }
    }
    printf("line: %lu datagrams passed on, %lu lost, %lu repeated, %lu delayed\n", passed, lost, repeated, delayed);
    return 0;
}
