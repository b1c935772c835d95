/* The job of the peer benchmark: numbered commands arrive in batches; each is carried out once, its result kept, and results leave when the batch is
 * durable. peer.c drives it; peer_kernel.c and peer_sqlite.c do it. */
#ifndef PEER_H
#define PEER_H

#include <stddef.h>
#include <stdint.h>

enum { CLIENTS = 16, MOST_BATCH = 256, LOW = -1000000, HIGH = 1000000 }; /* the range is that of examples/plan.h */

typedef uint8_t request_packet[24]; /* docs/FORMATS.md */

/* opens the file, or makes it new; all points can be read after it */
void job_open(const char *path);
/* carries out the commands that are new, and returns when the file has them for certain; values: their results */
void job_batch(const request_packet *requests, size_t n, int32_t *values);
/* answers commands that were carried out before */
void job_repeat(const request_packet *requests, size_t n, int32_t *values);
int32_t job_value(uint32_t point);
/* the greatest number of bytes of memory that the job itself has used */
uint64_t job_memory(void);

/* ends the program */
void fail(const char *what);

#endif
