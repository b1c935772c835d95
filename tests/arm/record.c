/* Every call of the library, written down on its way: the functions of the headers, each over the library's own, which has `real_` before its name (tests/arm/run.sh renames it). Of RECORD_ONE_IN rows
 * of 256 calls one goes to the file RECORD_TAPE, with all that it is lent, gives and leaves behind (calls.h). Calls may come from several threads. */
#include "calls.h"
#include <pthread.h>
#include <stdio.h>
#include <stdlib.h>

static pthread_mutex_t alone = PTHREAD_MUTEX_INITIALIZER;
enum { ROW = 256 };
static FILE *tape;
static uint64_t seen, written, one_in;

static void put(const void *bytes, size_t length) {
    if (fwrite(bytes, 1, length, tape) != length) {
        perror("record");
        abort();
    }
}

static void put_number(uint64_t number) { put(&number, sizeof number); }

static void finish(void) {
    put_number(CALL_END);
    put_number(written);
    if (fclose(tape)) perror("record");
}

static void begin(void) {
    const char *path = getenv("RECORD_TAPE"), *rate = getenv("RECORD_ONE_IN");
    one_in = rate ? strtoull(rate, 0, 10) : 1;
    tape = fopen(path ? path : "", "wb");
    if (!tape || !one_in) {
        fprintf(stderr, "record: RECORD_TAPE names no file that can be written, or RECORD_ONE_IN no number\n");
        abort();
    }
    atexit(finish);
}

/* 1: this call is written down, and its number is on the tape */
static int recorded(enum calls call) {
    if (!tape) begin();
    if (seen++ / ROW % one_in) return 0;
    written++;
    put_number(call);
    return 1;
}

/* ---- slices: memory by its address, and what of it is on the tape */

enum { MEMORIES = 1 << 16, CHUNK = 64 };
static struct memory {
    const uint8_t *at;
    uint8_t *known;
    size_t size;
} memories[MEMORIES];

static struct memory *memory_at(const uint8_t *at, size_t length) {
    size_t i = (uintptr_t)at / 16 * 2654435761u % MEMORIES;
    for (size_t tried = 0; memories[i].at && memories[i].at != at; i = (i + 1) % MEMORIES) {
        if (tried++ == MEMORIES / 2) abort();
    }
    struct memory *m = &memories[i];
    m->at = at;
    if (m->size < length) {
        m->known = realloc(m->known, length);
        if (!m->known) abort();
        memset(m->known + m->size, 0, length - m->size);
        m->size = length;
    }
    return m;
}

static int differ(const uint8_t *known, const uint8_t *bytes, size_t at, size_t length) {
    return at < length && memcmp(known + at, bytes + at, length - at < CHUNK ? length - at : CHUNK) != 0;
}

/* a row of places, lengths and bytes, that ends with a length of 0; bytes that are all the same are a length with FILLED and one byte */
static void put_changes(uint8_t *known, const uint8_t *bytes, size_t length) {
    for (size_t at = 0; at < length; at += CHUNK) {
        if (!differ(known, bytes, at, length)) continue;
        size_t from = at;
        while (differ(known, bytes, at + CHUNK, length)) at += CHUNK;
        size_t n = (length - at < CHUNK ? length : at + CHUNK) - from;
        while (known[from] == bytes[from]) from++, n--;
        while (known[from + n - 1] == bytes[from + n - 1]) n--;
        int filled = memcmp(bytes + from, bytes + from + 1, n - 1) == 0;
        put_number(from);
        put_number(filled ? n | FILLED : n);
        put(bytes + from, filled ? 1 : n);
        memcpy(known + from, bytes + from, n);
    }
    put_number(0);
    put_number(0);
}

static void put_slice(const uint8_t *bytes, size_t length) {
    struct memory *m = length < SMALL ? 0 : memory_at(bytes, length);
    put_number(m ? (uint64_t)(m - memories) : WHOLE);
    put_number(length);
    if (m) put_changes(m->known, bytes, length);
    else put(bytes, length);
}

static void put_left(const uint8_t *bytes, size_t length) {
    if (length < SMALL) put(bytes, length);
    else put_changes(memory_at(bytes, length)->known, bytes, length);
}

#define PUT_STRUCT(type) \
    static void put_##type(const type *s) { \
        type cleaned = *s; \
        clean_##type(&cleaned); \
        put(&cleaned, sizeof cleaned); \
    }
PUT_STRUCT(client_struct)
PUT_STRUCT(manager_struct)
PUT_STRUCT(chamber_struct)

/* ---- the calls */

#define PARAMETER_IN(s) const uint8_t *s, size_t s##_length
#define PARAMETER_MUT(s) uint8_t *s, size_t s##_length
#define PARAMETER_U32(n) uint32_t n
#define PARAMETER_I32(n) int32_t n
#define PARAMETER_U64(n) uint64_t n
#define PARAMETER_CLIENT(s) client_struct *s
#define PARAMETER_MANAGER(s) manager_struct *s
#define PARAMETER_CHAMBER(s) chamber_struct s
#define ARGUMENT_IN(s) s, s##_length
#define ARGUMENT_MUT(s) s, s##_length
#define ARGUMENT_U32(n) n
#define ARGUMENT_I32(n) n
#define ARGUMENT_U64(n) n
#define ARGUMENT_CLIENT(s) s
#define ARGUMENT_MANAGER(s) s
#define ARGUMENT_CHAMBER(s) s
#define BEFORE_IN(s) put_slice(s, s##_length)
#define BEFORE_MUT(s) put_slice(s, s##_length)
#define BEFORE_U32(n) put_number(n)
#define BEFORE_I32(n) put_number((uint32_t)n)
#define BEFORE_U64(n) put_number(n)
#define BEFORE_CLIENT(s) put_client_struct(s)
#define BEFORE_MANAGER(s) put_manager_struct(s)
#define BEFORE_CHAMBER(s) put_chamber_struct(&s)
#define AFTER_IN(s) (void)0
#define AFTER_MUT(s) put_left(s, s##_length)
#define AFTER_U32(n) (void)0
#define AFTER_I32(n) (void)0
#define AFTER_U64(n) (void)0
#define AFTER_CLIENT(s) put_client_struct(s)
#define AFTER_MANAGER(s) put_manager_struct(s)
#define AFTER_CHAMBER(s) (void)0

#define PARAMETER(kind, name) PARAMETER_##kind(name)
#define MORE_PARAMETERS(kind, name) , PARAMETER_##kind(name)
#define ARGUMENT(kind, name) ARGUMENT_##kind(name)
#define MORE_ARGUMENTS(kind, name) , ARGUMENT_##kind(name)
#define BEFORE(kind, name) BEFORE_##kind(name);
#define AFTER(kind, name) AFTER_##kind(name);

#define RECORDED(name, gives) \
    gives real_mantelorris_##name(ARGS_##name(PARAMETER, MORE_PARAMETERS)); \
    gives mantelorris_##name(ARGS_##name(PARAMETER, MORE_PARAMETERS)) { \
        pthread_mutex_lock(&alone); \
        int tell = recorded(CALL_##name); \
        if (tell) { ARGS_##name(BEFORE, BEFORE) } \
        gives given = real_mantelorris_##name(ARGS_##name(ARGUMENT, MORE_ARGUMENTS)); \
        if (tell) { \
            gives cleaned = given; \
            clean_##gives(&cleaned); \
            put(&cleaned, sizeof cleaned); \
            ARGS_##name(AFTER, AFTER) \
        } \
        pthread_mutex_unlock(&alone); \
        return given; \
    }
CALLS(RECORDED)
