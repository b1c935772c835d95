/* replay TAPE: makes the calls of a tape (record.c) again, each with the same arguments and memory, and compares what it gives and all memory after it, byte by byte. Fails at the first difference, at a tape
 * that is not whole, and where one of the calls is not on it. The memory of a slice is as long as any slice there was: what lies behind a shorter one must stay. */
#include "calls.h"
#include <stdio.h>
#include <stdlib.h>

static FILE *tape;
static uint64_t made;

__attribute__((noreturn)) static void fail(const char *what) {
    printf("call %llu: %s\n", (unsigned long long)made, what);
    exit(1);
}

static void get(void *bytes, size_t length) {
    if (fread(bytes, 1, length, tape) != length) fail("the tape ends here");
}

static uint64_t get_number(void) {
    uint64_t number;
    get(&number, sizeof number);
    return number;
}

/* ---- slices: the memory that is lent, and what it has to be after the call */

enum { MEMORIES = 1 << 16, BEHIND = 0xA5 };
static struct memory {
    uint8_t *lent, *due;
    size_t size;
} memories[MEMORIES];

struct slice {
    uint8_t *at;
    size_t length;
    struct memory *memory; /* null: small */
    uint8_t small[SMALL + 64], due[SMALL + 64];
};

static void grow(struct memory *m, size_t size) {
    if (m->size >= size) return;
    m->lent = realloc(m->lent, size);
    m->due = realloc(m->due, size);
    if (!m->lent || !m->due) fail("no memory");
    memset(m->lent + m->size, 0, size - m->size);
    memset(m->due + m->size, 0, size - m->size);
    m->size = size;
}

static void get_changes(struct memory *m, int lent) {
    for (;;) {
        uint64_t at = get_number(), n = get_number(), filled = n & FILLED;
        n &= ~FILLED;
        if (n == 0) return;
        if (at > m->size || n > m->size - at) fail("no place on the tape");
        get(m->due + at, filled ? 1 : n);
        if (filled) memset(m->due + at, m->due[at], n);
        if (lent) memcpy(m->lent + at, m->due + at, n);
    }
}

static void get_slice(struct slice *s) {
    uint64_t number = get_number();
    s->length = get_number();
    s->memory = 0;
    if (number == WHOLE) {
        if (s->length >= SMALL) fail("no length on the tape");
        memset(s->small, BEHIND, sizeof s->small);
        memset(s->due, BEHIND, sizeof s->due);
        get(s->small, s->length);
        s->at = s->small;
        return;
    }
    if (number >= MEMORIES) fail("no memory on the tape");
    s->memory = &memories[number];
    grow(s->memory, s->length);
    get_changes(s->memory, 1);
    s->at = s->memory->lent;
}

/* what the call left behind, and that it changed nothing else */
static void compare_slice(struct slice *s, const char *name) {
    if (s->memory) get_changes(s->memory, 0);
    else get(s->due, s->length);
    if (s->memory ? memcmp(s->memory->lent, s->memory->due, s->memory->size) : memcmp(s->small, s->due, sizeof s->small)) fail(name);
}

/* a slice that is only read is as it was */
static void compare_kept(struct slice *s, const char *name) {
    if (s->memory && memcmp(s->memory->lent, s->memory->due, s->memory->size)) fail(name);
}

static void compare(const void *have, size_t length, const char *what) {
    static uint8_t due[1024];
    get(due, length);
    if (memcmp(have, due, length)) fail(what);
}

/* ---- the calls */

#define LOCAL_IN(s) struct slice s; get_slice(&s);
#define LOCAL_MUT(s) struct slice s; get_slice(&s);
#define LOCAL_U32(n) uint32_t n = (uint32_t)get_number();
#define LOCAL_I32(n) int32_t n = (int32_t)(uint32_t)get_number();
#define LOCAL_U64(n) uint64_t n = get_number();
#define LOCAL_CLIENT(s) client_struct s; get(&s, sizeof s);
#define LOCAL_MANAGER(s) manager_struct s; get(&s, sizeof s);
#define LOCAL_CHAMBER(s) chamber_struct s; get(&s, sizeof s);
#define ARGUMENT_IN(s) s.at, s.length
#define ARGUMENT_MUT(s) s.at, s.length
#define ARGUMENT_U32(n) n
#define ARGUMENT_I32(n) n
#define ARGUMENT_U64(n) n
#define ARGUMENT_CLIENT(s) &s
#define ARGUMENT_MANAGER(s) &s
#define ARGUMENT_CHAMBER(s) s
#define AFTER_IN(s) compare_kept(&s, #s);
#define AFTER_MUT(s) compare_slice(&s, #s);
#define AFTER_U32(n)
#define AFTER_I32(n)
#define AFTER_U64(n)
#define AFTER_CLIENT(s) clean_client_struct(&s); compare(&s, sizeof s, #s);
#define AFTER_MANAGER(s) clean_manager_struct(&s); compare(&s, sizeof s, #s);
#define AFTER_CHAMBER(s)

#define LOCAL(kind, name) LOCAL_##kind(name)
#define ARGUMENT(kind, name) ARGUMENT_##kind(name)
#define MORE_ARGUMENTS(kind, name) , ARGUMENT_##kind(name)
#define AFTER(kind, name) AFTER_##kind(name)

#define REPLAYED(name, gives) \
    static void replay_##name(void) { \
        ARGS_##name(LOCAL, LOCAL) \
        gives given = mantelorris_##name(ARGS_##name(ARGUMENT, MORE_ARGUMENTS)); \
        clean_##gives(&given); \
        compare(&given, sizeof given, #name " gives something else"); \
        ARGS_##name(AFTER, AFTER) \
    }
CALLS(REPLAYED)

static struct {
    const char *name;
    void (*replay)(void);
    uint64_t times;
} calls[] = {
#define ROW(name, gives) {#name, replay_##name, 0},
    CALLS(ROW)
};

int main(int count, char **words) {
    tape = count == 2 ? fopen(words[1], "rb") : 0;
    if (!tape) {
        printf("replay TAPE: which tape?\n");
        return 2;
    }
    for (;;) {
        uint64_t call = get_number();
        if (call == CALL_END) break;
        if (call > CALL_END) fail("no call on the tape");
        calls[call].replay();
        calls[call].times++;
        made++;
    }
    if (get_number() != made) fail("the tape has another count");
    int missing = 0;
    printf("%llu calls:", (unsigned long long)made);
    for (size_t i = 0; i < CALL_END; i++) {
        printf(" %s %llu%s", calls[i].name, (unsigned long long)calls[i].times, i + 1 < CALL_END ? "," : "\n");
        missing |= calls[i].times == 0;
    }
    if (missing) printf("a call is not on the tape\n");
    return missing;
}
