/* The job on SQLite: write-ahead log, synchronous=FULL, one process (exclusive locking saves it the lock calls), statements prepared once, one
 * transaction a batch. Completion records stay for ever: dropping those acknowledged, and the floors this needs, would be more work for it. */
#include "peer.h"
#include "mantelorris.h"
#include <errno.h>
#include <sqlite3.h>
#include <stdlib.h>

static sqlite3 *db;
static sqlite3_stmt *begin, *commit, *find, *point_read, *point_write, *keep;

struct outcome {
    int outcome, value, quality;
};

static void ok(int code) {
    errno = EIO;
    if (code != SQLITE_OK && code != SQLITE_DONE && code != SQLITE_ROW) fail(sqlite3_errmsg(db));
}

static void prepare(sqlite3_stmt **s, const char *text) {
    ok(sqlite3_prepare_v3(db, text, -1, SQLITE_PREPARE_PERSISTENT, s, NULL));
}

void job_open(const char *path) {
    if (sqlite3_open_v2(path, &db, SQLITE_OPEN_READWRITE | SQLITE_OPEN_CREATE | SQLITE_OPEN_NOMUTEX, NULL)) fail(path);
    ok(sqlite3_exec(db, "PRAGMA locking_mode=EXCLUSIVE; PRAGMA journal_mode=WAL; PRAGMA synchronous=FULL;"
                        "BEGIN;"
                        "CREATE TABLE IF NOT EXISTS points (point INTEGER PRIMARY KEY, value INTEGER, quality INTEGER);"
                        "CREATE TABLE IF NOT EXISTS completed (client INTEGER, call INTEGER, op INTEGER, point INTEGER, argument INTEGER, outcome INTEGER,"
                        " value INTEGER, quality INTEGER, PRIMARY KEY (client, call)) WITHOUT ROWID;"
                        "WITH RECURSIVE n(p) AS (SELECT 0 UNION ALL SELECT p + 1 FROM n WHERE p < 63)"
                        " INSERT INTO points SELECT p, 0, 1 FROM n WHERE NOT EXISTS (SELECT 1 FROM points);"
                        "COMMIT;", NULL, NULL, NULL));
    prepare(&begin, "BEGIN");
    prepare(&commit, "COMMIT");
    prepare(&find, "SELECT op, point, argument, value FROM completed WHERE client = ?1 AND call = ?2");
    prepare(&point_read, "SELECT value, quality FROM points WHERE point = ?1");
    prepare(&point_write, "UPDATE points SET value = ?2, quality = ?3 WHERE point = ?1");
    prepare(&keep, "INSERT INTO completed VALUES (?1, ?2, ?3, ?4, ?5, ?6, ?7, ?8)");
}

static void bind(sqlite3_stmt *s, int n, const int *numbers) {
    for (int i = 0; i < n; i++) sqlite3_bind_int(s, i + 1, numbers[i]);
}

static void step(sqlite3_stmt *s) {
    ok(sqlite3_step(s));
    ok(sqlite3_reset(s));
}

static int32_t argument_of(const uint8_t *packet) {
    return (int32_t)mantelorris_number_at(packet, 20);
}

/* whether the command has a completion record; its value then */
static int completed(const uint8_t *packet, int32_t *value) {
    bind(find, 2, (int[]){(int)mantelorris_packet_client(packet), (int)mantelorris_packet_call(packet)});
    int code = sqlite3_step(find), found = code == SQLITE_ROW;
    ok(code);
    if (found) {
        int same = sqlite3_column_int(find, 0) == packet[1] && sqlite3_column_int(find, 1) == packet[2] && sqlite3_column_int(find, 2) == argument_of(packet);
        if (!same) fail("other command");
        *value = sqlite3_column_int(find, 3);
    }
    sqlite3_reset(find);
    return found;
}

static struct outcome read_point(int point) {
    bind(point_read, 1, &point);
    if (sqlite3_step(point_read) != SQLITE_ROW) fail("point");
    struct outcome now = {0, sqlite3_column_int(point_read, 0), sqlite3_column_int(point_read, 1)};
    sqlite3_reset(point_read);
    return now;
}

/* set and step, by the kernel's rules */
static struct outcome set_to(struct outcome now, int value) {
    if (value < LOW || value > HIGH) return (struct outcome){MANTELORRIS_OUTCOME_OUT_OF_RANGE, now.value, now.quality};
    return (struct outcome){MANTELORRIS_OUTCOME_DONE, value, MANTELORRIS_BY_HAND};
}

static struct outcome step_by(struct outcome now, int argument) {
    if (now.quality == MANTELORRIS_INVALID) return (struct outcome){MANTELORRIS_OUTCOME_INVALID, now.value, now.quality};
    int64_t sum = (int64_t)now.value + argument, value = sum < LOW ? LOW : sum > HIGH ? HIGH : sum;
    return (struct outcome){value == sum ? MANTELORRIS_OUTCOME_DONE : MANTELORRIS_OUTCOME_STOPPED, (int)value, now.quality};
}

static int32_t command(const uint8_t *packet) {
    int op = packet[1], point = packet[2], argument = argument_of(packet);
    int32_t before;
    if (completed(packet, &before)) return before;
    struct outcome now = read_point(point), r = op == MANTELORRIS_SET ? set_to(now, argument) : step_by(now, argument);
    bind(point_write, 3, (int[]){point, r.value, r.quality});
    step(point_write);
    bind(keep, 8, (int[]){(int)mantelorris_packet_client(packet), (int)mantelorris_packet_call(packet), op, point, argument, r.outcome, r.value, r.quality});
    step(keep);
    return r.value;
}

void job_batch(const request_packet *requests, size_t n, int32_t *values) {
    step(begin);
    for (size_t i = 0; i < n; i++) values[i] = command(requests[i]);
    step(commit);
}

/* the same way as a new command: a repeat is known by its completion record alone */
void job_repeat(const request_packet *requests, size_t n, int32_t *values) {
    int changes = sqlite3_total_changes(db);
    job_batch(requests, n, values);
    if (sqlite3_total_changes(db) != changes) fail("a repeat was carried out");
}

int32_t job_value(uint32_t point) {
    return read_point((int)point).value;
}

/* what SQLite has allocated */
uint64_t job_memory(void) {
    return (uint64_t)sqlite3_memory_highwater(0);
}
