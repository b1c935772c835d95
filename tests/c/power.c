/* Power cuts for a host, put before its calls of the C library (LD_PRELOAD): a write is torn, a call fails, or the process is killed before or after the card has its
 * bytes or its name. POWER_CARD: the card's path; files whose path begins with it are those that are to take its place. POWER_CHANCE: one in so many calls; POWER_AIM:
 * the letter of a place that is struck more often; POWER_SEED. POWER_FILE gets a line for each sync of a file, its inode and the length that it has for certain (or the
 * word `lost`: the sync has failed), and a line with a letter for each place struck here:
 *     the card: w torn write, s before the sync, a after it, c before a cut
 *     the next one (CARD.new): b before its first write, h before a later one, t torn write, y before the sync, z after it, n before the rename, r after it
 *     their folder, after a rename: d before the sync, e after it
 * Of what is struck at s, b, h, y, n and d one in three is no kill: the call fails, and the letter is a capital; with a capital as aim, it always fails.
 * From a rename until the folder is synced, a power cut may leave either file under the card's name: CARD.old is the one that was renamed over.
 *
 * POWER_SECTORS: the card is raw sectors. This file gets, before each write, what the sectors had: a number and 512 bytes each; a sync empties it. Where a sync fails,
 * Linux takes the bytes for written: a number of all ones stands there then, and what is in front of it stays until it is written again, or the cache is emptied
 * (POSIX_FADV_DONTNEED), which brings back what the card has. */
#define _GNU_SOURCE
#include <ctype.h>
#include <dlfcn.h>
#include <errno.h>
#include <fcntl.h>
#include <signal.h>
#include <stdint.h>
#include <stdio.h>
#include <stdlib.h>
#include <string.h>
#include <sys/stat.h>
#include <unistd.h>

enum { SECTOR = 512 };
enum kind { OTHER, CARD, NEXT, FOLDER };
struct entry { uint64_t sector; uint8_t had[SECTOR]; };

static const uint64_t FAILED = UINT64_MAX;
static uint32_t seed;
static unsigned chance;
static int file = -1, sectors = -1;
static char aim;
static char path[4096], old_path[4104];
static ssize_t (*true_pwrite)(int, const void *, size_t, off_t), (*true_write)(int, const void *, size_t);
static int (*true_fdatasync)(int), (*true_fsync)(int), (*true_ftruncate)(int, off_t), (*true_rename)(const char *, const char *), (*true_fadvise)(int, off_t, off_t, int);

static uint32_t below(uint32_t bound) {
    seed ^= seed << 13;
    seed ^= seed >> 17;
    seed ^= seed << 5;
    return seed % bound;
}

/* in one write: a kill from outside leaves it whole or not at all */
static void put(int to, const void *bytes, size_t count) {
    if (true_write(to, bytes, count) != (ssize_t)count) _exit(3);
}

static void note(const char *text) {
    put(file, text, strlen(text));
}

static void cut_power(char where) {
    note((char[]){where, '\n', 0});
    kill(getpid(), SIGKILL);
}

/* of the calls at a place, one in so many; storing is rarer than appending and a cut comes once a start, so they are more often struck */
static int strikes(char where) {
    unsigned one_in = strchr("wsa", where) ? chance : where == 'c' ? (chance + 5) / 6 : (chance + 2) / 3;
    return chance && below(where == tolower(aim) ? 3 : one_in) == 0;
}

static void strike(char where) {
    if (strikes(where)) cut_power(where);
}

/* 1: the call has to fail */
static int fails(char where) {
    if (!strikes(where)) return 0;
    char letter = (char)toupper(where);
    if (aim != letter && below(3)) cut_power(where);
    note((char[]){letter, '\n', 0});
    errno = EIO;
    return 1;
}

__attribute__((constructor)) static void begin(void) {
    true_pwrite = (ssize_t(*)(int, const void *, size_t, off_t))dlsym(RTLD_NEXT, "pwrite");
    true_write = (ssize_t(*)(int, const void *, size_t))dlsym(RTLD_NEXT, "write");
    true_fdatasync = (int (*)(int))dlsym(RTLD_NEXT, "fdatasync");
    true_fsync = (int (*)(int))dlsym(RTLD_NEXT, "fsync");
    true_ftruncate = (int (*)(int, off_t))dlsym(RTLD_NEXT, "ftruncate");
    true_rename = (int (*)(const char *, const char *))dlsym(RTLD_NEXT, "rename");
    true_fadvise = (int (*)(int, off_t, off_t, int))dlsym(RTLD_NEXT, "posix_fadvise");
    const char *c = getenv("POWER_CHANCE"), *s = getenv("POWER_SEED"), *f = getenv("POWER_FILE"), *p = getenv("POWER_CARD"), *q = getenv("POWER_SECTORS");
    chance = c ? (unsigned)atoi(c) : 0;
    seed = (s ? (uint32_t)atoi(s) : 1) * 2654435761u | 1;
    aim = getenv("POWER_AIM") ? getenv("POWER_AIM")[0] : 0;
    file = f ? open(f, O_WRONLY | O_APPEND | O_CLOEXEC) : -1;
    sectors = q ? open(q, O_RDWR | O_APPEND | O_CLOEXEC) : -1;
    snprintf(path, sizeof path, "%s", p ? p : "");
    snprintf(old_path, sizeof old_path, "%s.old", path);
}

static enum kind kind_of(int fd) {
    char link[64], name[4200] = "";
    struct stat about;
    snprintf(link, sizeof link, "/proc/self/fd/%d", fd);
    if (file < 0 || readlink(link, name, sizeof name - 1) < 0 || fstat(fd, &about)) return OTHER;
    if (S_ISDIR(about.st_mode)) return FOLDER;
    if (!S_ISREG(about.st_mode) || strncmp(name, path, strlen(path))) return OTHER;
    return name[strlen(path)] ? NEXT : CARD;
}

/* the file has this length for certain */
static void sure(int fd, int none) {
    struct stat about;
    char text[64];
    if (fstat(fd, &about)) _exit(3);
    snprintf(text, sizeof text, "%llu %llu\n", (unsigned long long)about.st_ino, none ? 0ULL : (unsigned long long)about.st_size);
    note(text);
}

static void lost(int fd) {
    struct stat about;
    char text[64];
    if (fstat(fd, &about)) _exit(3);
    snprintf(text, sizeof text, "%llu lost\n", (unsigned long long)about.st_ino);
    note(text);
}

/* ---- raw sectors */

static void remember(int fd, size_t count, off_t at) {
    for (uint64_t s = (uint64_t)at / SECTOR; s * SECTOR < (uint64_t)at + count; s++) {
        struct entry e = {s, {0}};
        if (pread(fd, e.had, SECTOR, (off_t)(s * SECTOR)) < 0) _exit(3);
        put(sectors, &e, sizeof e);
    }
}

/* all entries; *stuck: how many are in front of the last failed sync */
static struct entry *entries(size_t *count, size_t *stuck) {
    off_t size = lseek(sectors, 0, SEEK_END);
    struct entry *all = calloc(1, (size_t)size + sizeof *all);
    if (!all || pread(sectors, all, (size_t)size, 0) != size) _exit(3);
    *count = (size_t)size / sizeof *all;
    *stuck = 0;
    for (size_t i = 0; i < *count; i++)
        if (all[i].sector == FAILED) *stuck = i;
    return all;
}

static int among(uint64_t sector, const struct entry *some, size_t count) {
    for (size_t i = 0; i < count; i++)
        if (some[i].sector == sector) return 1;
    return 0;
}

/* a sync: what was written since the last failed one is certain. emptied: so is the rest, by the cache's being emptied */
static void settle(int fd, int emptied) {
    size_t count, stuck, kept = 0;
    struct entry *all = entries(&count, &stuck);
    for (size_t i = 0; i < stuck; i++) {
        if (all[i].sector == FAILED || among(all[i].sector, all + stuck, count - stuck)) continue;
        if (emptied && !among(all[i].sector, all, i) && true_pwrite(fd, all[i].had, SECTOR, (off_t)(all[i].sector * SECTOR)) < 0) _exit(3);
        if (!emptied) all[kept++] = all[i];
    }
    if (kept) all[kept++].sector = FAILED;
    for (size_t i = all[stuck].sector == FAILED ? stuck + 1 : 0; emptied && i < count; i++) all[kept++] = all[i];
    if (true_ftruncate(sectors, 0)) _exit(3);
    if (kept) put(sectors, all, kept * sizeof *all);
    free(all);
}

/* ---- the calls */

ssize_t pwrite(int fd, const void *bytes, size_t count, off_t at) {
    enum kind kind = kind_of(fd);
    if (kind == OTHER || count == 0) return true_pwrite(fd, bytes, count, at);
    if (sectors >= 0) remember(fd, count, at);
    if (at == 0) sure(fd, 1); /* a file that begins has nothing for certain, whatever had its inode before */
    if (kind == NEXT && fails(at ? 'h' : 'b')) return -1;
    if (strikes(kind == NEXT ? 't' : 'w')) {
        if (true_pwrite(fd, bytes, below((uint32_t)count + 1), at) < 0) _exit(3);
        cut_power(kind == NEXT ? 't' : 'w');
    }
    return true_pwrite(fd, bytes, count, at);
}

ssize_t pwrite64(int fd, const void *bytes, size_t count, off_t at) {
    return pwrite(fd, bytes, count, at);
}

ssize_t write(int fd, const void *bytes, size_t count) {
    if (kind_of(fd) == OTHER) return true_write(fd, bytes, count);
    off_t at = lseek(fd, 0, fcntl(fd, F_GETFL) & O_APPEND ? SEEK_END : SEEK_CUR);
    ssize_t done = pwrite(fd, bytes, count, at);
    if (done > 0) lseek(fd, at + done, SEEK_SET);
    return done;
}

int fdatasync(int fd) {
    enum kind kind = kind_of(fd);
    if (kind == OTHER) return true_fdatasync(fd);
    if (fails(kind == NEXT ? 'y' : 's')) {
        lost(fd);
        if (sectors >= 0) put(sectors, &(struct entry){FAILED, {0}}, sizeof(struct entry));
        return -1;
    }
    int done = true_fdatasync(fd);
    if (done == 0) sure(fd, 0);
    if (done == 0 && sectors >= 0) settle(fd, 0);
    strike(kind == NEXT ? 'z' : 'a');
    return done;
}

int posix_fadvise(int fd, off_t at, off_t count, int advice) {
    if (sectors >= 0 && kind_of(fd) == CARD && advice == POSIX_FADV_DONTNEED) settle(fd, 1);
    return true_fadvise(fd, at, count, advice);
}

int ftruncate(int fd, off_t length) {
    if (kind_of(fd) == CARD) strike('c');
    return true_ftruncate(fd, length);
}

int ftruncate64(int fd, off_t length) {
    return ftruncate(fd, length);
}

int rename(const char *from, const char *to) {
    if (strcmp(to, path)) return true_rename(from, to);
    if (fails('n')) return -1;
    if (link(path, old_path) && errno != EEXIST && errno != ENOENT) _exit(3); /* where there is one already, that may still come back */
    int done = true_rename(from, to);
    strike('r');
    return done;
}

/* of the folder: the card's name is certain now */
int fsync(int fd) {
    if (kind_of(fd) != FOLDER) return fdatasync(fd);
    int renamed = access(old_path, F_OK) == 0;
    if (renamed && fails('d')) return -1;
    int done = true_fsync(fd);
    if (done == 0) unlink(old_path);
    if (renamed) strike('e');
    return done;
}
