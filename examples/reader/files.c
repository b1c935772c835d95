/* Files, opened for reading alone. */
#define _POSIX_C_SOURCE 200809L
#include "reader.h"
#include <errno.h>
#include <fcntl.h>
#include <stdarg.h>
#include <stdio.h>
#include <stdlib.h>
#include <string.h>
#include <sys/stat.h>
#include <unistd.h>

void fail(const char *format, ...) {
    va_list values;
    va_start(values, format);
    fprintf(stderr, "mantelorris-card: ");
    vfprintf(stderr, format, values);
    fprintf(stderr, "\n");
    va_end(values);
    exit(2);
}

/* how many bytes to read: all of a file, the front of a device */
static size_t size_of(int file, const char *path, size_t device_part) {
    struct stat about;
    if (fstat(file, &about)) fail("%s: %s", path, strerror(errno));
    if (S_ISDIR(about.st_mode)) fail("%s is a folder; name the card's file in it", path);
    if (!S_ISREG(about.st_mode) && !S_ISBLK(about.st_mode)) fail("%s is neither a file nor a device with sectors", path);
    off_t size = lseek(file, 0, SEEK_END);
    if (size < 0) fail("%s: %s", path, strerror(errno));
    return S_ISBLK(about.st_mode) && (size_t)size > device_part ? device_part : (size_t)size;
}

/* how many there were: a file may have become shorter */
static size_t read_front(int file, const char *path, uint8_t *bytes, size_t count) {
    size_t done = 0;
    while (done < count) {
        ssize_t n = pread(file, bytes + done, count - done, (off_t)done);
        if (n < 0) fail("%s: %s", path, strerror(errno));
        if (n == 0) break;
        done += (size_t)n;
    }
    return done;
}

struct slice read_file(const char *path, size_t device_part) {
    int file = open(path, O_RDONLY | O_NONBLOCK | O_NOCTTY | O_CLOEXEC);
    if (file < 0) fail("%s: %s", path, strerror(errno));
    size_t size = size_of(file, path, device_part);
    uint8_t *bytes = malloc(size ? size : 1);
    if (!bytes) fail("%s: no memory for its %zu bytes", path, size);
    struct slice read = {bytes, read_front(file, path, bytes, size)};
    close(file);
    return read;
}
