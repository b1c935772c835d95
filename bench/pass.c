/* Plain passes in C, for the benchmark. */
#include <stddef.h>
#include <stdint.h>
#include <string.h>

/* One over a state's bytes: joined by OR as words of 64 bits, and one test at the end. What reading them costs at all. */
int plain_pass(const unsigned char *bytes, size_t words)
{
    uint64_t all = 0;
    for (size_t i = 0; i < words; i++) {
        uint64_t word;
        memcpy(&word, bytes + 8 * i, 8);
        all |= word;
    }
    return all == 0;
}

/* One over the heads of a log's records: the end of the last whole one, 0 for a kind or an image length off its layout. */
size_t plain_ends(const unsigned char *log, size_t length)
{
    size_t at = 8;
    while (at < length) {
        size_t size;
        switch (log[at]) {
        case 1: size = 28; break;
        case 6: size = 32; break;
        case 2: size = 12; break;
        case 3:
        case 5: size = 8; break;
        case 4: {
            uint32_t image;
            if (length - at < 8) return at;
            memcpy(&image, log + at + 4, 4);
            if (image < 48 || image > 12592) return 0;
            size = 8 + (size_t)image;
            break;
        }
        default: return 0;
        }
        if (length - at < size) return at;
        at += size;
    }
    return at;
}
