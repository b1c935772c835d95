/* What bytes are, by how they begin. */
#include "reader.h"

enum { LONGEST_PACKET = 24 };

static uint32_t show_log_card(struct slice bytes, const char *what, const char *said, const struct slice *plan) {
    text("what", what);
    number("bytes", (int64_t)bytes.length);
    words(said, bytes.length);
    return show_card((struct card){.log = bytes}, plan);
}

static uint32_t show_checkpoint_card(struct slice bytes, const char *tail, const struct slice *plan) {
    size_t length = mantelorris_checkpoint_length(bytes.bytes, bytes.length);
    if (tail || length == 0 || length > bytes.length) length = bytes.length;
    struct card card = {.checkpoint = {bytes.bytes, length}, .log = {bytes.bytes + length, bytes.length - length}, .log_at = length};
    if (tail) card.log = read_file(tail, 0), card.log_at = 0;
    text("what", "checkpoint and tail");
    number("bytes", (int64_t)bytes.length);
    words(tail ? "a checkpoint, %zu bytes, and its tail in another file\n" : "a checkpoint and its tail, %zu bytes\n", bytes.length);
    return show_card(card, plan);
}

static void show_superblocks(const struct raw *raw) {
    list("superblocks");
    for (int i = 0; i < 2; i++) {
        object(NULL);
        number("good", raw->good[i]);
        if (raw->good[i]) number("sequence", (int64_t)raw->sequence[i]);
        close_object();
        words(raw->good[i] ? "superblock at %d: good, sequence number %llu%s\n" : "superblock at %d: not a good one\n", 4096 * i,
              (unsigned long long)raw->sequence[i], raw->counts == i ? "; it counts" : "");
    }
    close_list();
}

static uint32_t show_raw_card(struct slice bytes, const char *path, const struct slice *plan) {
    struct raw raw = settled_raw(path, bytes);
    text("what", "raw card");
    number("bytes", (int64_t)bytes.length);
    words("a raw card, %zu bytes\n", bytes.length);
    show_superblocks(&raw);
    if (raw.counts < 0)
        words("no good superblock: no server was founded on this card, or it is lost\n");
    else {
        number("slot", raw.slot);
        words("slot %u is in force\n", raw.slot);
    }
    return show_card((struct card){raw.checkpoint, raw.log, raw.checkpoint_at, raw.log_at}, plan);
}

static uint32_t show_image_file(struct slice bytes, const struct slice *plan) {
    text("what", "image");
    number("bytes", (int64_t)bytes.length);
    words("an image of a point on its way, %zu bytes\n", bytes.length);
    return show_image_alone(bytes, plan);
}

static uint32_t show_packet_file(struct slice bytes) {
    text("what", "packet");
    number("bytes", (int64_t)bytes.length);
    words("a packet, %zu bytes\n", bytes.length);
    return show_packet(bytes);
}

/* an image and a packet by themselves, and else a card; what nothing begins like is shown as a log, and refused as one */
uint32_t show_bytes(struct slice bytes, const char *path, const char *tail, const struct slice *plan) {
    if (tail && !mantelorris_is_checkpoint(bytes.bytes, bytes.length)) fail("--tail goes with a checkpoint, and this is none");
    if (mantelorris_is_checkpoint(bytes.bytes, bytes.length)) return show_checkpoint_card(bytes, tail, plan);
    if (mantelorris_is_log(bytes.bytes, bytes.length)) return show_log_card(bytes, "log", "a log, %zu bytes\n", plan);
    if (mantelorris_is_image(bytes.bytes, bytes.length)) return show_image_file(bytes, plan);
    if (bytes.length == 0) return show_log_card(bytes, "empty", "an empty card, %zu bytes: no server was founded on it\n", plan);
    if (bytes.length <= LONGEST_PACKET && layout_of(packet_layouts, bytes.bytes[0])) return show_packet_file(bytes);
    if (bytes.length >= RAW_SIZE) return show_raw_card(bytes, path, plan);
    return show_log_card(bytes, "not known", "%zu bytes that are no checkpoint (57 4C 47 33 or 32), no image (4D 56 49 32 or 31) and no packet\n", plan);
}
