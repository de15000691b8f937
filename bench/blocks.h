/* What the programs in C that the benches compare with read an MDF file by: the file is read whole, and its blocks, its links and the
   parts of the stream of a data group are found in it. And what they write one by. */
#include <fcntl.h>
#include <stdbool.h>
#include <stdint.h>
#include <stdio.h>
#include <stdlib.h>
#include <string.h>
#include <unistd.h>

struct part {
    const uint8_t *at;
    uint64_t len;
};

static uint8_t *file;
static uint64_t size;
static struct part *parts;
static size_t part_count, part, place; // the next byte: its part, and its place in it

static void need(bool ok, const char *what) {
    if (ok) return;
    fprintf(stderr, "twin: %s\n", what);
    exit(1);
}

static uint64_t number(const uint8_t *at, size_t bytes) {
    uint64_t n = 0;
    memcpy(&n, at, bytes);
    return n;
}

static uint8_t *read_whole(const char *name, uint64_t *length) {
    int in = open(name, O_RDONLY);
    off_t end = in < 0 ? -1 : lseek(in, 0, SEEK_END);
    need(end >= 0, name);
    *length = (uint64_t)end;
    uint8_t *bytes = malloc(*length);
    need(bytes != NULL, "memory");
    for (uint64_t done = 0; done < *length;) {
        ssize_t count = pread(in, bytes + done, *length - done, (off_t)done);
        need(count > 0, name);
        done += (uint64_t)count;
    }
    close(in);
    return bytes;
}

static const uint8_t *block(uint64_t at, const char *name) {
    need(at % 8 == 0 && at <= size && size - at >= 24 && memcmp(file + at, name, 4) == 0, name);
    uint64_t len = number(file + at + 8, 8), links = number(file + at + 16, 8);
    need(len >= 24 && len <= size - at && links <= (len - 24) / 8, name);
    return file + at;
}

static uint64_t link_of(const uint8_t *block, int k) { return number(block + 24 + 8 * k, 8); }

static const uint8_t *body(const uint8_t *block) { return block + 24 + 8 * number(block + 16, 8); }

static void add_part(uint64_t at) {
    const uint8_t *data = block(at, "##DT");
    parts = realloc(parts, (part_count + 1) * sizeof *parts);
    need(parts != NULL, "memory");
    parts[part_count++] = (struct part){body(data), (uint64_t)(data + number(data + 8, 8) - body(data))};
}

// the parts of the stream behind a link to data
static void follow(uint64_t at) {
    if (at == 0) return;
    if (memcmp(file + at, "##DL", 4) != 0) {
        add_part(at);
        return;
    }
    for (; at != 0; at = link_of(file + at, 0)) {
        const uint8_t *list = block(at, "##DL");
        for (uint64_t k = 1; k < number(list + 16, 8); k++) add_part(link_of(list, (int)k));
    }
}

// the next bytes of the stream are copied, or passed over where they go nowhere; answers how many there were
static uint64_t take(uint8_t *to, uint64_t len) {
    uint64_t done = 0;
    while (done < len && part < part_count) {
        uint64_t rest = parts[part].len - place, step = len - done < rest ? len - done : rest;
        if (to != NULL) memcpy(to + done, parts[part].at + place, step);
        done += step;
        place += step;
        if (place == parts[part].len) {
            part++;
            place = 0;
        }
    }
    return done;
}

// ---- the stream by a pointer ----

// the rest of the block that the next byte lies in
static const uint8_t *next, *next_end;

// goes on to the block with the next byte, and answers whether there is one
static bool is_left(void) {
    while (next == next_end && part < part_count) {
        next = parts[part].at;
        next_end = next + parts[part].len;
        part++;
    }
    return next != next_end;
}

// the next bytes, copied together from the blocks that they lie in
static const uint8_t *joined(uint64_t len) {
    static uint8_t *room;
    static uint64_t room_size;
    if (room_size < len) {
        room = realloc(room, room_size = len);
        need(room != NULL, "memory");
    }
    for (uint64_t done = 0; done < len;) {
        need(is_left(), "cut");
        uint64_t rest = (uint64_t)(next_end - next), step = len - done < rest ? len - done : rest;
        memcpy(room + done, next, step);
        done += step;
        next += step;
    }
    return room;
}

// the next bytes, until the next call
static inline const uint8_t *bytes_next(uint64_t len) {
    if (len > (uint64_t)(next_end - next)) return joined(len);
    const uint8_t *here = next;
    next += len;
    return here;
}

// ---- a file that is made ----

static void write_at(int out, const uint8_t *bytes, uint64_t len, uint64_t at) {
    for (uint64_t done = 0; done < len;) {
        ssize_t count = pwrite(out, bytes + done, len - done, (off_t)(at + done));
        need(count > 0, "write");
        done += (uint64_t)count;
    }
}

static void write_sealed(const char *name, const uint8_t *bytes, uint64_t len) {
    int out = open(name, O_RDWR | O_CREAT | O_EXCL, 0644);
    need(out >= 0, name);
    write_at(out, (const uint8_t *)"", 1, 0);
    need(fdatasync(out) == 0, "sync");
    write_at(out, bytes + 1, len - 1, 1);
    need(fdatasync(out) == 0, "sync");
    write_at(out, bytes, 1, 0);
    need(fdatasync(out) == 0, "sync");
    close(out);
}
