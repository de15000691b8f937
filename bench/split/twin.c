// The same loop as program.rt.txt.
#include <inttypes.h>
#include <stdint.h>
#include <stdio.h>
#include <stdlib.h>
#include <string.h>

enum { RECORDS = 11111111, SIZE = 9 };

struct stretch {
    uint64_t at, len, end;
};

struct view {
    const struct stretch *items;
    size_t count;
    uint64_t end;
};

struct known {
    uint64_t id, size;
    int variable;
};

struct piece {
    uint32_t which;
    uint64_t at, len;
};

struct splitter {
    uint8_t id_size;
    const struct known *known;
    size_t groups;
    uint64_t place;
};

// fills a buffer from a place of the stream, which may cross any number of parts
static void read_at(const struct view *view, const uint8_t *bytes, uint64_t at, uint8_t *buf, size_t len) {
    size_t done = 0;
    while (done < len) {
        size_t low = 0, high = view->count;
        while (low < high) {
            size_t middle = low + (high - low) / 2;
            if (view->items[middle].end <= at + done) low = middle + 1;
            else high = middle;
        }
        const struct stretch *part = &view->items[low];
        uint64_t left = part->end - (at + done);
        size_t count = left < len - done ? (size_t)left : len - done;
        memcpy(buf + done, bytes + part->at + (part->len - left), count);
        done += count;
    }
}

static uint64_t number_at(const struct view *view, const uint8_t *bytes, uint64_t at, size_t size) {
    uint8_t word[8] = {0};
    read_at(view, bytes, at, word, size);
    uint64_t number;
    memcpy(&number, word, 8);
    return number;
}

// 1: a record, 0: the end, -1: an id that no group has, -2: no whole record
static int next(struct splitter *s, const uint8_t *bytes, const struct view *view, struct piece *piece) {
    uint64_t at = s->place, rest = view->end - at;
    if (rest == 0) return 0;
    if (rest < s->id_size) return -2;
    uint64_t id = number_at(view, bytes, at, s->id_size);
    rest -= s->id_size;
    for (size_t k = 0; k < s->groups; k++) {
        if (s->known[k].id != id) continue;
        uint64_t size = s->known[k].size;
        if (s->known[k].variable) {
            if (rest < 4) return -2;
            size = 4 + number_at(view, bytes, at + s->id_size, 4);
        }
        if (rest < size) return -2;
        *piece = (struct piece){(uint32_t)k, at, s->id_size + size};
        s->place = at + piece->len;
        return 1;
    }
    return -1;
}

int main(void) {
    size_t size = (size_t)RECORDS * SIZE;
    uint8_t *bytes = malloc(size);
    if (!bytes) return 1;
    memset(bytes, 1, size);
    const struct stretch part = {0, size, size};
    const struct view view = {&part, 1, size};
    const struct known known[] = {{2, 8, 0}, {1, 8, 0}};
    struct splitter splitter = {1, known, 2, 0};
    struct piece piece;
    uint64_t sum = 0;
    while (next(&splitter, bytes, &view, &piece) == 1) sum += piece.at * (piece.which + 1) + piece.len;
    printf("%" PRIu64 "\n", sum);
    free(bytes);
    return 0;
}
