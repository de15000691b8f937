// The same loop as program.rt.txt.
#include <inttypes.h>
#include <stdint.h>
#include <stdio.h>

struct field {
    uint32_t byte;
    uint8_t bit, bits, big;
};

typedef unsigned __int128 word;

static size_t size(struct field f) { return (f.bit + f.bits + 7u) / 8; }

static word word_of(const uint8_t *bytes, size_t len, int big) {
    word w = 0;
    if (big) {
        for (size_t i = 0; i < len; i++) w = w << 8 | bytes[i];
    } else {
        for (size_t i = len; i > 0; i--) w = w << 8 | bytes[i - 1];
    }
    return w;
}

static void put_word(uint8_t *bytes, size_t len, int big, word w) {
    if (big) {
        for (size_t i = len; i > 0; i--, w >>= 8) bytes[i - 1] = (uint8_t)w;
    } else {
        for (size_t i = 0; i < len; i++, w >>= 8) bytes[i] = (uint8_t)w;
    }
}

static uint64_t get(const uint8_t *record, struct field f) {
    word w = word_of(record + f.byte, size(f), f.big);
    return (uint64_t)(w >> f.bit & (((word)1 << f.bits) - 1));
}

static void put(uint8_t *record, struct field f, uint64_t value) {
    uint8_t *bytes = record + f.byte;
    size_t len = size(f);
    word mask = (((word)1 << f.bits) - 1) << f.bit;
    put_word(bytes, len, f.big, (word_of(bytes, len, f.big) & ~mask) | (word)value << f.bit);
}

int main(void) {
    static uint8_t record[4096];
    for (size_t i = 0; i < 4096; i++) record[i] = (uint8_t)(i * 37 % 251);
    uint64_t sum = 0;
    for (uint64_t i = 0; i < 10000000; i++) {
        uint8_t bits = (uint8_t)(1 + i % 64);
        struct field from = {(uint32_t)(i * 9 % 4087), (uint8_t)(i / 64 % 8), bits, i / 512 % 2 == 1};
        struct field to = {(uint32_t)(i * 13 % 4087), (uint8_t)(i / 128 % 8), bits, i / 1024 % 2 == 1};
        uint64_t value = get(record, from);
        put(record, to, value);
        record[i % 4096] = (uint8_t)(i % 251);
        sum += value;
    }
    printf("%" PRIu64 "\n", sum);
    return 0;
}
