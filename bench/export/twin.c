/* Prints the table of the first channel group of a finalized file whose one data group has no record ids, as `export` does, in
   straight C: it reads the file whole, follows its links, and prints a line for each record. It takes channels of whole bytes that
   are unsigned numbers or floats in the order of Intel, which are printed as the numbers that their bits are.

   usage: twin FILE */
#include "../blocks.h"

enum { CHANNELS = 256, RECORD = 1 << 16, LINE = 21 * (CHANNELS + 1) };

struct channel {
    uint32_t byte, bytes;
};

static struct channel channels[CHANNELS];
static uint32_t channel_count;
static uint8_t record[RECORD];

// reads the channels, and prints the line of their names, none of which needs quotes
static void read_channels(uint64_t at) {
    fputs("index", stdout);
    for (; at != 0; at = link_of(file + at, 0)) {
        const uint8_t *row = block(at, "##CN"), *fields = body(row);
        uint32_t bits = (uint32_t)number(fields + 8, 4);
        need(channel_count < CHANNELS && fields[3] == 0 && bits % 8 == 0 && (fields[2] == 0 || fields[2] == 4), "channel");
        channels[channel_count++] = (struct channel){(uint32_t)number(fields + 4, 4), bits / 8};
        printf(",%s", (const char *)body(block(link_of(row, 2), "##TX")));
    }
    putchar('\n');
}

// puts a number in decimal at the end of a line, and answers the end of that
static char *put(char *end, uint64_t n) {
    char digits[20], *first = digits + sizeof digits;
    do *--first = (char)('0' + n % 10);
    while ((n /= 10) != 0);
    size_t len = (size_t)(digits + sizeof digits - first);
    memcpy(end, first, len);
    return end + len;
}

static void print_record(uint64_t index) {
    char line[LINE], *end = put(line, index);
    for (uint32_t k = 0; k < channel_count; k++) {
        *end++ = ',';
        end = put(end, number(record + channels[k].byte, channels[k].bytes));
    }
    *end++ = '\n';
    fwrite(line, 1, (size_t)(end - line), stdout);
}

int main(int words, char **word) {
    file = read_whole(words > 1 ? word[1] : "", &size);
    const uint8_t *data = block(link_of(block(64, "##HD"), 0), "##DG"), *group = block(link_of(data, 1), "##CG");
    uint64_t len = number(body(group) + 24, 4) + number(body(group) + 28, 4);
    need(body(data)[0] == 0 && len <= RECORD, "group");
    follow(link_of(data, 2));
    read_channels(link_of(group, 1));
    for (uint64_t index = 0; index < number(body(group) + 8, 8); index++) {
        need(take(record, len) == len, "cut");
        print_record(index);
    }
    return fflush(stdout) == 0 ? 0 : 1;
}
