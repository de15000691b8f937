/* Reads a file whole and follows its links, in straight C.

   `check` and `info` are for a finalized file, and go over the records of each data group in a plain loop. `check` prints `valid` where
   every group has as many records as it says, and `readable` where not; `info` what the program says of the file. WAY is how they go:

   once    by a table of the groups by their ids, of one byte, and a pointer in the block; the offset of a value of variable length has
           to be that of a value, for which each byte of the values has a bit
   often   byte by byte of the stream: each record is found by its id and its length and copied, and the offset of a value has to be
           before the end of the values

   `opened` and `finalize` are for a recording of one data group. `opened` goes from gate to gate, and `finalize` goes over the records
   too, once, and writes the same file with the same calls as the program. It takes what stands in front of the records from the file
   that was made first.

   usage: read WAY check FILE
          read WAY info FILE
          read opened FILE
          read finalize FIRST FILE OUT */
#include "blocks.h"

enum { RECORD = 1 << 16 };

struct group {
    const uint8_t *block;
    uint64_t id, said, found, size, offset; // of the next value
    uint32_t named;                         // the group of the values of its channel, or its own number
    uint32_t byte;                          // of the offset in a record
    uint32_t channels;
    bool values;
    uint8_t *begun, *met; // a bit for each byte of the values: whether a value begins there, and whether an offset names it
};

static struct group groups[256];
static uint32_t group_count;
static uint8_t record[RECORD];

static void read_group(uint64_t at, uint64_t *next, uint64_t *values) {
    const uint8_t *block_at = block(at, "##CG"), *fields = body(block_at);
    struct group *group = &groups[group_count];
    need(group_count < 256, "groups");
    *group = (struct group){.block = block_at, .id = number(fields, 8), .said = number(fields + 8, 8), .named = group_count};
    group->values = fields[16] & 1;
    group->size = number(fields + 24, 4) + number(fields + 28, 4);
    need(group->size <= RECORD, "record");
    *values = 0;
    for (uint64_t channel = link_of(block_at, 1); channel != 0;) {
        const uint8_t *row = block(channel, "##CN");
        if (body(row)[0] == 1) {
            *values = link_of(row, 5);
            group->byte = number(body(row) + 4, 4);
        }
        group->channels++;
        channel = link_of(row, 0);
    }
    *next = link_of(block_at, 0);
    group_count++;
}

static void read_groups(uint64_t at) {
    uint64_t places[256], values[256];
    group_count = 0;
    while (at != 0) {
        need(group_count < 256, "groups");
        places[group_count] = at;
        read_group(at, &at, &values[group_count]);
    }
    for (uint32_t k = 0; k < group_count; k++)
        for (uint32_t n = 0; n < group_count; n++)
            if (values[k] != 0 && places[n] == values[k]) groups[k].named = n;
}

static struct group *group_of(uint64_t id) {
    for (uint32_t k = 0; k < group_count; k++)
        if (groups[k].id == id) return &groups[k];
    return NULL;
}

/* Goes over the records of a stream byte by byte. */
static void go_over(uint8_t id_size) {
    uint8_t head[8];
    while (part < part_count) {
        need(take(head, id_size) == id_size, "cut");
        struct group *group = id_size == 0 ? groups : group_of(number(head, id_size));
        need(group != NULL, "id");
        uint64_t len = group->size;
        if (group->values) {
            need(take(head, 4) == 4, "cut");
            len = number(head, 4);
            need(len <= RECORD, "value");
            group->offset += 4 + len;
        }
        need(take(record, len) == len, "cut");
        if (groups[group->named].values && !group->values)
            need(number(record + group->byte, 8) < groups[group->named].offset, "offset");
        group->found++;
    }
}

static void mark(uint8_t *bits, uint64_t place) {
    need(place < size, "offset");
    bits[place / 8] |= (uint8_t)(1 << place % 8);
}

/* Goes over the records of a stream by a pointer in the block. */
static void go_over_once(uint8_t id_size) {
    struct group *of_id[256] = {0};
    need(id_size <= 1, "ids of more than one byte");
    for (uint32_t k = group_count; k-- > 0;) of_id[groups[k].id & 255] = &groups[k];
    for (uint32_t k = 0; k < group_count; k++) {
        if (!groups[k].values) continue;
        groups[k].begun = calloc(size / 8 + 1, 1);
        groups[k].met = calloc(size / 8 + 1, 1);
        need(groups[k].begun != NULL && groups[k].met != NULL, "memory");
    }
    while (is_left()) {
        struct group *group = id_size == 0 ? groups : of_id[*bytes_next(1)];
        need(group != NULL, "id");
        group->found++;
        if (group->values) {
            uint64_t len = number(bytes_next(4), 4);
            bytes_next(len);
            mark(group->begun, group->offset);
            group->offset += 4 + len;
            continue;
        }
        const uint8_t *row = bytes_next(group->size);
        if (groups[group->named].values) mark(groups[group->named].met, number(row + group->byte, 8));
    }
    for (uint32_t k = 0; k < group_count; k++)
        for (uint64_t n = 0; groups[k].values && n <= size / 8; n++) need((groups[k].met[n] & ~groups[k].begun[n]) == 0, "offset");
}

/* Prints what the program says of the groups of a data group, from this number on, and answers the next number. */
static uint32_t tell_groups(uint32_t first, uint64_t *samples) {
    for (uint32_t k = 0; k < group_count; k++) {
        if (groups[k].values) continue;
        const char *name = (const char *)body(block(link_of(groups[k].block, 2), "##TX"));
        printf("group %u %s channels %u samples %llu\n", first++, name, groups[k].channels, (unsigned long long)groups[k].found);
        *samples += groups[k].found;
    }
    return first;
}

/* Goes over the records of a finalized file, and prints of it what is asked for. */
static void look(bool once, bool tells) {
    uint64_t samples = 0;
    uint32_t told = 0;
    bool valid = true;
    if (tells) printf("version %u\n", (unsigned)number(file + 28, 2));
    for (uint64_t at = link_of(block(64, "##HD"), 0); at != 0;) {
        const uint8_t *data = block(at, "##DG");
        read_groups(link_of(data, 1));
        part_count = part = place = 0;
        follow(link_of(data, 2));
        if (once) go_over_once(body(data)[0]);
        else go_over(body(data)[0]);
        for (uint32_t k = 0; k < group_count; k++) valid &= groups[k].found == groups[k].said;
        if (tells) told = tell_groups(told, &samples);
        at = link_of(data, 0);
    }
    if (tells) printf("groups %u samples %llu dropped 0\n", told, (unsigned long long)samples);
    else puts(valid ? "valid" : "readable");
}

/* The blocks of a recording behind opened gates, from this address on, become the parts of its stream. Answers how many bytes they are. */
static uint64_t open_gates(uint64_t at) {
    uint64_t bytes = 0;
    while (size - at >= 24 && memcmp(file + at, "##DT", 4) == 0) {
        add_part(at);
        bytes += parts[part_count - 1].len;
        at += (number(file + at + 8, 8) + 7) / 8 * 8;
    }
    return bytes;
}

static void finalize(const uint8_t *data, const char *first_name, const char *name) {
    uint64_t bytes = open_gates(link_of(data, 2)), samples = 0, length;
    read_groups(link_of(data, 1));
    go_over_once(body(data)[0]);
    uint32_t count = 0;
    for (uint32_t k = 0; k < group_count; k++) {
        count += !groups[k].values;
        samples += groups[k].values ? 0 : groups[k].found;
    }
    uint8_t *first = read_whole(first_name, &length);
    uint64_t front = number(first + number(first + 64 + 24, 8) + 40, 8) + 24;
    uint8_t *made = malloc(front + bytes + 7);
    need(made != NULL, "memory");
    memcpy(made, first, front);
    uint8_t *end = made + front;
    for (size_t k = 0; k < part_count; k++) {
        memcpy(end, parts[k].at, parts[k].len);
        end += parts[k].len;
    }
    while ((end - made) % 8 != 0) *end++ = 0;
    write_sealed(name, made, (uint64_t)(end - made));
    printf("groups %u samples %llu dropped 0\n", count, (unsigned long long)samples);
}

int main(int words, char **word) {
    const char *usage = "usage: read once|often check|info FILE, read opened FILE, or read finalize FIRST FILE OUT";
    need(words >= 3, usage);
    bool opens = strcmp(word[1], "opened") == 0, finalizes = strcmp(word[1], "finalize") == 0;
    need(words == (opens ? 3 : finalizes ? 5 : 4), usage);
    file = read_whole(word[opens ? 2 : 3], &size);
    if (!opens && !finalizes) {
        look(strcmp(word[1], "once") == 0, strcmp(word[2], "info") == 0);
        return 0;
    }
    const uint8_t *data = block(link_of(block(64, "##HD"), 0), "##DG");
    if (finalizes) {
        finalize(data, word[2], word[4]);
        return 0;
    }
    uint64_t bytes = open_gates(link_of(data, 2));
    printf("blocks %zu bytes %llu\n", part_count, (unsigned long long)bytes);
    return 0;
}
