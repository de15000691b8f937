/* Makes a sorted file of a finalized one as `sort` and `cut` do, or of two as `concat` does, in straight C: it reads the files whole,
   goes over the records, and writes the same file with the same calls. WAY is how it goes over them:

   once    one time, with a table of the groups by their ids and a pointer in the block, and puts each record behind those of its group
   often   one time for each group and byte by byte of the stream, without memory beside what is made

   It takes files of one data group whose blocks have names and no other texts, as make.py makes them, ids of one byte (`often` of any
   size), masters and offsets of 64 bits, and two files with the same groups. The time of the new entry of the history is that of a
   file that was made first.

   usage: made WAY sort FIRST IN OUT
          made WAY cut FIRST IN OUT FROM TO
          made WAY concat FIRST IN IN OUT */
#include "blocks.h"

enum { GROUPS = 256, TREE = 1 << 20 };

struct group {
    const uint8_t *block;
    uint64_t id, size, values; // the address of the group of the values of its channel, or 0
    uint32_t master, offset;   // the bytes of the master and of the offset in a record
    bool holds_values, mastered;
    uint8_t *records, *end; // those that were found in one pass
    uint64_t count, shift;  // how many they are, and what their offsets grow by
};

// a file, and the parts of its stream
struct source {
    uint8_t *file;
    uint64_t size;
    struct part *parts;
    size_t part_count;
};

static uint8_t *made;
static uint64_t used;
static struct source sources[2];
static size_t source_count;
static struct group groups[GROUPS];
static uint32_t group_count;
static bool once;
static const char *title; // of the new entry of the history
static bool cuts;
static uint64_t from, to; // of the masters that are kept

static void put(uint64_t at, uint64_t n) { memcpy(made + at, &n, 8); }

static void read_groups(uint64_t at) {
    while (at != 0) {
        const uint8_t *block_at = block(at, "##CG"), *fields = body(block_at);
        need(group_count < GROUPS, "groups");
        struct group *group = &groups[group_count++];
        *group = (struct group){.block = block_at, .id = number(fields, 8), .holds_values = fields[16] & 1};
        group->size = number(fields + 24, 4) + number(fields + 28, 4);
        for (uint64_t channel = link_of(block_at, 1); channel != 0;) {
            const uint8_t *row = block(channel, "##CN");
            if (body(row)[0] == 1) {
                group->values = link_of(row, 5);
                group->offset = (uint32_t)number(body(row) + 4, 4);
            }
            if (body(row)[0] == 2 && !group->mastered) {
                group->mastered = true;
                group->master = (uint32_t)number(body(row) + 4, 4);
            }
            channel = link_of(row, 0);
        }
        at = link_of(block_at, 0);
    }
}

// ---- the records ----

static const struct group *group_of(uint64_t id) {
    for (uint32_t k = 0; k < group_count; k++)
        if (groups[k].id == id) return &groups[k];
    need(false, "id");
    return NULL;
}

static bool is_kept(const struct group *group, const uint8_t *record) {
    if (!cuts || !group->mastered) return true;
    uint64_t master = number(record + group->master, 8);
    return from <= master && master < to;
}

static void read_from(const struct source *source) {
    file = source->file;
    size = source->size;
    parts = source->parts;
    part_count = source->part_count;
    part = place = 0;
    next = next_end = NULL;
}

// ---- in one pass ----

// goes over all records of a file, and puts each behind those of its group
static void split_from(const struct source *source, uint8_t id_size) {
    struct group *of_id[256] = {0};
    for (uint32_t k = group_count; k-- > 0;) of_id[groups[k].id & 255] = &groups[k];
    read_from(source);
    while (is_left()) {
        struct group *group = id_size == 0 ? groups : of_id[*bytes_next(1)];
        need(group != NULL, "id");
        uint64_t len = group->size;
        if (group->holds_values) {
            const uint8_t *head = bytes_next(4);
            len = number(head, 4);
            memcpy(group->end, head, 4);
            group->end += 4;
        }
        const uint8_t *record = bytes_next(len);
        if (!is_kept(group, record)) continue;
        memcpy(group->end, record, len);
        if (group->shift != 0) {
            uint64_t offset = number(record + group->offset, 8) + group->shift;
            memcpy(group->end + group->offset, &offset, 8);
        }
        group->end += len;
        group->count++;
    }
}

// goes over the records of all files
static void split(uint8_t id_size) {
    need(id_size <= 1, "ids of more than one byte");
    for (uint32_t k = 0; k < group_count; k++) {
        groups[k].records = groups[k].end = malloc(sources[0].size + sources[1].size);
        need(groups[k].records != NULL, "memory");
    }
    split_from(&sources[0], id_size);
    if (source_count == 1) return;
    for (uint32_t k = 0; k < group_count; k++)
        for (uint32_t n = 0; n < group_count; n++)
            if (sources[0].file + groups[k].values == groups[n].block) groups[k].shift = (uint64_t)(groups[n].end - groups[n].records);
    split_from(&sources[1], id_size);
}

// puts the records of a group behind what is made, and answers how many they are
static uint64_t put_records(const struct group *group) {
    uint64_t len = (uint64_t)(group->end - group->records);
    memcpy(made + used, group->records, len);
    used += len;
    return group->count;
}

// ---- in a pass for each group ----

// goes over all records of a file, and puts those of a group behind what is made, with their offsets so much larger; answers how
// many they are
static uint64_t gather_from(const struct source *source, const struct group *wanted, uint8_t id_size, uint64_t shift) {
    uint64_t count = 0;
    read_from(source);
    while (part < part_count) {
        uint8_t head[8] = {0};
        need(take(head, id_size) == id_size, "cut");
        const struct group *group = id_size == 0 ? groups : group_of(number(head, 8));
        uint64_t len = group->size;
        bool kept = group == wanted;
        if (group->holds_values) {
            need(take(head, 4) == 4, "cut");
            len = number(head, 4);
            if (kept) memcpy(made + used, head, 4);
            if (kept) used += 4;
        }
        need(take(kept ? made + used : NULL, len) == len, "cut");
        if (!kept || !is_kept(group, made + used)) continue;
        if (group->values != 0 && shift != 0) put(used + group->offset, number(made + used + group->offset, 8) + shift);
        used += len;
        count++;
    }
    return count;
}

// how many bytes the values of a group have in the first file, with their lengths
static uint64_t values_of(const struct group *group, uint8_t id_size) {
    uint64_t before = used;
    for (uint32_t k = 0; k < group_count; k++)
        if (sources[0].file + group->values == groups[k].block) gather_from(&sources[0], &groups[k], id_size, 0);
    uint64_t length = used - before;
    used = before;
    return length;
}

// the same of all files one behind the other
static uint64_t gather(const struct group *wanted, uint8_t id_size) {
    if (once) return put_records(wanted);
    uint64_t count = gather_from(&sources[0], wanted, id_size, 0);
    if (source_count == 2) {
        uint64_t shift = wanted->values == 0 ? 0 : values_of(wanted, id_size);
        count += gather_from(&sources[1], wanted, id_size, shift);
    }
    read_from(&sources[0]);
    return count;
}

// ---- the blocks that are made ----

// adds the header of a block, all links 0, and answers its address
static uint64_t begin(const char *kind, uint64_t links) {
    uint64_t at = used;
    memcpy(made + at, kind, 4);
    memset(made + at + 4, 0, 20 + 8 * links);
    put(at + 16, links);
    used += 24 + 8 * links;
    return at;
}

// ends a block, which is filled up to an address that 8 divides
static void end(uint64_t at) {
    put(at + 8, used - at);
    while (used % 8 != 0) made[used++] = 0;
}

static void link_to(uint64_t block, uint64_t k, uint64_t to) { put(block + 24 + 8 * k, to); }

static void add(const void *bytes, uint64_t len) {
    memcpy(made + used, bytes, len);
    used += len;
}

// adds a text as a block of this kind, filled with zero bytes up to a multiple of 8
static uint64_t add_text(const char *kind, const uint8_t *text, uint64_t len) {
    uint64_t at = begin(kind, 0), filled = 8 - len % 8;
    add(text, len);
    memset(made + used, 0, filled);
    used += filled;
    end(at);
    return at;
}

static uint64_t copy_text(uint64_t at) {
    const uint8_t *text = block(at, memcmp(file + at, "##MD", 4) == 0 ? "##MD" : "##TX"), *words = body(text);
    return add_text(text[2] == 'M' ? "##MD" : "##TX", words, strlen((const char *)words));
}

static uint64_t add_entry(const uint8_t *fields) {
    uint64_t at = begin("##FH", 2);
    add(fields, 16);
    end(at);
    return at;
}

static uint64_t time_of(const char *name) {
    uint64_t length, entry = 0;
    uint8_t *sorted = read_whole(name, &length);
    for (uint64_t next = number(sorted + 64 + 32, 8); next != 0; next = number(sorted + next + 24, 8)) entry = next;
    uint64_t time = number(sorted + entry + 40, 8);
    free(sorted);
    return time;
}

static void add_head(const uint8_t *head, uint64_t time) {
    char comment[256];
    snprintf(comment, sizeof comment,
             "<FHcomment><TX>%s</TX><tool_id>mdf4rec</tool_id><tool_vendor>none</tool_vendor>"
             "<tool_version>1</tool_version></FHcomment>",
             title);
    memset(made, 0, 64);
    memcpy(made, "MDF     4.10    mdf4rec ", 24);
    made[28] = 154;
    made[29] = 1;
    used = 64;
    uint64_t at = begin("##HD", 6), last = at, k = 1;
    add(body(head), 32);
    end(at);
    for (uint64_t next = link_of(head, 1); next != 0; next = link_of(file + next, 0), k = 0) {
        const uint8_t *old = block(next, "##FH");
        uint64_t entry = add_entry(body(old));
        link_to(last, k, entry);
        if (link_of(old, 1) != 0) link_to(entry, 1, copy_text(link_of(old, 1)));
        last = entry;
    }
    uint8_t fields[16] = {0};
    memcpy(fields, &time, 8);
    uint64_t entry = add_entry(fields);
    link_to(last, k, entry);
    link_to(entry, 1, add_text("##MD", (const uint8_t *)comment, strlen(comment)));
}

// adds the channels of a group, and answers the one whose values vary in length
static uint64_t add_channels(const struct group *group, uint64_t own) {
    uint64_t last = own, k = 1, varying = 0;
    for (uint64_t next = link_of(group->block, 1); next != 0; next = link_of(file + next, 0), k = 0) {
        const uint8_t *old = block(next, "##CN");
        uint64_t at = begin("##CN", 8);
        add(body(old), 72);
        end(at);
        link_to(last, k, at);
        link_to(at, 2, copy_text(link_of(old, 2)));
        if (body(old)[0] == 1) varying = at;
        last = at;
    }
    return varying;
}

static uint64_t add_group(const struct group *group, uint64_t *varying) {
    uint64_t at = begin("##CG", 6);
    add(body(group->block), 32);
    memset(made + at + 72, 0, 8);
    end(at);
    link_to(at, 2, copy_text(link_of(group->block, 2)));
    *varying = add_channels(group, at);
    return at;
}

// adds a data group for one group, and answers it
static uint64_t add_sorted(const struct group *group, uint8_t id_size) {
    uint64_t at = begin("##DG", 4), varying;
    memset(made + used, 0, 8);
    used += 8;
    end(at);
    uint64_t own = add_group(group, &varying), records = begin("##DT", 0);
    link_to(at, 1, own);
    link_to(at, 2, records);
    put(own + 80, gather(group, id_size));
    end(records);
    if (varying == 0) return at;
    uint64_t values = begin("##SD", 0);
    for (uint32_t k = 0; k < group_count; k++)
        if (file + group->values == groups[k].block) gather(&groups[k], id_size);
    end(values);
    link_to(varying, 5, values);
    return at;
}

// ---- the file ----

// reads a file, and follows the link to its data; answers its data group
static const uint8_t *add_source(const char *name) {
    struct source *source = &sources[source_count++];
    source->file = read_whole(name, &source->size);
    read_from(source);
    const uint8_t *data = block(link_of(block(64, "##HD"), 0), "##DG");
    follow(link_of(data, 2));
    source->parts = parts;
    source->part_count = part_count;
    return data;
}

int main(int words, char **word) {
    const char *usage = "usage: made once|often sort FIRST IN OUT, cut FIRST IN OUT FROM TO, or concat FIRST IN IN OUT";
    need(words >= 6, usage);
    once = strcmp(word[1], "once") == 0;
    title = word[2];
    cuts = strcmp(title, "cut") == 0;
    bool joins = strcmp(title, "concat") == 0;
    need(words == (cuts ? 8 : joins ? 7 : 6) && (cuts || joins || strcmp(title, "sort") == 0), usage);
    if (cuts) {
        from = strtoull(word[6], NULL, 10);
        to = strtoull(word[7], NULL, 10);
    }
    uint64_t time = time_of(word[3]);
    const uint8_t *data = add_source(word[4]);
    if (joins) add_source(word[5]);
    made = malloc(sources[0].size + sources[1].size + TREE);
    need(made != NULL, "memory");
    read_from(&sources[0]);
    add_head(block(64, "##HD"), time);
    read_groups(link_of(data, 1));
    if (once) {
        split(body(data)[0]);
        read_from(&sources[0]);
    }
    uint64_t last = 64, samples = 0;
    uint32_t count = 0;
    for (uint32_t k = 0; k < group_count; k++) {
        if (groups[k].holds_values) continue;
        uint64_t at = add_sorted(&groups[k], body(data)[0]);
        link_to(last, 0, at);
        last = at;
        samples += number(made + link_of(made + at, 1) + 80, 8);
        count++;
    }
    write_sealed(word[joins ? 6 : 5], made, used);
    printf("groups %u samples %llu dropped 0\n", count, (unsigned long long)samples);
    return 0;
}
