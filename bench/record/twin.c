/* Records a script as `record` does, in straight C: it reads the script whole, keeps each sample, and writes the same file with
   the same calls. It takes every line but `live`, and prints the same lines. The start time is that of a recording that was
   made from the same script. With a number it makes and keeps the samples of the generated script of so many in place of reading
   one, as `gen` does. On standard error it says what all samples cost, in bytes.

   usage: twin RECORDING OUT < SCRIPT
          twin RECORDING OUT COUNT */
#include <fcntl.h>
#include <inttypes.h>
#include <stdbool.h>
#include <stdint.h>
#include <stdio.h>
#include <stdlib.h>
#include <string.h>
#include <unistd.h>

enum { GROUPS = 64, CHANNELS = 256, ALL_CHANNELS = 1024, VARIABLES = 128, SOURCES = 16, NAME = 64, LONGEST = 65535 };
enum { SAMPLE_COST = 96, CHANNEL_COST = 40 };

enum kind { UNSIGNED, SIGNED, BYTES, VARIABLE };

struct name {
    const uint8_t *at;
    uint32_t len;
};

struct channel {
    struct name name, unit;
    enum kind kind;
    uint8_t type, bit;
    bool big, master, inv;
    uint32_t byte, bits, inval;
    uint64_t offset; // of the next value, where its length varies
    uint8_t id;      // of the group of its values
};

struct group {
    struct name name;
    uint8_t source;
    bool mastered;
    struct channel *channels;
    uint32_t count, free_bit, invals;
};

struct value {
    union {
        uint64_t number; // or the two's complement of a negative one
        uint8_t *bytes;
    };
    uint32_t len;
    bool valid;
};

// a sample, or a flush where it has no values
struct task {
    uint32_t group;
    struct value *values;
};

struct list {
    struct task *tasks;
    size_t count, room, accepted;
};

enum stage { LIMITS, PLAN, RUNNING, ENDED };

static struct group groups[GROUPS];
static struct channel channels[ALL_CHANNELS];
static struct list lists[SOURCES];
static uint32_t group_count, channel_count, variable_count, sources;
static uint64_t block_limit, session_limit;
static enum stage stage;
static bool unit_may_follow;

static void need(bool ok, const char *what) {
    if (ok) return;
    perror(what);
    exit(1);
}

static void *checked(void *memory) {
    need(memory != NULL, "memory");
    return memory;
}

static uint64_t word(const uint8_t *at) {
    uint64_t n;
    memcpy(&n, at, 8);
    return n;
}

static uint64_t align8(uint64_t n) { return (n + 7) / 8 * 8; }

static uint32_t bytes_of(uint32_t bits) { return (bits + 7) / 8; }

// ---- the words of a line ----

struct text {
    const uint8_t *at, *end;
};

static bool take_blank(struct text *line) {
    if (line->at == line->end || *line->at != ' ') return false;
    line->at++;
    return true;
}

static bool take_number(struct text *line, uint64_t *number) {
    const uint8_t *at = line->at;
    uint64_t n = 0;
    while (at < line->end && *at >= '0' && *at <= '9') {
        if (__builtin_mul_overflow(n, 10, &n) || __builtin_add_overflow(n, *at - '0', &n)) return false;
        at++;
    }
    if (at == line->at || (*line->at == '0' && at - line->at > 1)) return false;
    line->at = at;
    *number = n;
    return true;
}

// a blank and a number up to the end of the line
static bool last_number(struct text *line, uint64_t *number) {
    return take_blank(line) && take_number(line, number) && line->at == line->end;
}

static bool take_name(struct text *line, struct name *name) {
    const uint8_t *at = line->at;
    while (at < line->end && *at >= 0x21 && *at <= 0x7E) at++;
    *name = (struct name){line->at, (uint32_t)(at - line->at)};
    line->at = at;
    return name->len >= 1 && name->len <= NAME;
}

static bool take_word(struct text *line, const char *word) {
    size_t len = strlen(word);
    if ((size_t)(line->end - line->at) < len || memcmp(line->at, word, len) != 0) return false;
    if (line->at + len < line->end && line->at[len] != ' ') return false;
    line->at += len;
    return true;
}

// ---- the plan ----

static bool limit_line(struct text *line, uint64_t most, uint64_t *limit) {
    return stage == LIMITS && *limit == 0 && last_number(line, limit) && *limit >= 1 && *limit <= most;
}

static bool group_line(struct text *line) {
    if (stage > PLAN || group_count == GROUPS) return false;
    if (stage == PLAN && groups[group_count - 1].count == 0) return false;
    struct group *group = &groups[group_count];
    uint64_t source;
    if (!take_blank(line) || !take_number(line, &source) || source >= SOURCES) return false;
    if (!take_blank(line) || !take_name(line, &group->name) || line->at != line->end) return false;
    group->source = (uint8_t)source;
    group->channels = channels + channel_count;
    if (source >= sources) sources = (uint32_t)source + 1;
    group_count++;
    stage = PLAN;
    return true;
}

// a type that is a word and a number, such as `u12`
static bool sized(struct name type, const char *word, uint32_t most, uint32_t *size) {
    size_t len = strlen(word);
    if (type.len <= len || memcmp(type.at, word, len) != 0) return false;
    struct text rest = {type.at + len, type.at + type.len};
    uint64_t n;
    if (!take_number(&rest, &n) || rest.at != rest.end || n < 1 || n > most) return false;
    *size = (uint32_t)n;
    return true;
}

static bool is_word(struct name type, const char *word) {
    return type.len == strlen(word) && memcmp(type.at, word, type.len) == 0;
}

static bool set_type(struct channel *channel, struct name type) {
    static const struct {
        const char *word;
        enum kind kind;
        uint8_t type;
        uint32_t most, scale;
    } rows[] = {{"u", UNSIGNED, 0, 64, 1}, {"s", SIGNED, 2, 64, 1},     {"ub", UNSIGNED, 1, 64, 1},
                {"sb", SIGNED, 3, 64, 1},  {"bytes", BYTES, 10, 255, 8}, {"text", BYTES, 7, 255, 8}};
    for (size_t i = 0; i < sizeof rows / sizeof rows[0]; i++) {
        uint32_t size;
        if (!sized(type, rows[i].word, rows[i].most, &size)) continue;
        channel->kind = rows[i].kind;
        channel->type = rows[i].type;
        channel->bits = size * rows[i].scale;
        channel->big = rows[i].type == 1 || rows[i].type == 3;
        return true;
    }
    bool small = is_word(type, "f32"), text = is_word(type, "vartext");
    channel->bits = small ? 32 : 64;
    if (small || is_word(type, "f64")) {
        channel->kind = UNSIGNED;
        channel->type = 4;
        return true;
    }
    channel->kind = VARIABLE;
    channel->type = text ? 7 : 10;
    return text || is_word(type, "var");
}

static bool channel_line(struct text *line) {
    if (stage != PLAN || channel_count == ALL_CHANNELS) return false;
    struct group *group = &groups[group_count - 1];
    struct channel *channel = &channels[channel_count];
    struct name type;
    if (group->count == CHANNELS) return false;
    if (!take_blank(line) || !take_name(line, &channel->name)) return false;
    if (!take_blank(line) || !take_name(line, &type) || !set_type(channel, type)) return false;
    struct text rest = *line;
    if (take_blank(&rest) && take_word(&rest, "master")) {
        channel->master = true;
        *line = rest;
    }
    rest = *line;
    if (take_blank(&rest) && take_word(&rest, "inv")) {
        channel->inv = true;
        *line = rest;
    }
    if (line->at != line->end) return false;
    if (channel->master && (group->mastered || channel->kind >= BYTES)) return false;
    if (channel->kind == VARIABLE && variable_count++ == VARIABLES) return false;
    group->mastered |= channel->master;
    bool packed = channel->type == 0 || channel->type == 2;
    if (!packed) group->free_bit = 8 * bytes_of(group->free_bit);
    channel->byte = group->free_bit / 8;
    channel->bit = group->free_bit % 8;
    group->free_bit += packed ? channel->bits : 8 * bytes_of(channel->bits);
    if (channel->inv) channel->inval = group->invals++;
    group->count++;
    channel_count++;
    unit_may_follow = true;
    return true;
}

static bool unit_line(struct text *line) {
    if (!unit_may_follow || !take_blank(line)) return false;
    unit_may_follow = false;
    return take_name(line, &channels[channel_count - 1].unit) && line->at == line->end;
}

static bool begin_line(struct text *line) {
    if (stage != PLAN || groups[group_count - 1].count == 0 || line->at != line->end) return false;
    uint8_t id = (uint8_t)group_count;
    for (uint32_t i = 0; i < channel_count; i++) {
        if (channels[i].kind == VARIABLE) channels[i].id = ++id;
    }
    if (block_limit == 0) block_limit = 65536;
    if (session_limit == 0) session_limit = 268435456;
    stage = RUNNING;
    return true;
}

// ---- the samples ----

static int nibble(uint8_t digit) {
    if (digit >= '0' && digit <= '9') return digit - '0';
    if (digit >= 'a' && digit <= 'f') return digit - 'a' + 10;
    return -1;
}

static bool take_bytes(struct text *line, const struct channel *channel, struct value *value) {
    if (line->at == line->end || *line->at != 'x') return false;
    const uint8_t *start = ++line->at;
    while (line->at < line->end && nibble(*line->at) >= 0) line->at++;
    size_t digits = (size_t)(line->at - start), len = digits / 2;
    if (digits % 2 == 1 || len > LONGEST || (channel->kind == BYTES && len != channel->bits / 8)) return false;
    value->len = (uint32_t)len;
    value->bytes = len == 0 ? NULL : checked(malloc(len));
    for (size_t i = 0; i < len; i++) value->bytes[i] = (uint8_t)(nibble(start[2 * i]) << 4 | nibble(start[2 * i + 1]));
    return true;
}

static bool take_value(struct text *line, const struct channel *channel, struct value *value) {
    if (channel->kind >= BYTES) return take_bytes(line, channel, value);
    bool negative = channel->kind == SIGNED && line->at < line->end && *line->at == '-';
    line->at += negative;
    uint64_t n, most = UINT64_MAX >> (64 - channel->bits);
    if (!take_number(line, &n)) return false;
    value->number = n;
    if (channel->kind == UNSIGNED) return n <= most;
    value->number = negative ? -n : n;
    return negative ? n != 0 && n <= most / 2 + 1 : n <= most / 2;
}

static void push(struct list *list, struct task task) {
    if (list->count == list->room) {
        list->room = list->room == 0 ? 16 : 2 * list->room;
        list->tasks = checked(realloc(list->tasks, list->room * sizeof *list->tasks));
    }
    list->tasks[list->count++] = task;
}

static uint64_t size_of(const struct group *group, const struct value *values) {
    uint64_t size = 1 + bytes_of(group->free_bit) + bytes_of(group->invals);
    for (uint32_t i = 0; i < group->count; i++) {
        if (group->channels[i].kind == VARIABLE) size += 5 + values[i].len;
    }
    return size;
}

static bool sample_line(struct text *line) {
    uint64_t number;
    if (stage != RUNNING || !take_number(line, &number) || number >= group_count) return false;
    const struct group *group = &groups[number];
    struct value *values = checked(malloc(group->count * sizeof *values));
    for (uint32_t i = 0; i < group->count; i++) {
        const struct channel *channel = &group->channels[i];
        if (!take_blank(line) || !take_value(line, channel, &values[i])) return false;
        bool marked = channel->inv && line->at < line->end && *line->at == '?';
        values[i].valid = !marked;
        line->at += marked;
    }
    if (line->at != line->end || size_of(group, values) > block_limit) return false;
    push(&lists[group->source], (struct task){(uint32_t)number, values});
    return true;
}

static bool flush_line(struct text *line) {
    uint64_t source;
    if (stage != RUNNING || !last_number(line, &source) || source >= sources) return false;
    push(&lists[source], (struct task){0, NULL});
    return true;
}

static bool end_line(struct text *line) {
    if (stage != RUNNING || line->at != line->end) return false;
    stage = ENDED;
    return true;
}

static bool script_line(struct text *line) {
    if (stage == ENDED) return false;
    if (line->at == line->end || *line->at == ';') return true;
    if (*line->at >= '0' && *line->at <= '9') return sample_line(line);
    if (take_word(line, "!")) return flush_line(line);
    if (take_word(line, "unit")) return unit_line(line);
    unit_may_follow = false;
    if (take_word(line, "channel")) return channel_line(line);
    if (take_word(line, "group")) return group_line(line);
    if (take_word(line, "block")) return limit_line(line, 16777216, &block_limit);
    if (take_word(line, "session")) return limit_line(line, 268435456, &session_limit);
    if (take_word(line, "begin")) return begin_line(line);
    if (take_word(line, "end")) return end_line(line);
    return false;
}

static uint8_t *read_all(int in, size_t *size) {
    size_t room = 65536;
    uint8_t *bytes = checked(malloc(room));
    *size = 0;
    for (;;) {
        ssize_t count = read(in, bytes + *size, room - *size);
        need(count >= 0, "read");
        if (count == 0) return bytes;
        *size += (size_t)count;
        if (*size == room) bytes = checked(realloc(bytes, room *= 2));
    }
}

static void read_script(const uint8_t *script, size_t size) {
    const uint8_t *at = script, *end = script + size;
    uint64_t number = 1;
    for (const uint8_t *lf; (lf = memchr(at, '\n', (size_t)(end - at))) != NULL; at = lf + 1, number++) {
        struct text line = {at, lf};
        if (!script_line(&line)) break;
    }
    if (stage == ENDED && at == end) return;
    printf("script line %" PRIu64 "\n", number);
    exit(8);
}

// ---- the generated script ----

static struct value *numbers(uint32_t count, uint64_t time, uint64_t number) {
    struct value *values = checked(malloc(count * sizeof *values));
    values[0] = (struct value){.number = time, .valid = true};
    values[1] = (struct value){.number = number, .valid = true};
    return values;
}

static void generate(uint64_t source, uint64_t k) {
    uint64_t sample = 4 * k + source;
    bool varies = source == 3;
    struct value *values = numbers(2 + varies, sample, (1664525 * sample + 1013904223) % 4294967296);
    if (varies) {
        values[2] = (struct value){.len = sample % 5, .valid = true};
        values[2].bytes = checked(malloc(values[2].len + 1));
        memset(values[2].bytes, (int)(sample % 256), values[2].len);
    }
    push(&lists[source], (struct task){(uint32_t)source, values});
    if ((k + 1) % 1000 == 0) push(&lists[source], (struct task){0, NULL});
}

static void generate_all(uint64_t count) {
    static const char plan[] = "group 0 g0\nchannel t u64 master\nchannel v u32\ngroup 1 g1\nchannel t u64 master\nchannel v u32\n"
                               "group 2 g2\nchannel t u64 master\nchannel v u32\ngroup 3 g3\nchannel t u64 master\nchannel v u32\n"
                               "channel n var\nbegin\nend\n";
    read_script((const uint8_t *)plan, strlen(plan));
    for (uint64_t source = 0; source < sources; source++) {
        for (uint64_t k = 0; 4 * k + source < count; k++) generate(source, k);
    }
}

// ---- the head ----

struct head {
    uint8_t *bytes;
    size_t len;
};

static void put(struct head *head, uint64_t at, uint64_t number, size_t size) { memcpy(head->bytes + at, &number, size); }

static void link_to(struct head *head, uint64_t block, uint64_t link, uint64_t to) { put(head, block + 24 + 8 * link, to, 8); }

// adds a block that is all 0 behind its header, and answers its place
static uint64_t add_block(struct head *head, const char *kind, uint64_t links, uint64_t body) {
    uint64_t at = align8(head->len), len = 24 + 8 * links + body;
    head->bytes = checked(realloc(head->bytes, align8(at + len)));
    memset(head->bytes + head->len, 0, align8(at + len) - head->len);
    head->len = align8(at + len);
    memcpy(head->bytes + at, kind, 4);
    put(head, at + 8, len, 8);
    put(head, at + 16, links, 8);
    return at;
}

static uint64_t add_text(struct head *head, const char *kind, const void *text, size_t len) {
    if (len == 0) return 0;
    uint64_t at = add_block(head, kind, 0, align8(len + 1));
    memcpy(head->bytes + at + 24, text, len);
    return at;
}

static void add_history(struct head *head, uint64_t header, uint64_t start) {
    static const char comment[] = "<FHcomment><TX>record</TX><tool_id>mdf4rec</tool_id><tool_vendor>none</tool_vendor>"
                                  "<tool_version>1</tool_version></FHcomment>";
    uint64_t at = add_block(head, "##FH", 2, 16);
    link_to(head, header, 1, at);
    put(head, at + 40, start, 8);
    uint64_t text = add_text(head, "##MD", comment, strlen(comment));
    link_to(head, at, 1, text);
}

static uint64_t add_channel(struct head *head, const struct channel *channel) {
    uint64_t at = add_block(head, "##CN", 8, 72), body = at + 88;
    put(head, body, channel->master ? 2 : channel->kind == VARIABLE, 1);
    put(head, body + 1, channel->master, 1);
    put(head, body + 2, channel->type, 1);
    put(head, body + 3, channel->bit, 1);
    put(head, body + 4, channel->byte, 4);
    put(head, body + 8, channel->bits, 4);
    put(head, body + 12, channel->inv ? 2 : 0, 4);
    put(head, body + 16, channel->inval, 4);
    uint64_t name = add_text(head, "##TX", channel->name.at, channel->name.len);
    link_to(head, at, 2, name);
    uint64_t unit = add_text(head, "##TX", channel->unit.at, channel->unit.len);
    link_to(head, at, 6, unit);
    return at;
}

// the channels that vary find the places of their blocks in `places`
static uint64_t add_group(struct head *head, const struct group *group, uint64_t id, uint64_t *places) {
    uint64_t at = add_block(head, "##CG", 6, 32), last = at, link = 1;
    put(head, at + 72, id, 8);
    put(head, at + 96, bytes_of(group->free_bit), 4);
    put(head, at + 100, bytes_of(group->invals), 4);
    uint64_t name = add_text(head, "##TX", group->name.at, group->name.len);
    link_to(head, at, 2, name);
    for (uint32_t i = 0; i < group->count; i++) {
        uint64_t channel = add_channel(head, &group->channels[i]);
        link_to(head, last, link, channel);
        places[group->channels + i - channels] = channel;
        last = channel;
        link = 0;
    }
    return at;
}

static void add_groups(struct head *head, uint64_t data) {
    uint64_t last = data, link = 1;
    uint64_t *places = checked(calloc(channel_count, sizeof *places));
    for (uint32_t i = 0; i < group_count; i++, link = 0) {
        uint64_t at = add_group(head, &groups[i], i + 1, places);
        link_to(head, last, link, at);
        last = at;
    }
    for (uint32_t i = 0; i < channel_count; i++) {
        if (channels[i].kind != VARIABLE) continue;
        uint64_t at = add_block(head, "##CG", 6, 32);
        put(head, at + 72, channels[i].id, 8);
        put(head, at + 88, 1, 2);
        link_to(head, last, 0, at);
        link_to(head, places[i], 5, at);
        last = at;
    }
    free(places);
}

static struct head head_of(uint64_t start) {
    struct head head = {checked(calloc(1, 64)), 64};
    memcpy(head.bytes, "UnFinMF 4.10    mdf4rec ", 24);
    put(&head, 28, 410, 2);
    put(&head, 60, 33, 2);
    put(&head, 62, 1, 2);
    uint64_t header = add_block(&head, "##HD", 6, 32);
    put(&head, header + 72, start, 8);
    add_history(&head, header, start);
    uint64_t data = add_block(&head, "##DG", 4, 8);
    link_to(&head, header, 0, data);
    put(&head, data + 56, 1, 1);
    add_groups(&head, data);
    link_to(&head, data, 2, head.len);
    return head;
}

// ---- the file ----

struct file {
    int out;
    uint64_t place;
    uint8_t *block; // its header, the data, and room for 8 bytes behind them
    size_t used;
};

static void write_at(int out, const void *bytes, size_t len, uint64_t at) {
    need(pwrite(out, bytes, len, (off_t)at) == (ssize_t)len, "write");
}

static void sync_data(int out) { need(fdatasync(out) == 0, "sync"); }

static void sync_folder(const char *name) {
    char *folder = checked(strdup(name)), *slash = strrchr(folder, '/');
    if (slash != NULL) *slash = 0;
    int dir = open(slash != NULL ? folder : ".", O_RDONLY);
    need(dir >= 0 && fsync(dir) == 0, "folder");
    close(dir);
    free(folder);
}

static struct file create(const char *name, struct head head) {
    struct file file = {open(name, O_RDWR | O_CREAT | O_EXCL, 0644), head.len, checked(malloc(24 + block_limit + 8)), 0};
    need(file.out >= 0, name);
    sync_folder(name);
    write_at(file.out, "", 1, 0);
    sync_data(file.out);
    write_at(file.out, head.bytes + 1, head.len - 1, 1);
    write_at(file.out, "", 1, head.len);
    sync_data(file.out);
    write_at(file.out, head.bytes, 1, 0);
    sync_data(file.out);
    return file;
}

static void write_block(struct file *file) {
    if (file->used == 0) return;
    uint64_t len = 24 + file->used, next = align8(len);
    memcpy(file->block, "##DT\0\0\0", 8);
    memcpy(file->block + 8, &len, 8);
    memset(file->block + 16, 0, 8);
    memset(file->block + len, 0, 8);
    write_at(file->out, file->block + 1, next, file->place + 1);
    sync_data(file->out);
    write_at(file->out, file->block, 1, file->place);
    sync_data(file->out);
    file->place += next;
    file->used = 0;
}

static void pack_number(uint8_t *record, const struct channel *channel, uint64_t number) {
    uint8_t *at = record + channel->byte;
    if (channel->bits == 64 && channel->bit == 0 && !channel->big) {
        memcpy(at, &number, 8);
        return;
    }
    size_t size = bytes_of(channel->bit + channel->bits);
    unsigned __int128 bits = (unsigned __int128)(number & UINT64_MAX >> (64 - channel->bits)) << channel->bit;
    for (size_t i = 0; i < size; i++, bits >>= 8) at[channel->big ? size - 1 - i : i] |= (uint8_t)bits;
}

// the record of a value whose length varies; answers the offset of the value
static uint64_t pack_variable(struct file *file, struct channel *channel, const struct value *value) {
    uint8_t *at = file->block + 24 + file->used;
    at[0] = channel->id;
    memcpy(at + 1, &value->len, 4);
    if (value->len > 0) memcpy(at + 5, value->bytes, value->len);
    file->used += 5 + value->len;
    uint64_t offset = channel->offset;
    channel->offset += 4 + value->len;
    return offset;
}

static void pack(struct file *file, const struct task *task) {
    struct group *group = &groups[task->group];
    uint64_t offsets[CHANNELS];
    for (uint32_t i = 0; i < group->count; i++) {
        if (group->channels[i].kind != VARIABLE) continue;
        offsets[i] = pack_variable(file, &group->channels[i], &task->values[i]);
    }
    uint32_t data = bytes_of(group->free_bit), invals = bytes_of(group->invals);
    uint8_t *record = file->block + 24 + file->used + 1;
    record[-1] = (uint8_t)(task->group + 1);
    memset(record, 0, data + invals);
    for (uint32_t i = 0; i < group->count; i++) {
        const struct channel *channel = &group->channels[i];
        const struct value *value = &task->values[i];
        if (channel->kind == VARIABLE) pack_number(record, channel, offsets[i]);
        else if (channel->kind == BYTES) memcpy(record + channel->byte, value->bytes, value->len);
        else pack_number(record, channel, value->number);
        if (!value->valid) record[data + channel->inval / 8] |= (uint8_t)(1 << channel->inval % 8);
    }
    file->used += 1 + data + invals;
}

static void append(struct file *file, const struct task *task, uint64_t *held) {
    const struct group *group = &groups[task->group];
    uint64_t size = size_of(group, task->values);
    uint64_t cost = size + SAMPLE_COST + (uint64_t)CHANNEL_COST * group->count;
    if (cost > session_limit - *held) {
        printf("session full %" PRIu64 " %" PRIu64 " %" PRIu64 "\n", *held, cost, session_limit);
        exit(5);
    }
    *held += cost;
    if (file->used + size > block_limit) write_block(file);
    pack(file, task);
}

// what all samples cost
static uint64_t record(struct file *file) {
    uint64_t held = 0;
    for (uint32_t source = 0; source < sources; source++) {
        struct list *list = &lists[source];
        for (size_t i = 0; i < list->count; i++) {
            if (list->tasks[i].values == NULL) {
                write_block(file);
                continue;
            }
            append(file, &list->tasks[i], &held);
            list->accepted++;
        }
    }
    write_block(file);
    return held;
}

static void tell(void) {
    size_t all = 0;
    for (uint32_t source = 0; source < sources; source++) {
        printf("source %" PRIu32 " accepted %zu\n", source, lists[source].accepted);
        all += lists[source].accepted;
    }
    printf("samples %zu durable %zu\n", all, all);
}

int main(int argc, char **argv) {
    need(argc == 3 || argc == 4, "usage: twin RECORDING OUT [COUNT]");
    int in = open(argv[1], O_RDONLY);
    uint8_t told[144];
    need(in >= 0 && pread(in, told, sizeof told, 0) == (ssize_t)sizeof told, argv[1]);
    close(in);
    if (argc == 4) {
        generate_all(strtoull(argv[3], NULL, 10));
    } else {
        size_t size;
        uint8_t *script = read_all(0, &size);
        read_script(script, size);
    }
    struct head head = head_of(word(told + 136));
    struct file file = create(argv[2], head);
    uint64_t cost = record(&file);
    close(file.out);
    tell();
    fprintf(stderr, "%" PRIu64 "\n", cost);
    return 0;
}
