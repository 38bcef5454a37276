// Repeats stored cases of the box (docs/WORKING.md, "To add a case") through the functions for C: reads cases from standard input and prints for each the line that the
// program `cases` does, or SKIP where the functions for C cannot be asked this: an entry that they lack, a record that no gateway file can say.
#include "inglebreek.h"
#include <stdio.h>
#include <stdlib.h>
#include <string.h>

enum { CASE = 65536, RUNS = 256, FILE_MOST = 65536, USUAL = 13 };

// ---- what a case holds

struct input {
    const uint8_t *octets;
    size_t count, at;
    bool bad;
};

static unsigned one(struct input *in) {
    if (in->at >= in->count) {
        in->bad = true;
        return 0;
    }
    return in->octets[in->at++];
}

static unsigned two(struct input *in) {
    unsigned high = one(in);
    return high << 8 | one(in);
}

static uint32_t four(struct input *in) {
    uint32_t high = two(in);
    return high << 16 | two(in);
}

// The next octets, of which there must be so many, at most CASE; zeros where there are fewer.
static const uint8_t *some(struct input *in, size_t count) {
    static const uint8_t none[CASE];
    if (in->count - in->at < count) {
        in->bad = true;
        return none;
    }
    in->at += count;
    return in->octets + in->at - count;
}

struct label {
    uint32_t domain;
    uint8_t level;
    unsigned count;
    uint32_t runs[RUNS];
};

// A label whose unused places are 0: others cannot be handed over.
static struct label read_label(struct input *in) {
    struct label label = {.domain = four(in)};
    label.level = (uint8_t)one(in);
    label.count = one(in);
    unsigned stored = one(in);
    for (unsigned i = 0; i < stored; i++) {
        label.runs[i] = four(in);
        if (i >= label.count && label.runs[i]) in->bad = true;
    }
    return label;
}

// ---- what is printed

static void print_octets(const uint8_t *octets, size_t count) {
    if (!count) printf("-");
    for (size_t i = 0; i < count; i++) printf("%02x", octets[i]);
}

static void print_label(const struct label *label) {
    printf("%u %u %u", (unsigned)label->domain, label->level, label->count);
    for (unsigned i = 0; i < label->count; i++) printf(" %u %u", INGLEBREEK_RUN_LOW(label->runs[i]), INGLEBREEK_RUN_HIGH(label->runs[i]));
}

static bool skip(void) {
    printf("SKIP\n");
    return true;
}

// A buffer of its own size, so that the sanitizer sees the first octet too many; NULL where it has none.
static uint8_t *output(struct input *in, size_t *count) {
    *count = two(in);
    unsigned fill = one(in);
    uint8_t *out = *count ? malloc(*count) : NULL;
    if (out) memset(out, (int)fill, *count);
    return out;
}

static void *copy_of(const void *octets, size_t count) {
    void *copy = count ? malloc(count) : NULL;
    if (copy) memcpy(copy, octets, count);
    return copy;
}

// ---- options

static void spell(struct input *in, bool wide) {
    struct label label = read_label(in);
    unsigned permitted = wide ? one(in) : USUAL;
    size_t room, count = 99;
    uint8_t *out = output(in, &room);
    uint32_t *runs = copy_of(label.runs, label.count * sizeof *runs);
    if (in->bad) skip();
    else {
        unsigned number = inglebreek_spell_label(label.domain, label.level, runs, label.count, permitted & 1, permitted >> 1 & 1, permitted >> 2 & 1, permitted >> 3 & 1, out, room, &count);
        printf("%u %zu ", number, count);
        print_octets(out, room);
        printf("\n");
    }
    free(runs);
    free(out);
}

static void read_one(struct input *in) {
    size_t octets = one(in), pointer = 99, count = 99;
    uint8_t *option = copy_of(some(in, octets), octets);
    struct label label = {.domain = 99};
    uint32_t *runs = malloc(INGLEBREEK_MAX_RUNS * sizeof *runs);
    unsigned number = inglebreek_read_option(option, octets, &pointer, &label.domain, &label.level, &count, runs, INGLEBREEK_MAX_RUNS);
    label.count = (unsigned)count;
    memcpy(label.runs, runs, INGLEBREEK_MAX_RUNS * sizeof *runs);
    printf("%u %zu ", number, pointer);
    print_label(&label);
    printf("\n");
    free(runs);
    free(option);
}

static void read_130(struct input *in) {
    size_t octets = one(in);
    uint8_t *option = copy_of(some(in, octets), octets), level = 99;
    uint16_t flags = 99;
    unsigned number = inglebreek_read_basic(option, octets, &level, &flags);
    printf("%u %u %u\n", number, level, flags);
    free(option);
}

static void write_130(struct input *in) {
    unsigned level = one(in), flags = two(in);
    size_t room, count = 99;
    uint8_t *out = output(in, &room);
    unsigned number = inglebreek_write_basic((uint8_t)level, (uint16_t)flags, out, room, &count);
    printf("%u %zu ", number, count);
    print_octets(out, room);
    printf("\n");
    free(out);
}

// ---- a gateway file made of a case's records

struct file {
    uint8_t octets[FILE_MOST];
    size_t count;
};

static void put(struct file *file, uint32_t number, int octets) {
    while (octets-- && file->count < FILE_MOST) file->octets[file->count++] = (uint8_t)(number >> 8 * octets);
}

static void put_label(struct file *file, const struct label *label) {
    put(file, label->domain, 4);
    put(file, label->level, 1);
    put(file, label->count, 1);
    for (unsigned i = 0; i < label->count; i++) put(file, label->runs[i], 4);
}

static void put_way(struct input *in, struct file *file) {
    put(file, two(in), 2);
    unsigned count = two(in), stored = two(in);
    if (count != stored) in->bad = true;
    put(file, count, 2);
    for (unsigned i = 0; i < stored; i++) put(file, two(in), 2);
}

// A port of a case in the octets of a file of version 3; the label of unlabelled hosts goes to `facing`.
static void put_port(struct input *in, struct file *file, bool wide, struct label *facing, bool *unlabelled) {
    put(file, four(in), 4);
    for (int i = 0; i < 3; i++) {
        if (i == 2) put(file, one(in), 1);
        struct label label = read_label(in);
        put_label(file, &label);
    }
    unsigned groups = wide ? one(in) : 0;
    if (groups & 1) {
        put(file, one(in), 1);
        put_way(in, file);
        put_way(in, file);
    } else {
        put(file, 0, 1);
        for (int i = 0; i < 2; i++) put(file, 0, 4);
    }
    put(file, groups & 2 ? one(in) : USUAL, 1);
    *facing = (struct label){.domain = 0};
    *unlabelled = groups & 4 && one(in);
    if (groups & 4) *facing = read_label(in);
    put(file, *unlabelled, 1);
    put_label(file, facing);
    put(file, groups & 8 ? one(in) : 0, 1);
}

static void put_table(struct input *in, struct file *file, bool wide) {
    put(file, four(in), 4);
    put(file, four(in), 4);
    unsigned count = wide ? two(in) : one(in), stored = wide ? two(in) : one(in);
    if (count != stored) in->bad = true;
    put(file, count, 2);
    for (unsigned i = 0; i < stored; i++) put(file, two(in), 2);
    count = two(in), stored = wide ? two(in) : one(in);
    if (count != stored) in->bad = true;
    put(file, count, 2);
    for (unsigned i = 0; i < stored; i++) {
        put(file, two(in), 2);
        put(file, four(in), 4);
    }
}

static bool accepted(const struct file *file) {
    size_t place, ports, tables, rows;
    return inglebreek_check_file(file->octets, file->count, &place, &ports, &tables, &rows) == INGLEBREEK_FILE_ACCEPTED;
}

static struct inglebreek_record read_record(struct input *in, bool mark) {
    struct inglebreek_record record = {0};
    uint8_t *facts[] = {&record.error, &record.group, &record.link, &record.fragment, &record.source};
    for (int i = 0; i < (mark ? 1 : 5); i++) *facts[i] = (uint8_t)one(in);
    record.area_length = (uint8_t)one(in);
    size_t kept = record.area_length > sizeof record.area ? sizeof record.area : record.area_length;
    memcpy(record.area, some(in, kept), kept);
    some(in, record.area_length - kept);
    return record;
}

static void print_decision(const struct inglebreek_slot *slot, const struct label *facing, bool unlabelled) {
    struct label label = {.domain = 0};
    size_t pointer, count = 0;
    printf("%u %u %u %u %u ", slot->number, slot->type, slot->code, slot->pointer, slot->count);
    if (!slot->number && !unlabelled) inglebreek_read_option(slot->area, slot->area[1], &pointer, &label.domain, &label.level, &count, label.runs, RUNS);
    label.count = (unsigned)count;
    print_label(!slot->number && unlabelled ? facing : &label);
}

static void forward(struct input *in, bool wide, bool mark) {
    static struct file file;
    struct label facing, own;
    bool unlabelled, plain;
    file.count = 0;
    put(&file, 3 << 8 | 2, 4); // room for the length; version 3, two ports
    put_port(in, &file, wide, &own, &plain);
    put_port(in, &file, wide, &facing, &unlabelled);
    put(&file, 1, 1);
    put_table(in, &file, wide);
    file.octets[0] = (uint8_t)(file.count >> 8), file.octets[1] = (uint8_t)file.count;
    struct inglebreek_record record = read_record(in, mark);
    size_t room;
    uint8_t *out = output(in, &room);
    if (in->bad || room < INGLEBREEK_OPTION_OCTETS || !accepted(&file)) skip();
    else {
        struct inglebreek_slot *slot = malloc(sizeof *slot);
        memset(slot, out[0], sizeof *slot);
        uint8_t *octets = copy_of(file.octets, file.count);
        inglebreek_forward_batch(octets, file.count, 0, 1, (const uint8_t *)&record, sizeof record, (uint8_t *)slot, sizeof *slot);
        memcpy(out, slot->area, sizeof slot->area);
        print_decision(slot, &facing, unlabelled);
        printf(" ");
        print_octets(out, room);
        printf("\n");
        free(octets);
        free(slot);
    }
    free(out);
}

// ---- files, messages, the memory

static void check_file(struct input *in) {
    size_t octets = two(in), place = 99, ports = 99, tables = 99, rows = 99;
    uint8_t *file = copy_of(some(in, octets), octets);
    unsigned verdict = inglebreek_check_file(file, octets, &place, &ports, &tables, &rows);
    if (verdict == INGLEBREEK_FILE_REFUSED) printf("REFUSED %zu\n", place);
    else if (verdict == INGLEBREEK_FILE_UNKNOWN_VERSION) printf("VERSION %u\n", file[2]);
    else if (rows > 2048) printf("ROOM\n"); // so many are lent in a case
    else printf("ACCEPTED %zu %zu\n", ports, tables);
    free(file);
}

// Reads a file and writes it anew.
static void renew_file(struct input *in) {
    size_t octets = two(in), place = 99, ports = 99, tables = 99, rows = 99, room, count = 99;
    const uint8_t *given = some(in, octets);
    struct input again = *in;
    uint8_t *file = copy_of(given, octets), *out = output(in, &room);
    unsigned verdict = inglebreek_check_file(file, octets, &place, &ports, &tables, &rows), number = inglebreek_renew_file(file, octets, out, room, &count);
    if (verdict || rows > 2048) {
        if (verdict && (number != verdict || count)) printf("the two do not agree ");
        again.at -= octets + 2;
        check_file(&again);
    } else {
        if (number == INGLEBREEK_FILE_TOO_LONG) printf("NAMED ");
        else printf("%u ", number);
        printf("%zu ", count);
        print_octets(out, room);
        printf("\n");
    }
    free(file);
    free(out);
}

static void build_message(struct input *in) {
    uint8_t report[4];
    for (int i = 0; i < 4; i++) report[i] = (uint8_t)one(in);
    size_t header_count = one(in), data_count, room, more, written = 99, carried = 99;
    uint8_t *header = copy_of(some(in, header_count), header_count);
    data_count = two(in);
    uint8_t *data = copy_of(some(in, data_count), data_count), *message = output(in, &room), *options = output(in, &more);
    unsigned number = inglebreek_build_message(report[0], report[1], report[2], report[3], header, header_count, data, data_count, message, room, options, more, &written, &carried);
    printf("%u %zu %zu ", number, written, carried);
    print_octets(message, room);
    printf(" ");
    print_octets(options, more);
    printf("\n");
    free(header);
    free(data);
    free(message);
    free(options);
}

static void read_message(struct input *in) {
    size_t octets = two(in), header = 99, payload = 99;
    uint8_t *message = copy_of(some(in, octets), octets), type = 99, code = 99, pointer = 99;
    unsigned number = inglebreek_read_message(message, octets, &type, &code, &pointer, &header, &payload);
    printf("%u", number);
    if (!number) {
        printf(" %u %u %u ", type, code, pointer);
        print_octets(message + 8, header);
        printf(" ");
        print_octets(message + 8 + header, payload);
    }
    printf("\n");
    free(message);
}

static unsigned call_memory(struct input *in, unsigned call, size_t *count, uint32_t *addresses, bool *known) {
    size_t octets;
    switch (call) {
    case 1: return inglebreek_note_address(four(in), count, addresses, INGLEBREEK_MEMORY_MOST, known);
    case 2: return inglebreek_ask_address(four(in), *count, addresses, INGLEBREEK_MEMORY_MOST, known);
    case 3: return inglebreek_forget_address(four(in), count, addresses, INGLEBREEK_MEMORY_MOST, known);
    default: octets = two(in); return inglebreek_note_message(some(in, octets), octets, count, addresses, INGLEBREEK_MEMORY_MOST, known);
    }
}

static void remember(struct input *in) {
    size_t count = one(in), stored = one(in);
    uint32_t *addresses = calloc(INGLEBREEK_MEMORY_MOST, sizeof *addresses);
    for (size_t i = 0; i < stored; i++) addresses[i % INGLEBREEK_MEMORY_MOST] = four(in);
    while (in->at < in->count) {
        unsigned call = one(in), number = 0;
        bool known = true;
        if (call == 4) {
            count = 0;
            memset(addresses, 0, INGLEBREEK_MEMORY_MOST * sizeof *addresses);
        } else number = call_memory(in, call, &count, addresses, &known);
        printf("%u %s ", number, call == 4 || number ? "-" : known ? "YES" : "NO");
    }
    printf("%zu", count);
    for (size_t i = 0; i < count && i < INGLEBREEK_MEMORY_MOST; i++) printf(" %u", (unsigned)addresses[i]);
    printf("\n");
    free(addresses);
}

static void answer(struct input *in) {
    switch (one(in)) {
    case 4: spell(in, false); break;
    case 5: read_one(in); break;
    case 6: forward(in, false, true); break;
    case 8: forward(in, false, false); break;
    case 10: check_file(in); break;
    case 11: renew_file(in); break;
    case 13: read_130(in); break;
    case 14: write_130(in); break;
    case 15: forward(in, true, false); break;
    case 17: spell(in, true); break;
    case 20: build_message(in); break;
    case 21: read_message(in); break;
    case 25: remember(in); break;
    default: skip();
    }
}

int main(void) {
    static uint8_t octets[CASE];
    for (;;) {
        int high = getchar(), low = getchar();
        if (high == EOF || low == EOF) return 0;
        struct input in = {octets, (size_t)high << 8 | (size_t)low, 0, false};
        if (fread(octets, 1, in.count, stdin) < in.count || !in.count) skip();
        else answer(&in);
    }
}
