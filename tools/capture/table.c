// What table.h says. A line is put together in memory and written once: a long capture has millions.
#include "table.h"
#include <string.h>

// The longest label has 120 runs of at most 13 characters in JSON; a line has two labels.
enum { LINE = 8192, WORDS = 30 };

struct line {
    char text[LINE];
    size_t count;
};

static void put(struct line *line, const char *words) {
    size_t count = strlen(words);
    if (count > LINE - line->count) count = LINE - line->count;
    memcpy(line->text + line->count, words, count);
    line->count += count;
}

static void put_number(struct line *line, unsigned long number) {
    char digits[24];
    size_t at = sizeof digits;
    digits[--at] = 0;
    do digits[--at] = (char)('0' + number % 10);
    while (number /= 10);
    put(line, digits + at);
}

// A number in a column of its own, to its right.
static void put_column(struct line *line, unsigned long number, size_t width) {
    size_t before = line->count, digits;
    put_number(line, number);
    digits = line->count - before;
    if (digits >= width || width > LINE - before) return;
    memmove(line->text + before + width - digits, line->text + before, digits);
    memset(line->text + before, ' ', width - digits);
    line->count = before + width;
}

struct label {
    uint32_t domain;
    uint8_t level;
    size_t count;
    uint32_t runs[INGLEBREEK_MAX_RUNS];
};

// The label of an options area, as the library reads it; none where there is no option 134, or not a valid one.
static bool read_label(const uint8_t *area, unsigned octets, struct label *label) {
    unsigned length;
    size_t pointer;
    const uint8_t *option = find_option(area, octets, &length);
    return option && inglebreek_read_option(option, length, &pointer, &label->domain, &label->level, &label->count, label->runs, INGLEBREEK_MAX_RUNS) == 0;
}

static void put_runs(struct line *line, const struct label *label) {
    for (size_t i = 0; i < label->count; i++) {
        unsigned low = INGLEBREEK_RUN_LOW(label->runs[i]), high = INGLEBREEK_RUN_HIGH(label->runs[i]);
        if (i) put(line, ",");
        put_number(line, low);
        if (low == high) continue;
        put(line, "-");
        put_number(line, high);
    }
}

// As a gateway file's text has it: domain 5 level 3 categories 0-7,9.
static void put_label(struct line *line, bool there, const struct label *label, enum format format) {
    if (!there) {
        put(line, format == JSON ? "null" : "-");
        return;
    }
    put(line, format == JSON ? "{\"domain\":" : "domain ");
    put_number(line, label->domain);
    put(line, format == JSON ? ",\"level\":" : " level ");
    put_number(line, label->level);
    if (format == JSON) {
        put(line, ",\"categories\":\"");
        put_runs(line, label);
        put(line, "\"}");
    } else if (label->count) {
        put(line, " categories ");
        put_runs(line, label);
    }
}

static void put_line(struct table *table, struct line *line) {
    put(line, "\n");
    fwrite(line->text, 1, line->count, table->file);
}

void put_title(struct table *table) {
    if (table->format == TSV) fputs("frame\tnumber\twords\ttype\tcode\tpointer\tarriving\tleaving\n", table->file);
    if (table->format == TEXT) fputs("   frame  no. words                          type code pointer  arriving label > leaving label\n", table->file);
}

// A frame that was not decided has no number.
static void put_undecided(struct table *table, const struct row *row) {
    struct line line;
    const char *words = fault_words[row->undecided];
    line.count = 0;
    switch (table->format) {
    case TEXT:
        put_column(&line, row->frame, 8);
        put(&line, "    - ");
        put(&line, words);
        break;
    case TSV:
        put_number(&line, row->frame);
        put(&line, "\t-\t");
        put(&line, words);
        put(&line, "\t-\t-\t-\t-\t-");
        break;
    case JSON:
        put(&line, "{\"frame\":");
        put_number(&line, row->frame);
        put(&line, ",\"number\":null,\"words\":\"");
        put(&line, words);
        put(&line, "\",\"type\":null,\"code\":null,\"pointer\":null,\"arriving\":null,\"leaving\":null}");
        break;
    }
    put_line(table, &line);
}

static void put_words(struct line *line, const struct row *row) {
    put(line, inglebreek_words(row->slot->number));
    if (row->unsent) {
        put(line, ", not sent: ");
        put(line, fault_words[row->unsent]);
    }
}

// The labels of both areas, where they have one.
struct labels {
    bool arrives, leaves;
    struct label arriving, leaving;
};

static void put_text(struct line *line, const struct row *row, const struct labels *labels) {
    const struct inglebreek_slot *slot = row->slot;
    put_column(line, row->frame, 8);
    put_column(line, slot->number, 5);
    put(line, " ");
    size_t end = line->count + WORDS;
    put_words(line, row);
    while (line->count < end) put(line, " ");
    put_column(line, slot->type, 5);
    put_column(line, slot->code, 5);
    put_column(line, slot->pointer, 8);
    put(line, "  ");
    put_label(line, labels->arrives, &labels->arriving, TEXT);
    put(line, " > ");
    put_label(line, labels->leaves, &labels->leaving, TEXT);
}

// The same as tab-separated values or as JSON: only what stands before each value differs.
static void put_values(struct line *line, const struct row *row, const struct labels *labels, enum format format) {
    static const char *const names[] = {"{\"frame\":", ",\"number\":", ",\"words\":\"", "\",\"type\":", ",\"code\":", ",\"pointer\":", ",\"arriving\":", ",\"leaving\":", "}"};
    static const char *const tabs[] = {"", "\t", "\t", "\t", "\t", "\t", "\t", "\t", ""};
    const char *const *before = format == JSON ? names : tabs;
    const struct inglebreek_slot *slot = row->slot;
    put(line, before[0]);
    put_number(line, row->frame);
    put(line, before[1]);
    put_number(line, slot->number);
    put(line, before[2]);
    put_words(line, row);
    put(line, before[3]);
    put_number(line, slot->type);
    put(line, before[4]);
    put_number(line, slot->code);
    put(line, before[5]);
    put_number(line, slot->pointer);
    put(line, before[6]);
    put_label(line, labels->arrives, &labels->arriving, format);
    put(line, before[7]);
    put_label(line, labels->leaves, &labels->leaving, format);
    put(line, before[8]);
}

void put_row(struct table *table, const struct row *row) {
    struct labels labels;
    struct line line;
    if (row->undecided) {
        put_undecided(table, row);
        return;
    }
    labels.arrives = read_label(row->record->area, row->record->area_length, &labels.arriving);
    labels.leaves = row->slot->number == INGLEBREEK_PASSED && read_label(row->slot->area, row->slot->count, &labels.leaving);
    line.count = 0;
    if (table->format == TEXT) put_text(&line, row, &labels);
    else put_values(&line, row, &labels, table->format);
    put_line(table, &line);
}
