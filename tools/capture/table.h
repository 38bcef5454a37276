// The table of decisions: as text, as tab-separated values, or as JSON, an object a line.
#ifndef TABLE_H
#define TABLE_H

#include "frame.h"
#include <stdio.h>

enum format { TEXT, TSV, JSON };

struct table {
    FILE *file;
    enum format format;
};

// What the table says of one frame: its number from 1 on, and why it was not decided, or its record and slot and why it did not leave.
struct row {
    unsigned long frame;
    enum fault undecided, unsent;
    const struct inglebreek_record *record;
    const struct inglebreek_slot *slot;
};

void put_title(struct table *table);
void put_row(struct table *table, const struct row *row);

#endif
