// The words of the command line.
#ifndef OPTIONS_H
#define OPTIONS_H

#include "table.h"

enum { MOST_NETWORKS = 16 };

// Names of files as they were given; NULL where none was. The table goes to standard output unless it is told where, or that there shall be none.
struct options {
    const char *gateway, *capture, *written, *table, *records, *left;
    unsigned from, to, longest, networks_count;
    struct network networks[MOST_NETWORKS];
    enum format format;
    bool no_table, quiet;
};

extern const char program[];

// What went wrong, in one line, and the end: status 1, and 2 for a wrong argument.
#define PRINTS __attribute__((noreturn, format(printf, 1, 2)))
void stop(const char *words, ...) PRINTS;
void refuse(const char *words, ...) PRINTS;

// Reads the words; answers --help and --version itself.
struct options read_options(int count, char **words);

#endif
