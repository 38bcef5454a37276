// What options.h says.
#include "options.h"
#include <stdarg.h>
#include <stdlib.h>
#include <string.h>

const char program[] = "inglebreek-capture";

static const char usage[] =
    "Takes the IPv4 datagrams of a capture through the label gateway, and tells what is decided of each.\n"
    "\n"
    "  inglebreek-capture [OPTION...] GATEWAYFILE CAPTURE\n"
    "\n"
    "GATEWAYFILE has the ports and the tables. CAPTURE is a pcap or pcapng file, or - for standard input: Ethernet (VLAN tags are\n"
    "kept), Linux cooked of version 1 or 2, or raw IP. The table has a row for each frame: its number, the decision's number and\n"
    "words, the ICMP type, code and pointer, the arriving and the leaving label. A frame that is damaged or no IPv4 has its reason.\n"
    "\n"
    "  --from PORT       the port that the datagrams come in by, counted from 0 (0)\n"
    "  --to PORT         the port that they leave by (1)\n"
    "  --format FORMAT   of the table: text, tsv or json, an object a line (text)\n"
    "  --table FILE      where the table goes (standard output)\n"
    "  --no-table        no table\n"
    "  --write FILE      what leaves, as a capture of the same kind of link: time to live one less, lengths and checksum right\n"
    "  --records FILE    records for the inspector: of each datagram what the box decides of it, or with --left what was seen\n"
    "  --left CAPTURE    what left a real box at its far side: it is held against what is decided here, and counted. A datagram that\n"
    "                    is not seen there is taken as refused as decided; where it is passed here, its record has number 255\n"
    "  --network A/BITS  a network at the ports, for its broadcast address; up to 16 times\n"
    "  --mtu OCTETS      the longest datagram that leaves, 68 to 65535 (65535)\n"
    "  --quiet           no counts at the end, and no progress line on a terminal\n"
    "  --help, --version\n"
    "\n"
    "A FILE may be - for standard output, one of them. The status is 1 where something goes wrong, and 2 for a wrong argument.\n";

static void complain(const char *words, va_list rest, const char *more) {
    fflush(stdout);
    fprintf(stderr, "%s: ", program);
    vfprintf(stderr, words, rest);
    fprintf(stderr, "%s\n", more);
}

void stop(const char *words, ...) {
    va_list rest;
    va_start(rest, words);
    complain(words, rest, "");
    va_end(rest);
    exit(1);
}

void refuse(const char *words, ...) {
    va_list rest;
    va_start(rest, words);
    complain(words, rest, " (inglebreek-capture --help tells the usage)");
    va_end(rest);
    exit(2);
}

// Writes to standard output and ends, with status 1 where it cannot be written.
static void answer(const char *words) {
    if (fputs(words, stdout) == EOF || fflush(stdout) == EOF) stop("standard output cannot be written");
    exit(0);
}

// A decimal number: digits alone, at most `most`.
static bool read_number(const char *word, size_t length, unsigned most, unsigned *number) {
    unsigned long found = 0;
    if (!length) return false;
    for (size_t i = 0; i < length; i++) {
        if (word[i] < '0' || word[i] > '9') return false;
        found = found * 10 + (unsigned long)(word[i] - '0');
        if (found > most) return false;
    }
    *number = (unsigned)found;
    return true;
}

static unsigned number_of(const char *option, const char *word, unsigned least, unsigned most) {
    unsigned number;
    if (!read_number(word, strlen(word), most, &number) || number < least) refuse("%s takes a number from %u to %u, and not '%s'", option, least, most, word);
    return number;
}

// A network as 192.0.2.0/24. No bit past its length is set.
static struct network network_of(const char *word) {
    struct network network = {0, 0};
    const char *at = word;
    for (int i = 0; i < 4; i++) {
        size_t length = strspn(at, "0123456789");
        unsigned octet;
        if (!read_number(at, length, 255, &octet) || at[length] != (i < 3 ? '.' : '/')) refuse("--network takes a network as 192.0.2.0/24, and not '%s'", word);
        network.address = network.address << 8 | octet;
        at += length + 1;
    }
    if (!read_number(at, strlen(at), 32, &network.bits)) refuse("--network takes a network as 192.0.2.0/24, and not '%s'", word);
    if (network.bits < 32 && network.address & 0xffffffffu >> network.bits) refuse("--network %s has bits set past its length", word);
    return network;
}

static enum format format_of(const char *word) {
    if (!strcmp(word, "text")) return TEXT;
    if (!strcmp(word, "tsv")) return TSV;
    if (!strcmp(word, "json")) return JSON;
    refuse("--format is text, tsv or json, and not '%s'", word);
}

// An option with a value.
static void take_value(struct options *options, const char *name, const char *value) {
    if (!strcmp(name, "--from")) options->from = number_of(name, value, 0, INGLEBREEK_MAX_PORTS - 1);
    else if (!strcmp(name, "--to")) options->to = number_of(name, value, 0, INGLEBREEK_MAX_PORTS - 1);
    else if (!strcmp(name, "--mtu")) options->longest = number_of(name, value, 68, LONGEST_DATAGRAM);
    else if (!strcmp(name, "--format")) options->format = format_of(value);
    else if (!strcmp(name, "--table")) options->table = value;
    else if (!strcmp(name, "--write")) options->written = value;
    else if (!strcmp(name, "--records")) options->records = value;
    else if (!strcmp(name, "--left")) options->left = value;
    else if (options->networks_count == MOST_NETWORKS) refuse("--network is given more than %d times", MOST_NETWORKS);
    else options->networks[options->networks_count++] = network_of(value);
}

static bool takes_value(const char *name) {
    static const char *const names[] = {"--from", "--to", "--mtu", "--format", "--table", "--write", "--records", "--left", "--network"};
    for (size_t i = 0; i < sizeof names / sizeof *names; i++)
        if (!strcmp(name, names[i])) return true;
    return false;
}

static void take_name(struct options *options, const char *word) {
    if (!options->gateway) options->gateway = word;
    else if (!options->capture) options->capture = word;
    else refuse("'%s' is one name too many", word);
}

static bool is_dash(const char *name) { return name && !strcmp(name, "-"); }

// What is asked makes sense together.
static void check(const struct options *options) {
    if (!options->gateway || !options->capture) refuse("a gateway file and a capture are needed");
    if (is_dash(options->gateway)) refuse("the gateway file is a file and not standard input");
    if (is_dash(options->left)) refuse("--left takes a file and not standard input");
    if (options->no_table && options->table) refuse("--table and --no-table are not given together");
    bool table = !options->no_table && (!options->table || is_dash(options->table));
    if (table + is_dash(options->written) + is_dash(options->records) > 1) refuse("only one thing goes to standard output: --table FILE or --no-table takes the table from there");
}

struct options read_options(int count, char **words) {
    struct options options = {.to = 1, .longest = LONGEST_DATAGRAM, .format = TEXT};
    for (int i = 1; i < count; i++) {
        if (!strcmp(words[i], "--help") || !strcmp(words[i], "-h")) answer(usage);
        if (!strcmp(words[i], "--version")) answer("Inglebreek " INGLEBREEK_VERSION "\n");
    }
    for (int i = 1; i < count; i++) {
        if (takes_value(words[i])) {
            if (i + 1 == count) refuse("%s needs a word behind it", words[i]);
            take_value(&options, words[i], words[i + 1]);
            i++;
        } else if (!strcmp(words[i], "--no-table")) options.no_table = true;
        else if (!strcmp(words[i], "--quiet")) options.quiet = true;
        else if (words[i][0] == '-' && words[i][1]) refuse("%s is not known", words[i]);
        else take_name(&options, words[i]);
    }
    check(&options);
    return options;
}
