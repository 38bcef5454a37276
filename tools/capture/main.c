// Takes the IPv4 datagrams of a capture through the proved library (options.c has the usage). What is decided, the library says; what is here reads, counts
// and writes.
#include "left.h"
#include "options.h"
#include <errno.h>
#include <pcap/pcap.h>
#include <stdlib.h>
#include <string.h>
#include <sys/stat.h>
#include <time.h>
#include <unistd.h>

// So many frames are decided by one call, which reads the gateway file once.
enum { MANY = 256, BUFFER = 1 << 20, SNAPSHOT = 262144, NUMBERS = 256 };
// The number of a record for a datagram that should have left and was not seen to: the box gives no such number.
enum { NOT_SEEN = 255 };

// What a second capture shows of a datagram.
enum sight { AS_DECIDED, OTHERWISE, THOUGH_REFUSED, MISSING, SIGHTS };
static const char *const sight_words[SIGHTS] = {"seen as decided: left with that area, or not at all", "left with another area", "left though refused here", "not seen to leave, and passed here"};

// A frame that waits for its decision: its octets stand in the job's store; `place` is its record's.
struct held {
    struct pcap_pkthdr head;
    size_t at, place;
    struct link link;
    struct datagram datagram;
    enum fault undecided;
};

struct job {
    struct options options;
    uint8_t file[LONGEST_DATAGRAM + 1];
    size_t file_octets;
    pcap_t *in;
    int link_type;
    pcap_dumper_t *dumper;
    FILE *written, *records_file;
    struct left *left_capture;
    struct table table;
    // the frames that wait, and their octets
    struct held held[MANY];
    size_t held_count, places;
    uint8_t *store;
    size_t store_octets, store_size;
    struct inglebreek_record records[MANY];
    struct inglebreek_slot slots[MANY];
    // a leaving frame
    uint8_t *made;
    size_t made_size;
    // what is counted
    unsigned long frames, left, numbers[NUMBERS], undecided[FAULTS], unsent[FAULTS], sights[SIGHTS];
    // the progress line
    bool shown;
    long long octets;
    struct timespec began, told;
};

static double since(struct timespec then) {
    struct timespec now;
    clock_gettime(CLOCK_MONOTONIC, &now);
    return (double)(now.tv_sec - then.tv_sec) + (double)(now.tv_nsec - then.tv_nsec) / 1e9;
}

// Makes room for so many octets.
static void make_room(uint8_t **octets, size_t *size, size_t needed) {
    if (needed <= *size) return;
    size_t larger = *size ? *size : 65536;
    while (larger < needed) larger *= 2;
    *octets = realloc(*octets, larger);
    if (!*octets) stop("there is no memory for %zu octets", larger);
    *size = larger;
}

static void load_gateway(struct job *job) {
    const char *name = job->options.gateway;
    FILE *file = fopen(name, "rb");
    size_t place, ports, tables, rows;
    if (!file) stop("%s: %s", name, strerror(errno));
    job->file_octets = fread(job->file, 1, sizeof job->file, file);
    if (ferror(file)) stop("%s: %s", name, strerror(errno));
    fclose(file);
    switch (inglebreek_check_file(job->file, job->file_octets, &place, &ports, &tables, &rows)) {
    case INGLEBREEK_FILE_ACCEPTED: break;
    case INGLEBREEK_FILE_UNKNOWN_VERSION: stop("%s: this box does not know version %u of the gateway file", name, job->file[2]);
    default: stop("%s is refused at place %zu (tools/gateway-file file-to-text says why)", name, place);
    }
    unsigned highest = job->options.from > job->options.to ? job->options.from : job->options.to;
    if (highest >= ports) stop("%s has %zu ports: there is no port %u", name, ports, highest);
}

static void open_capture(struct job *job) {
    char why[PCAP_ERRBUF_SIZE];
    const char *name = job->options.capture;
    struct stat seen;
    if (strcmp(name, "-") && !stat(name, &seen) && S_ISDIR(seen.st_mode)) stop("%s is a folder", name);
    job->in = pcap_open_offline_with_tstamp_precision(name, PCAP_TSTAMP_PRECISION_NANO, why);
    if (!job->in) stop("%s%s%s", strstr(why, name) ? "" : name, strstr(why, name) ? "" : ": ", why);
    job->link_type = pcap_datalink(job->in);
    if (!knows_link(job->link_type)) {
        const char *link = pcap_datalink_val_to_name(job->link_type);
        stop("%s: frames of the link type %s (%d) are not read", name, link ? link : "without a name", job->link_type);
    }
    setvbuf(pcap_file(job->in), NULL, _IOFBF, BUFFER);
    if (!fstat(fileno(pcap_file(job->in)), &seen) && S_ISREG(seen.st_mode)) job->octets = seen.st_size;
    job->shown = !job->options.quiet && isatty(STDERR_FILENO);
}

// Whether a name is that of a file that is read.
static bool is_read(const struct job *job, const char *name) {
    struct stat own, other;
    if (stat(name, &own)) return false;
    if (!stat(job->options.gateway, &other) && own.st_dev == other.st_dev && own.st_ino == other.st_ino) return true;
    return !fstat(fileno(pcap_file(job->in)), &other) && S_ISREG(other.st_mode) && own.st_dev == other.st_dev && own.st_ino == other.st_ino;
}

static FILE *open_output(const struct job *job, const char *name) {
    if (!name) return NULL;
    if (!strcmp(name, "-")) return stdout;
    if (is_read(job, name)) stop("%s is read: it is not written over", name);
    FILE *file = fopen(name, "wb");
    if (!file) stop("cannot write %s: %s", name, strerror(errno));
    setvbuf(file, NULL, _IOFBF, BUFFER);
    return file;
}

static void open_outputs(struct job *job) {
    const struct options *options = &job->options;
    job->table.format = options->format;
    job->table.file = options->no_table ? NULL : open_output(job, options->table ? options->table : "-");
    job->records_file = open_output(job, options->records);
    job->written = open_output(job, options->written);
    if (!job->written) return;
    pcap_t *kind = pcap_open_dead_with_tstamp_precision(job->link_type, SNAPSHOT, PCAP_TSTAMP_PRECISION_NANO);
    job->dumper = kind ? pcap_dump_fopen(kind, job->written) : NULL;
    if (!job->dumper) stop("cannot write %s: %s", options->written, kind ? pcap_geterr(kind) : strerror(errno));
    pcap_close(kind);
}

// Ends a file that was written: all of it or in one line why not.
static void close_output(FILE *file, const char *name) {
    if (!file) return;
    bool bad = ferror(file);
    if (fflush(file) || bad || (file != stdout && fclose(file))) stop("cannot write %s: %s", name, errno ? strerror(errno) : "no reason is known");
}

// The leaving frame: the link's header as it was, the header anew, as much of the payload as was captured.
static enum fault write_frame(struct job *job, const struct held *held, const struct inglebreek_slot *slot) {
    const uint8_t *frame = job->store + held->at, *octets = frame + held->link.octets;
    uint8_t header[LONGEST_HEADER];
    struct datagram leaving;
    unsigned count = slot->count > sizeof slot->area ? sizeof slot->area : slot->count;
    enum fault fault = write_header(octets, &held->datagram, slot->area, count, job->options.longest, header, &leaving);
    if (fault || !job->dumper) return fault;
    size_t captured = held->link.octets + leaving.captured;
    make_room(&job->made, &job->made_size, captured);
    memcpy(job->made, frame, held->link.octets);
    memcpy(job->made + held->link.octets, header, leaving.header);
    memcpy(job->made + held->link.octets + leaving.header, octets + held->datagram.header, leaving.captured - leaving.header);
    struct pcap_pkthdr head = held->head;
    head.caplen = (bpf_u_int32)captured;
    head.len = held->link.octets + leaving.total;
    pcap_dump((u_char *)job->dumper, &head, job->made);
    return WHOLE;
}

// A record of the inspector: a length of two octets, version 1, the ports, the facts, the arriving area, the decision, the leaving area.
static void write_record(const struct job *job, const struct inglebreek_record *record, const struct inglebreek_slot *slot) {
    if (!job->records_file) return;
    uint8_t octets[2 + 3 + 5 + 1 + 56 + 4 + 1 + 40], *at = octets + 2;
    unsigned count = slot->number ? 0 : slot->count;
    *at++ = 1;
    *at++ = (uint8_t)job->options.from;
    *at++ = (uint8_t)job->options.to;
    memcpy(at, record, 5);
    at += 5;
    *at++ = record->area_length;
    memcpy(at, record->area, record->area_length);
    at += record->area_length;
    memcpy(at, slot, 4);
    at += 4;
    *at++ = (uint8_t)count;
    memcpy(at, slot->area, count);
    at += count;
    octets[0] = (uint8_t)((at - octets - 2) >> 8);
    octets[1] = (uint8_t)(at - octets - 2);
    fwrite(octets, 1, (size_t)(at - octets), job->records_file);
}

// Holds what was seen to leave against what is decided, and writes the record of it.
static void inspect(struct job *job, const struct held *held, const struct row *row) {
    const struct seen *seen = take_left(job->left_capture, job->store + held->at + held->link.octets, &held->datagram);
    struct inglebreek_slot claim = *row->slot;
    bool passed = row->slot->number == INGLEBREEK_PASSED;
    if (seen) {
        claim = (struct inglebreek_slot){.count = seen->count};
        memcpy(claim.area, seen->area, seen->count);
        bool same = seen->count == row->slot->count && !memcmp(seen->area, row->slot->area, seen->count);
        job->sights[!passed ? THOUGH_REFUSED : same ? AS_DECIDED : OTHERWISE]++;
    } else if (passed) {
        claim.number = NOT_SEEN;
        job->sights[MISSING]++;
    } else job->sights[AS_DECIDED]++;
    write_record(job, row->record, &claim);
}

// What follows from the decision of one frame.
static void conclude(struct job *job, const struct held *held, unsigned long frame) {
    struct row row = {.frame = frame, .undecided = held->undecided, .record = &job->records[held->place], .slot = &job->slots[held->place]};
    if (held->undecided) job->undecided[held->undecided]++;
    else {
        job->numbers[row.slot->number]++;
        if (row.slot->number == INGLEBREEK_PASSED) row.unsent = write_frame(job, held, row.slot);
        if (row.unsent) job->unsent[row.unsent]++;
        else if (row.slot->number == INGLEBREEK_PASSED) job->left++;
        // what runs out of time or grows too long does not leave, whatever is decided
        if (!job->left_capture) write_record(job, row.record, row.slot);
        else if (!row.unsent) inspect(job, held, &row);
    }
    if (job->table.file) put_row(&job->table, &row);
}

static void decide(struct job *job) {
    size_t octets = job->places * INGLEBREEK_SLOT, count;
    count = inglebreek_forward_batch(job->file, job->file_octets, job->options.from, job->options.to, (const uint8_t *)job->records, octets, (uint8_t *)job->slots, octets);
    if (count != job->places) stop("%zu of %zu datagrams were decided", count, job->places);
    for (size_t i = 0; i < job->held_count; i++) conclude(job, &job->held[i], job->frames - job->held_count + i + 1);
    job->held_count = job->places = job->store_octets = 0;
}

static void tell_progress(struct job *job) {
    if (!job->shown || since(job->told) < 0.25) return;
    clock_gettime(CLOCK_MONOTONIC, &job->told);
    double seconds = since(job->began);
    long long at = job->octets ? ftello(pcap_file(job->in)) : 0;
    fprintf(stderr, "\r%s: %lu frames, %.0f a second", program, job->frames, (double)job->frames / (seconds > 0 ? seconds : 1));
    if (at > 0) fprintf(stderr, ", %lld %%", at * 100 / job->octets);
    fprintf(stderr, "\033[K");
}

static void clear_progress(const struct job *job) {
    if (job->shown) fprintf(stderr, "\r\033[K");
}

static void take_frame(struct job *job, const struct pcap_pkthdr *head, const uint8_t *octets) {
    struct held *held = &job->held[job->held_count++];
    struct inglebreek_record *record = &job->records[job->places];
    unsigned captured = head->caplen, sent = head->len > captured ? head->len : captured;
    job->frames++;
    *held = (struct held){.head = *head, .at = job->store_octets, .place = job->places};
    held->undecided = read_link(job->link_type, octets, captured, &held->link);
    if (!held->undecided && held->link.carries != IPV4) held->undecided = OTHER_TYPE;
    if (!held->undecided) {
        unsigned link = held->link.octets;
        held->undecided = read_datagram(octets + link, captured - link, sent - link, held->link.group, job->options.networks, job->options.networks_count, &held->datagram, record);
    }
    if (!held->undecided) {
        make_room(&job->store, &job->store_size, job->store_octets + captured);
        memcpy(job->store + job->store_octets, octets, captured);
        job->store_octets += captured;
        job->places++;
    }
    if (job->held_count == MANY) {
        decide(job);
        tell_progress(job);
    }
}

static void tell_counts(const struct job *job) {
    double seconds = since(job->began);
    if (job->options.quiet) return;
    fprintf(stderr, "%s: %lu frames in %.2f s, %.0f a second; %lu leave\n", program, job->frames, seconds, (double)job->frames / (seconds > 0 ? seconds : 1), job->left);
    for (unsigned i = 0; i < NUMBERS; i++)
        if (job->numbers[i]) fprintf(stderr, "%10lu  %3u %s\n", job->numbers[i], i, inglebreek_words(i));
    for (unsigned i = 0; i < FAULTS; i++)
        if (job->undecided[i]) fprintf(stderr, "%10lu    - %s\n", job->undecided[i], fault_words[i]);
    for (unsigned i = 0; i < FAULTS; i++)
        if (job->unsent[i]) fprintf(stderr, "%10lu    - passed, not sent: %s\n", job->unsent[i], fault_words[i]);
    for (unsigned i = 0; i < SIGHTS && job->left_capture; i++) fprintf(stderr, "%10lu  %s\n", job->sights[i], sight_words[i]);
}

int main(int count, char **words) {
    static struct job job;
    struct pcap_pkthdr *head;
    const u_char *octets;
    int more;
    job.options = read_options(count, words);
    load_gateway(&job);
    open_capture(&job);
    if (job.options.left) job.left_capture = read_left(job.options.left);
    open_outputs(&job);
    clock_gettime(CLOCK_MONOTONIC, &job.began);
    job.told = job.began;
    if (job.table.file) put_title(&job.table);
    while ((more = pcap_next_ex(job.in, &head, &octets)) == 1) take_frame(&job, head, octets);
    decide(&job);
    clear_progress(&job);
    close_output(job.table.file, job.options.table ? job.options.table : "standard output");
    close_output(job.records_file, job.options.records);
    close_output(job.written, job.options.written);
    tell_counts(&job);
    if (more == PCAP_ERROR) stop("%s, behind frame %lu: %s", job.options.capture, job.frames, pcap_geterr(job.in));
    pcap_close(job.in);
    free(job.store);
    free(job.made);
    return 0;
}
