// What left.h says. The datagrams stand in a list, and are found by the hash of what stays: a table of places, each the start of a chain in the order of the capture.
#include "left.h"
#include "options.h"
#include <pcap/pcap.h>
#include <stdlib.h>
#include <string.h>

// So many octets of the payload are compared, at most.
enum { COMPARED = 64, FIRST_ROOM = 1024 };

struct one {
    uint64_t key;
    size_t next;
    bool taken;
    struct seen seen;
};

struct left {
    struct one *list;
    size_t count, room, places;
    size_t *table; // the place in the list and one more; 0 for none
};

static uint64_t add(uint64_t hash, const uint8_t *octets, size_t count) {
    for (size_t i = 0; i < count; i++) hash = (hash ^ octets[i]) * 0x100000001b3;
    return hash;
}

// The hash (FNV-1a) of what a box leaves as it is: identification and fragment field, protocol, addresses, length and first octets of the payload.
static uint64_t key_of(const uint8_t *octets, const struct datagram *datagram) {
    size_t payload = datagram->total - datagram->header, kept = datagram->captured - datagram->header;
    const uint8_t length[2] = {(uint8_t)(payload >> 8), (uint8_t)payload};
    size_t compared = kept < COMPARED ? kept : COMPARED;
    uint64_t hash = add(0xcbf29ce484222325, octets + 4, 4);
    hash = add(hash, octets + 9, 1);
    hash = add(hash, octets + 12, 8);
    hash = add(hash, length, 2);
    return add(hash, octets + datagram->header, compared);
}

static void keep(struct left *left, const uint8_t *octets, const struct datagram *datagram, const struct inglebreek_record *record) {
    if (left->count == left->room) {
        left->room = left->room ? left->room * 2 : FIRST_ROOM;
        left->list = realloc(left->list, left->room * sizeof *left->list);
        if (!left->list) stop("there is no memory for %zu datagrams", left->room);
    }
    struct one *one = &left->list[left->count++];
    *one = (struct one){.key = key_of(octets, datagram), .seen.count = record->area_length};
    memcpy(one->seen.area, record->area, record->area_length);
}

// The table of places, with the last datagram of the capture first, so that each chain has the order of the capture.
static void make_table(struct left *left) {
    left->places = FIRST_ROOM;
    while (left->places < left->count * 2) left->places *= 2;
    left->table = calloc(left->places, sizeof *left->table);
    if (!left->table) stop("there is no memory for %zu datagrams", left->count);
    for (size_t i = left->count; i-- > 0;) {
        size_t *place = &left->table[left->list[i].key % left->places];
        left->list[i].next = *place;
        *place = i + 1;
    }
}

struct left *read_left(const char *name) {
    char why[PCAP_ERRBUF_SIZE];
    struct left *left = calloc(1, sizeof *left);
    pcap_t *in = pcap_open_offline(name, why);
    struct pcap_pkthdr *head;
    const u_char *frame;
    int more;
    if (!left) stop("there is no memory");
    if (!in) stop("%s", why);
    int type = pcap_datalink(in);
    if (!knows_link(type)) stop("%s: frames of the link type %d are not read", name, type);
    while ((more = pcap_next_ex(in, &head, &frame)) == 1) {
        struct link link;
        struct datagram datagram;
        struct inglebreek_record record;
        unsigned captured = head->caplen, sent = head->len > captured ? head->len : captured;
        if (read_link(type, frame, captured, &link) || link.carries != IPV4) continue;
        if (read_datagram(frame + link.octets, captured - link.octets, sent - link.octets, false, NULL, 0, &datagram, &record)) continue;
        keep(left, frame + link.octets, &datagram, &record);
    }
    if (more == PCAP_ERROR) stop("%s: %s", name, pcap_geterr(in));
    pcap_close(in);
    make_table(left);
    return left;
}

const struct seen *take_left(struct left *left, const uint8_t *octets, const struct datagram *datagram) {
    uint64_t key = key_of(octets, datagram);
    for (size_t at = left->table[key % left->places]; at; at = left->list[at - 1].next) {
        struct one *one = &left->list[at - 1];
        if (one->key != key || one->taken) continue;
        one->taken = true;
        return &one->seen;
    }
    return NULL;
}
