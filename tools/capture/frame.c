// What frame.h says. Every octet is read behind a test of the length, so that a damaged frame is a fault and never a wrong access.
#include "frame.h"
#include <pcap/pcap.h>
#include <string.h>

const char *const fault_words[FAULTS] = {
    [WHOLE] = "whole",
    [LINK_CUT] = "link header cut short",
    [OTHER_TYPE] = "not IPv4",
    [CUT] = "IPv4 header cut short",
    [OTHER_VERSION] = "not IP version 4",
    [HEADER_LENGTH] = "header length under 20 or past the datagram",
    [TOTAL_LENGTH] = "total length under the header's or past the frame",
    [CHECKSUM] = "wrong header checksum",
    [TIME_TO_LIVE] = "time to live run out",
    [TOO_LONG] = "leaving datagram too long",
};

// EtherTypes that begin a VLAN tag.
enum { VLAN = 0x8100, PROVIDER = 0x88a8, OLD_PROVIDER = 0x9100 };
// The link's headers.
enum { ETHERNET = 14, TAG = 4, COOKED = 16, COOKED_2 = 20 };
// How a cooked header names a frame that was sent to a group: broadcast, multicast.
enum { TO_ALL = 1, TO_MANY = 2 };
// Options: the end of the area, an octet that fills, a label.
enum { END = 0, FILLER = 1, LABEL = 134 };

static unsigned two(const uint8_t *octets) { return (unsigned)octets[0] << 8 | octets[1]; }

static uint32_t four(const uint8_t *octets) { return (uint32_t)two(octets) << 16 | two(octets + 2); }

static void put_two(uint8_t *octets, unsigned number) {
    octets[0] = (uint8_t)(number >> 8);
    octets[1] = (uint8_t)number;
}

// The checksum of RFC 1071 over a header, which has a whole number of 16-bit words: 0 over one that carries its own.
static unsigned checksum(const uint8_t *octets, unsigned count) {
    uint32_t sum = 0;
    for (unsigned at = 0; at < count; at += 2) sum += two(octets + at);
    while (sum > 0xffff) sum = (sum & 0xffff) + (sum >> 16);
    return ~sum & 0xffff;
}

bool knows_link(int type) { return type == DLT_EN10MB || type == DLT_LINUX_SLL || type == DLT_LINUX_SLL2 || type == DLT_RAW || type == DLT_IPV4; }

static bool is_tag(unsigned type) { return type == VLAN || type == PROVIDER || type == OLD_PROVIDER; }

// Passes over the VLAN tags behind a link's header.
static enum fault pass_tags(const uint8_t *frame, unsigned captured, struct link *link) {
    while (is_tag(link->carries)) {
        if (captured < link->octets + TAG) return LINK_CUT;
        link->carries = two(frame + link->octets + 2);
        link->octets += TAG;
    }
    return WHOLE;
}

enum fault read_link(int type, const uint8_t *frame, unsigned captured, struct link *link) {
    *link = (struct link){0, IPV4, false};
    switch (type) {
    case DLT_EN10MB:
        if (captured < ETHERNET) return LINK_CUT;
        *link = (struct link){ETHERNET, two(frame + 12), frame[0] & 1};
        return pass_tags(frame, captured, link);
    case DLT_LINUX_SLL:
        if (captured < COOKED) return LINK_CUT;
        *link = (struct link){COOKED, two(frame + 14), two(frame) == TO_ALL || two(frame) == TO_MANY};
        return pass_tags(frame, captured, link);
    case DLT_LINUX_SLL2:
        if (captured < COOKED_2) return LINK_CUT;
        *link = (struct link){COOKED_2, two(frame), frame[10] == TO_ALL || frame[10] == TO_MANY};
        return pass_tags(frame, captured, link);
    default: return WHOLE;
    }
}

static uint32_t host_bits(struct network network) { return network.bits >= 32 ? 0 : 0xffffffffu >> network.bits; }

// Whether an address is a network's own broadcast address, or (`lowest`) its lowest one: a network of one or two addresses has neither.
static bool is_end(const struct network *networks, unsigned count, uint32_t address, bool lowest) {
    for (unsigned i = 0; i < count; i++) {
        uint32_t host = host_bits(networks[i]);
        if (networks[i].bits < 31 && ((address ^ networks[i].address) & ~host) == 0 && (address & host) == (lowest ? 0 : host)) return true;
    }
    return false;
}

static bool is_error(unsigned kind) { return kind == 3 || kind == 4 || kind == 5 || kind == 11 || kind == 12; }

enum fault read_datagram(const uint8_t *octets, unsigned captured, unsigned sent, bool group, const struct network *networks, unsigned networks_count,
                         struct datagram *datagram, struct inglebreek_record *record) {
    if (captured < FIXED) return captured && octets[0] >> 4 != 4 ? OTHER_VERSION : CUT;
    if (octets[0] >> 4 != 4) return OTHER_VERSION;
    unsigned header = (octets[0] & 15u) * 4, total = two(octets + 2);
    if (header < FIXED || header > sent) return HEADER_LENGTH;
    if (total < header || total > sent) return TOTAL_LENGTH;
    if (header > captured) return CUT;
    if (checksum(octets, header)) return CHECKSUM;
    uint32_t source = four(octets + 12), target = four(octets + 16);
    bool fragment = two(octets + 6) & 0x1fff;
    // an ICMP datagram whose type is not there is taken for an error message
    bool error = octets[9] == 1 && !fragment && (total == header || captured == header || is_error(octets[header]));
    unsigned class = source >> 24;
    record->error = error;
    record->group = target >> 28 == 14 || target == 0xffffffff || is_end(networks, networks_count, target, false);
    record->link = group;
    record->fragment = fragment;
    record->source = class == 0 || class == 127 || class >= 224 || is_end(networks, networks_count, source, false) || is_end(networks, networks_count, source, true);
    record->area_length = (uint8_t)(header - FIXED);
    memcpy(record->area, octets + FIXED, header - FIXED);
    *datagram = (struct datagram){header, total, captured < total ? captured : total};
    return WHOLE;
}

enum fault write_header(const uint8_t *octets, const struct datagram *datagram, const uint8_t *area, unsigned count, unsigned longest,
                        uint8_t header[LONGEST_HEADER], struct datagram *leaving) {
    unsigned length = FIXED + count, payload = datagram->total - datagram->header;
    if (octets[8] <= 1) return TIME_TO_LIVE;
    if (length + payload > longest) return TOO_LONG;
    memcpy(header, octets, FIXED);
    memcpy(header + FIXED, area, count);
    header[0] = (uint8_t)(0x40 | length / 4);
    put_two(header + 2, length + payload);
    header[8]--;
    put_two(header + 10, 0);
    put_two(header + 10, checksum(header, length));
    *leaving = (struct datagram){length, length + payload, length + datagram->captured - datagram->header};
    return WHOLE;
}

const uint8_t *find_option(const uint8_t *area, unsigned octets, unsigned *count) {
    unsigned at = 0;
    while (at < octets && area[at] != END) {
        if (area[at] == FILLER) {
            at++;
            continue;
        }
        if (octets - at < 2 || area[at + 1] < 2 || area[at + 1] > octets - at) return NULL;
        if (area[at] == LABEL) {
            *count = area[at + 1];
            return area + at;
        }
        at += area[at + 1];
    }
    return NULL;
}
