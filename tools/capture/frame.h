// A captured frame taken apart, and the frame that leaves put together. Nothing here decides: that does the library.
#ifndef FRAME_H
#define FRAME_H

#include "inglebreek.h"

// Octets of an IPv4 header without options, of the longest one, and of a longest datagram; the EtherType of IPv4.
enum { FIXED = 20, LONGEST_HEADER = 60, LONGEST_DATAGRAM = 65535, IPV4 = 0x0800 };

// Why a frame is not decided, or does not leave. frame.c has the words of each.
enum fault {
    WHOLE,
    LINK_CUT,
    OTHER_TYPE,
    CUT,
    OTHER_VERSION,
    HEADER_LENGTH,
    TOTAL_LENGTH,
    CHECKSUM,
    TIME_TO_LIVE,
    TOO_LONG,
    FAULTS
};
extern const char *const fault_words[FAULTS];

// A network, for its broadcast address and its lowest one: an address and how many of its leading bits name the network.
struct network {
    uint32_t address;
    unsigned bits;
};

// The link's header: how many octets it has, what it carries (an EtherType), and whether it is to a group.
struct link {
    unsigned octets, carries;
    bool group;
};

// A datagram in a frame: octets of its header and of the whole as its fields say, and how much of it was captured.
struct datagram {
    unsigned header, total, captured;
};

// Takes the header of this type of link (libpcap's DLT_..) off.
enum fault read_link(int type, const uint8_t *frame, unsigned captured, struct link *link);

// Whether frames of this type of link are read.
bool knows_link(int type);

// Takes a datagram apart, of which `captured` octets were kept and `sent` were on the wire, and fills its record for the library.
enum fault read_datagram(const uint8_t *octets, unsigned captured, unsigned sent, bool group, const struct network *networks, unsigned networks_count,
                         struct datagram *datagram, struct inglebreek_record *record);

// Writes the leaving header: lengths and checksum right, time to live one less. `longest` is the most octets of a datagram. Fills `leaving`.
enum fault write_header(const uint8_t *octets, const struct datagram *datagram, const uint8_t *area, unsigned count, unsigned longest,
                        uint8_t header[LONGEST_HEADER], struct datagram *leaving);

// The first option 134 of an options area: its octets, and how many there are; NULL where there is none whole.
const uint8_t *find_option(const uint8_t *area, unsigned octets, unsigned *count);

#endif
