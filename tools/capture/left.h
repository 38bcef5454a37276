// A second capture: what left a real box at its far side. A datagram is known again there by what a box does not change: addresses, protocol, identification, fragment field, payload.
#ifndef LEFT_H
#define LEFT_H

#include "frame.h"

// The options area that a datagram was seen to leave with.
struct seen {
    uint8_t count, area[40];
};

struct left;

// Reads the whole capture; ends the program where it cannot be read.
struct left *read_left(const char *name);

// The datagram as it was seen to leave, or NULL: of several that are alike, the first that was not asked for yet.
const struct seen *take_left(struct left *left, const uint8_t *octets, const struct datagram *datagram);

#endif
