// The first bytes of an input: which call it is. The bytes behind them fill its buffers, in the order ID, KEYS, THIRD, NODES, DATA.
#ifndef RECIPE_H
#define RECIPE_H

#include <stdint.h>

// Most values of `wrong` ask for nothing unusual.
struct recipe {
    uint8_t op, scheme, code, number[2], place, room, room_n;
    // which input gets a length of its own, and that length
    uint8_t wrong, wrong_n;
    // where data to open comes from, and where it is changed
    uint8_t source, flip;
    uint8_t length[2];
    // the number of the session that the call gets, or which keys a list has
    uint8_t own[2];
    // the ceiling of the session that the call gets or makes: as it is, or with `near` odd counted from the session's number
    uint8_t ceiling[2], near;
};

// As the bytes are; or sealed by the library, and then with a bit changed, opened under another code or ID, drawn out.
enum source { RAW, SEALED, FLIPPED, OTHER_CODE, OTHER_ID, LONGER, SOURCES };

#endif
