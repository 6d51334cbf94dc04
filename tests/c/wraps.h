// The library's functions for programs that put others in their place: the linker's --wrap makes of each call of felica_NAME one of
// __wrap_felica_NAME, and the library's own stays reachable as __real_felica_NAME.
#ifndef WRAPS_H
#define WRAPS_H

#include "operations.h"

#include "../../include/felica_secure.h"

#define WRAP(word, family, function, ...) extern __typeof__(function) __real_##function, __wrap_##function;
OPERATION_LIST(WRAP)
#undef WRAP

// ---- parameters that several functions have in common, and the same as they are passed on

typedef const uint8_t *bytes;

#define OUTPUT uint8_t *out, size_t room
#define KEYED bytes key, size_t key_n, bytes data, size_t n, OUTPUT
#define OPENED bytes id, size_t id_n, KEYED
#define SEALED uint8_t scheme, uint8_t code, uint16_t number, OPENED

#define PASS_KEYED key, key_n, data, n, out, room
#define PASS_OPENED id, id_n, PASS_KEYED
#define PASS_SEALED scheme, code, number, PASS_OPENED

#define DERIVED \
    uint8_t mark, bytes keys, size_t keys_n, bytes areas, size_t areas_n, bytes services, size_t services_n, bytes individual, \
        size_t individual_n, OUTPUT
#define SEARCHED bytes keys, size_t keys_n, uint16_t node, uint8_t algorithm
#define CHALLENGED uint8_t scheme, bytes keys, size_t keys_n, bytes idm, size_t idm_n
#define THIRD bytes third, size_t third_n
#define BLOCK bytes block, size_t n
#define CHECKED bytes checked, size_t checked_n

#define PASS_DERIVED mark, keys, keys_n, areas, areas_n, services, services_n, individual, individual_n, out, room
#define PASS_SEARCHED keys, keys_n, node, algorithm
#define PASS_CHALLENGED scheme, keys, keys_n, idm, idm_n
#define PASS_THIRD third, third_n
#define PASS_BLOCK block, n
#define PASS_CHECKED checked, checked_n
#define PASS_OUTPUT out, room

#define MADE bytes id, size_t id_n, bytes key, size_t key_n, bytes nodes, size_t nodes_n, uint8_t *session, size_t size
#define KEPT uint8_t *session, size_t size
#define SHOWN bytes session, size_t size
#define EXCHANGED uint8_t code, bytes data, size_t n, OUTPUT

#define PASS_MADE id, id_n, key, key_n, nodes, nodes_n, session, size
#define PASS_SESSION session, size
#define PASS_EXCHANGED code, data, n, out, room

#endif
