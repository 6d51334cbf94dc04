#include "model_frames.h"

#include "blocks.h"
#include "layout.h"

#include "../../include/felica_secure.h"

#include <string.h>

// ---- DES

// The MAC starts as total length, code, six zeros; each block of the plain text is the key that encrypts it. n: whole blocks.
static void des_mac(unsigned code, const uint8_t *plain, size_t n, uint8_t *to)
{
    size_t at;

    memset(to, 0, 8);
    to[0] = (uint8_t)(2 + n + 8);
    to[1] = (uint8_t)code;
    for (at = 0; at < n; at += 8) {
        des(plain + at, to, to);
    }
}

// Number 2 (low first), ID 6, payload, padding, MAC 8; CBC, zero IV.
static size_t des_seal(const struct call *c, uint8_t *to)
{
    uint8_t plain[256];
    size_t n, at, i;

    plain[0] = (uint8_t)(c->number % 256);
    plain[1] = (uint8_t)(c->number / 256);
    memcpy(plain + 2, c->id.at, 6);
    n = 8 + as_opened(FELICA_SCHEME_DES, c->data, plain + 8);
    des_mac(c->code, plain, n, plain + n);
    for (at = 0; at < n + 8; at += 8) {
        for (i = 0; at != 0 && i < 8; i++) {
            plain[at + i] ^= to[at - 8 + i];
        }
        des(c->credentials.at, plain + at, to + at);
    }
    return n + 8;
}

static void des_open(const struct call *c, struct opened *o)
{
    uint8_t plain[256], mac[8];
    size_t n = c->data.n, at, i;

    for (at = 0; at < n; at += 8) {
        des_back(c->credentials.at, c->data.at + at, plain + at);
        for (i = 0; at != 0 && i < 8; i++) {
            plain[at + i] ^= c->data.at[at - 8 + i];
        }
    }
    des_mac(c->code, plain, n - 8, mac);
    if (memcmp(mac, plain + n - 8, 8) != 0) {
        o->number = FELICA_MAC_DIFFERS;
    } else if (memcmp(plain + 2, c->id.at, 6) != 0) {
        o->number = FELICA_ID_DIFFERS;
    } else {
        o->number = 0;
        o->transaction = plain[0] + 256u * plain[1];
        o->n = n - 16;
        memcpy(o->bytes, plain + 8, n - 16);
    }
}

// ---- AES

// SP 800-38B, for a string that is not empty.
static void cmac(const uint8_t *key, const uint8_t *text, size_t n, uint8_t *to)
{
    uint8_t sub[16] = {0};
    size_t last = (n - 1) / 16 * 16, at, i;
    int twice;

    aes(key, sub, sub);
    for (twice = last + 16 == n ? 1 : 2; twice > 0; twice--) {
        unsigned carry = sub[0] >> 7;

        for (i = 0; i < 16; i++) {
            sub[i] = (uint8_t)(sub[i] << 1 | (i < 15 ? sub[i + 1] >> 7 : 0));
        }
        sub[15] ^= (uint8_t)(carry * 0x87);
    }
    memset(to, 0, 16);
    for (at = 0; at <= last; at += 16) {
        for (i = 0; i < 16 && at + i < n; i++) {
            to[i] ^= text[at + i];
        }
        if (at == last && last + 16 > n) {
            to[n - last] ^= 0x80;
        }
        for (i = 0; at == last && i < 16; i++) {
            to[i] ^= sub[i];
        }
        aes(key, to, to);
    }
}

// IV: 01, length (payload + 12), code, number, ID, Challenge 3C bytes 1..3, 00 00.
static void iv_of(const struct call *c, unsigned number, size_t n, uint8_t *to)
{
    memset(to, 0, 16);
    to[0] = 0x01;
    to[1] = (uint8_t)(n + 12);
    to[2] = c->code;
    to[3] = (uint8_t)(number % 256);
    to[4] = (uint8_t)(number / 256);
    memcpy(to + 5, c->id.at, 6);
    memcpy(to + 11, c->credentials.at + 33, 3);
}

// First 8 CMAC bytes of 19, IV bytes 1..13, payload length (2, high first), payload.
static void aes_mac(const struct call *c, unsigned number, const uint8_t *payload, size_t n, uint8_t *to)
{
    uint8_t text[16 + 256], whole[16];

    iv_of(c, number, n, text);
    text[0] = 0x19;
    text[14] = (uint8_t)(n / 256);
    text[15] = (uint8_t)(n % 256);
    memcpy(text + 16, payload, n);
    cmac(c->credentials.at + 16, text, 16 + n, whole);
    memcpy(to, whole, 8);
}

// OFB over the payload, n bytes; its stream skips to a block boundary before the MAC, 8 bytes behind them.
static void stream(const struct call *c, unsigned number, const uint8_t *from, size_t n, uint8_t *to)
{
    uint8_t block[16];
    size_t i;

    iv_of(c, number, n, block);
    for (i = 0; i < n; i++) {
        if (i % 16 == 0) {
            aes(c->credentials.at, block, block);
        }
        to[i] = from[i] ^ block[i % 16];
    }
    aes(c->credentials.at, block, block);
    for (i = 0; i < 8; i++) {
        to[n + i] = from[n + i] ^ block[i];
    }
}

// Number 2, cipher payload, cipher MAC 8.
static size_t aes_seal(const struct call *c, uint8_t *to)
{
    uint8_t plain[256];
    size_t n = c->data.n;

    memcpy(plain, c->data.at, n);
    aes_mac(c, c->number, plain, n, plain + n);
    to[0] = (uint8_t)(c->number % 256);
    to[1] = (uint8_t)(c->number / 256);
    stream(c, c->number, plain, n, to + 2);
    return n + 10;
}

static void aes_open(const struct call *c, struct opened *o)
{
    uint8_t plain[256], mac[8];
    unsigned number = c->data.at[0] + 256u * c->data.at[1];
    size_t n = c->data.n - 10;

    stream(c, number, c->data.at + 2, n, plain);
    aes_mac(c, number, plain, n, mac);
    if (memcmp(mac, plain + n, 8) == 0) {
        o->number = 0;
        o->transaction = number;
        o->n = n;
        memcpy(o->bytes, plain, n);
    }
}

// ---- by scheme

size_t seal_of(const struct call *c, uint8_t *to)
{
    return c->scheme == FELICA_SCHEME_DES ? des_seal(c, to) : aes_seal(c, to);
}

struct opened opening_of(const struct call *c)
{
    struct opened o;

    memset(&o, 0, sizeof o);
    o.number = opening_number(c->scheme, c->data.n);
    if (o.number == FELICA_MAC_DIFFERS && c->scheme == FELICA_SCHEME_DES) {
        des_open(c, &o);
    } else if (o.number == FELICA_MAC_DIFFERS) {
        aes_open(c, &o);
    }
    return o;
}

// ---- as a model of sealing and opening; DES Authentication 2 and packages have stored answers alone, forecasts a part of their own

static int sizes_fit(const struct call *c)
{
    return (c->scheme == FELICA_SCHEME_DES || c->scheme == FELICA_SCHEME_AES128) && c->id.n == 6 &&
           c->credentials.n == credentials_size(c->scheme);
}

// A frame: length byte, which counts itself, code, sealed data.
static void model_sealing(const struct call *c, struct modelled *m)
{
    size_t front = c->operation == FRAME ? 2 : 0, n;

    if (c->data.n > payload_max(c->scheme)) {
        m->answer = FELICA_TOO_LONG;
        return;
    }
    n = front + seal_of(c, m->bytes + front);
    if (front != 0) {
        m->bytes[0] = (uint8_t)n;
        m->bytes[1] = c->code;
    }
    m->answer = (uint64_t)n << 16 | (uint64_t)padding_of(c->scheme, c->data.n) << 48;
}

// The trimmed opening drops padding.
static void model_opening(const struct call *c, struct modelled *m)
{
    struct opened o = opening_of(c);

    if (c->operation == TRIMMED) {
        o.n = trimmed_size(text_of(o.bytes, o.n));
    }
    m->answer = o.number | (uint64_t)o.n << 16 | (uint64_t)o.transaction << 32;
    memcpy(m->bytes, o.bytes, o.n);
}

int model_frames(const struct call *c, struct modelled *m)
{
    struct call own = *c;

    own.scheme = (uint8_t)scheme_of(c->operation, c->scheme);
    own.code = c->operation == AUTH2_OPEN_AES ? 0x43 : c->code;
    if (c->operation == FORECAST || c->operation == AUTH2_SEAL || c->operation == AUTH2_OPEN_DES || c->operation == PACKAGE) {
        return 0;
    }
    if (!sizes_fit(&own)) {
        m->answer = FELICA_BAD_MARK_OR_LENGTH;
    } else if (has_trait(c->operation, OPENS)) {
        model_opening(&own, m);
    } else {
        model_sealing(&own, m);
    }
    return 1;
}
