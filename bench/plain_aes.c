/* A plain byte-oriented AES-128 in C, written from FIPS 197: tables of 256 bytes for the substitution, and nothing else precomputed. */
#include "plain_aes.h"

#include <string.h>

static uint8_t sbox[256], inv_sbox[256];

/* The product with x. */
static uint8_t xtime(uint8_t b)
{
    return (uint8_t)(b << 1 ^ (b >> 7) * 0x1b);
}

/* A byte turned left by n digits. */
static uint8_t turned(uint8_t b, int n)
{
    return (uint8_t)(b << n | b >> (8 - n));
}

void plain_tables(void)
{
    uint8_t p = 1, q = 1;
    do {
        /* p runs through the powers of 3, q through those of its inverse, so q is the inverse of p. */
        p ^= xtime(p);
        q ^= q << 1;
        q ^= q << 2;
        q ^= q << 4;
        q ^= (q >> 7) * 0x09;
        sbox[p] = q ^ turned(q, 1) ^ turned(q, 2) ^ turned(q, 3) ^ turned(q, 4) ^ 0x63;
    } while (p != 1);
    sbox[0] = 0x63;
    for (int i = 0; i < 256; i++)
        inv_sbox[sbox[i]] = (uint8_t)i;
}

void plain_expand(const uint8_t key[16], uint8_t w[176])
{
    uint8_t rcon = 1;
    memcpy(w, key, 16);
    for (int i = 16; i < 176; i += 4) {
        uint8_t t[4] = {w[i - 4], w[i - 3], w[i - 2], w[i - 1]};
        if (i % 16 == 0) {
            uint8_t first = t[0];
            t[0] = sbox[t[1]] ^ rcon;
            t[1] = sbox[t[2]];
            t[2] = sbox[t[3]];
            t[3] = sbox[first];
            rcon = xtime(rcon);
        }
        for (int j = 0; j < 4; j++)
            w[i + j] = w[i + j - 16] ^ t[j];
    }
}

/* AddRoundKey. */
static void add(uint8_t s[16], const uint8_t k[16])
{
    for (int i = 0; i < 16; i++)
        s[i] ^= k[i];
}

/* SubBytes and ShiftRows. */
static void substitute(uint8_t s[16])
{
    uint8_t t[16];
    for (int i = 0; i < 16; i++)
        t[i] = sbox[s[(i + 4 * (i % 4)) % 16]];
    memcpy(s, t, 16);
}

/* InvShiftRows and InvSubBytes. */
static void unsubstitute(uint8_t s[16])
{
    uint8_t t[16];
    for (int i = 0; i < 16; i++)
        t[(i + 4 * (i % 4)) % 16] = inv_sbox[s[i]];
    memcpy(s, t, 16);
}

/* MixColumns. */
static void mix(uint8_t s[16])
{
    for (uint8_t *c = s; c < s + 16; c += 4) {
        uint8_t first = c[0], all = c[0] ^ c[1] ^ c[2] ^ c[3];
        c[0] ^= all ^ xtime(c[0] ^ c[1]);
        c[1] ^= all ^ xtime(c[1] ^ c[2]);
        c[2] ^= all ^ xtime(c[2] ^ c[3]);
        c[3] ^= all ^ xtime(c[3] ^ first);
    }
}

/* InvMixColumns: a step to a column that MixColumns takes the rest of the way. */
static void unmix(uint8_t s[16])
{
    for (uint8_t *c = s; c < s + 16; c += 4) {
        uint8_t even = xtime(xtime(c[0] ^ c[2])), odd = xtime(xtime(c[1] ^ c[3]));
        c[0] ^= even;
        c[1] ^= odd;
        c[2] ^= even;
        c[3] ^= odd;
    }
    mix(s);
}

void plain_encipher(const uint8_t w[176], const uint8_t block[16], uint8_t out[16])
{
    uint8_t s[16];
    memcpy(s, block, 16);
    add(s, w);
    for (int r = 1; r < 10; r++) {
        substitute(s);
        mix(s);
        add(s, w + 16 * r);
    }
    substitute(s);
    add(s, w + 160);
    memcpy(out, s, 16);
}

void plain_decipher(const uint8_t w[176], const uint8_t block[16], uint8_t out[16])
{
    uint8_t s[16];
    memcpy(s, block, 16);
    add(s, w + 160);
    for (int r = 9; r > 0; r--) {
        unsubstitute(s);
        add(s, w + 16 * r);
        unmix(s);
    }
    unsubstitute(s);
    add(s, w);
    memcpy(out, s, 16);
}
