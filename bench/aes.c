/* Measures AES-128 on blocks and in CBC by this house, by nettle and by plain C, and prints a table. */
#include <nettle/aes.h>
#include <nettle/cbc.h>
#include <string.h>

#include "hq_ciphers.h"
#include "plain_aes.h"
#include "table.h"

enum { BLOCKS = 1000 };

/* The key, the block and the chain go from turn to turn, so that no turn can begin before the one before it has ended. */
static uint8_t key[16], block[16], other[16], iv[16], chain[16 * BLOCKS];
static uint32_t hq_words[44];
static struct aes128_ctx nettle_in, nettle_out;
static uint8_t plain_words[176];

static void hq_schedule(void) { hq_aes_expand(key, hq_words); key[0] ^= (uint8_t)hq_words[43]; }
static void nettle_schedule(void) { aes128_set_encrypt_key(&nettle_in, key); key[0] ^= (uint8_t)nettle_in.keys[43]; }
static void plain_schedule(void) { plain_expand(key, plain_words); key[0] ^= plain_words[175]; }

/* Work on blocks comes in pairs, from one block to the other and back, so that nothing has to be copied. */
static void hq_in(void) { hq_aes_encipher(hq_words, block, other); hq_aes_encipher(hq_words, other, block); }
static void nettle_in_two(void) { aes128_encrypt(&nettle_in, 16, other, block); aes128_encrypt(&nettle_in, 16, block, other); }
static void plain_in(void) { plain_encipher(plain_words, block, other); plain_encipher(plain_words, other, block); }

static void hq_chain(void) { hq_cbc_encrypt(hq_words, iv, chain, sizeof chain); }
static void nettle_chain(void) { uint8_t v[16]; memcpy(v, iv, 16); cbc_aes128_encrypt(&nettle_in, v, sizeof chain, chain, chain); }
static void hq_unchain(void) { hq_cbc_decrypt(key, iv, chain, sizeof chain); }
static void nettle_unchain(void)
{
    uint8_t v[16];
    memcpy(v, iv, 16);
    cbc_decrypt(&nettle_out, (nettle_cipher_func *)aes128_decrypt, 16, v, sizeof chain, chain, chain);
}

static void plain_chain(void)
{
    const uint8_t *before = iv;
    for (uint8_t *b = chain; b < chain + sizeof chain; before = b, b += 16) {
        for (int i = 0; i < 16; i++)
            b[i] ^= before[i];
        plain_encipher(plain_words, b, b);
    }
}

static void plain_unchain(void)
{
    uint8_t before[16], c[16];
    memcpy(before, iv, 16);
    for (uint8_t *b = chain; b < chain + sizeof chain; b += 16) {
        memcpy(c, b, 16);
        plain_decipher(plain_words, b, b);
        for (int i = 0; i < 16; i++)
            b[i] ^= before[i];
        memcpy(before, c, 16);
    }
}

static void hq_key_in(void)
{
    hq_schedule();
    hq_aes_encipher(hq_words, block, other);
    hq_schedule();
    hq_aes_encipher(hq_words, other, block);
}

static void nettle_key_in(void)
{
    nettle_schedule();
    aes128_encrypt(&nettle_in, 16, other, block);
    nettle_schedule();
    aes128_encrypt(&nettle_in, 16, block, other);
}

static void plain_key_in(void)
{
    plain_schedule();
    plain_encipher(plain_words, block, other);
    plain_schedule();
    plain_encipher(plain_words, other, block);
}

static void hq_key_out(void)
{
    hq_aes_decipher(key, block, other);
    key[0] ^= other[0];
    hq_aes_decipher(key, other, block);
    key[0] ^= block[0];
}

static void nettle_key_out(void)
{
    aes128_set_decrypt_key(&nettle_out, key);
    aes128_decrypt(&nettle_out, 16, other, block);
    key[0] ^= other[0];
    aes128_set_decrypt_key(&nettle_out, key);
    aes128_decrypt(&nettle_out, 16, block, other);
    key[0] ^= block[0];
}

static void plain_key_out(void)
{
    plain_expand(key, plain_words);
    plain_decipher(plain_words, block, other);
    key[0] ^= other[0];
    plain_expand(key, plain_words);
    plain_decipher(plain_words, other, block);
    key[0] ^= block[0];
}

static const struct row rows[] = {
    {"encipher a block, key ready", 2, {hq_in, nettle_in_two, plain_in}},
    {"encipher a block, key ready, in a chain", BLOCKS, {hq_chain, nettle_chain, plain_chain}},
    {"decipher a block, key ready, in a chain", BLOCKS, {hq_unchain, nettle_unchain, plain_unchain}},
    {"key schedule and encipher a block", 2, {hq_key_in, nettle_key_in, plain_key_in}},
    {"key schedule and decipher a block", 2, {hq_key_out, nettle_key_out, plain_key_out}},
    {"key schedule", 1, {hq_schedule, nettle_schedule, plain_schedule}},
};

/* Makes the key schedules, and ends the run where the three do not agree on a block or a chain, there and back. */
static void begin(void)
{
    static const uint8_t input[16] = {50, 67, 246, 168, 136, 90, 48, 141, 49, 49, 152, 162, 224, 55, 7, 52};
    static uint8_t there_chain[sizeof chain], zeros[sizeof chain];
    static void (*const chains[])(void) = {hq_chain, nettle_chain, plain_chain};
    static void (*const unchains[])(void) = {hq_unchain, nettle_unchain, plain_unchain};
    uint8_t there[16], out[16];
    plain_tables();
    hq_aes_expand(key, hq_words);
    aes128_set_encrypt_key(&nettle_in, key);
    aes128_set_decrypt_key(&nettle_out, key);
    plain_expand(key, plain_words);
    hq_aes_encipher(hq_words, input, there);
    aes128_encrypt(&nettle_in, 16, out, input);
    expect_same(out, there, 16);
    plain_encipher(plain_words, input, out);
    expect_same(out, there, 16);
    hq_aes_decipher(key, there, out);
    expect_same(out, input, 16);
    for (int i = 0; i < 3; i++) {
        chains[i]();
        if (i == 0)
            memcpy(there_chain, chain, sizeof chain);
        expect_same(chain, there_chain, sizeof chain);
        unchains[i]();
        expect_same(chain, zeros, sizeof chain);
    }
}

int main(void)
{
    begin();
    print_table(rows, sizeof rows / sizeof rows[0]);
    return 0;
}
