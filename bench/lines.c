/* Measures CMAC and sealed lines by this house and by the same steps over nettle, and prints a table. */
#include <nettle/aes.h>
#include <nettle/cbc.h>
#include <nettle/cmac.h>
#include <string.h>

#include "hq_ciphers.h"
#include "table.h"

/* The message and the line go from turn to turn, so that no turn can begin before the one before it has ended. */
static uint8_t key[16], message[73], line[64];
static uint64_t hi, lo, address;

static void hq_sign(size_t n)
{
    uint32_t w[44];
    uint8_t mac[16];
    hq_aes_expand(key, w);
    hq_cmac(w, message, n, mac);
    memcpy(message, mac, 16);
}

static void nettle_mac(const uint8_t k[16], const uint8_t *m, size_t n, uint8_t mac[16])
{
    struct cmac_aes128_ctx ctx;
    cmac_aes128_set_key(&ctx, k);
    cmac_aes128_update(&ctx, n, m);
    cmac_aes128_digest(&ctx, 16, mac);
}

static void nettle_sign(size_t n)
{
    uint8_t mac[16];
    nettle_mac(key, message, n, mac);
    memcpy(message, mac, 16);
}

/* The eight bytes of a number, the highest first. */
static void high_first(uint64_t x, uint8_t out[8])
{
    for (int i = 0; i < 8; i++)
        out[i] = (uint8_t)(x >> (56 - 8 * i));
}

/* The schedule of the line key, and the start vector of the line. */
static void nettle_begin(struct aes128_ctx *ctx, uint8_t iv[16])
{
    static const uint8_t one[1] = {1};
    uint8_t drk[16], k[16], b[16] = {0};
    high_first(hi, drk);
    high_first(lo, drk + 8);
    nettle_mac(drk, one, 1, k);
    aes128_set_encrypt_key(ctx, k);
    high_first(address, b + 8);
    aes128_encrypt(ctx, 16, iv, b);
}

static void hq_sign_code(void) { hq_sign(57); }
static void nettle_sign_code(void) { nettle_sign(57); }
static void hq_sign_data(void) { hq_sign(73); }
static void nettle_sign_data(void) { nettle_sign(73); }

static void hq_seal_line(void) { hq_seal(hi, lo, address, line, 64); }
static void hq_open_line(void) { hq_unseal(hi, lo, address, line, 64); }

static void nettle_seal_line(void)
{
    struct aes128_ctx in;
    uint8_t iv[16];
    nettle_begin(&in, iv);
    cbc_aes128_encrypt(&in, iv, 64, line, line);
}

static void nettle_open_line(void)
{
    struct aes128_ctx in, out;
    uint8_t iv[16];
    nettle_begin(&in, iv);
    aes128_invert_key(&out, &in);
    cbc_decrypt(&out, (nettle_cipher_func *)aes128_decrypt, 16, iv, 64, line, line);
}

static const struct row rows[] = {
    {"key schedule and CMAC of 57 bytes (a code line)", 1, {hq_sign_code, nettle_sign_code, NULL}},
    {"key schedule and CMAC of 73 bytes (a data line)", 1, {hq_sign_data, nettle_sign_data, NULL}},
    {"seal a line", 1, {hq_seal_line, nettle_seal_line, NULL}},
    {"open a line", 1, {hq_open_line, nettle_open_line, NULL}},
};

/* Ends the run where the two do not agree: each piece of work by both, from the same message and line. */
static void begin(void)
{
    for (size_t i = 0; i < sizeof rows / sizeof rows[0]; i++) {
        uint8_t ours[sizeof message + sizeof line], theirs[sizeof ours], *to[2] = {ours, theirs};
        for (int j = 0; j < 2; j++) {
            memset(message, 7, sizeof message);
            memset(line, 9, sizeof line);
            rows[i].run[j]();
            memcpy(to[j], message, sizeof message);
            memcpy(to[j] + sizeof message, line, sizeof line);
        }
        expect_same(ours, theirs, sizeof ours);
    }
}

int main(void)
{
    hi = 0x2b7e151628aed2a6;
    lo = 0xabf7158809cf4f3c;
    address = 0x1040;
    begin();
    print_table(rows, sizeof rows / sizeof rows[0]);
    return 0;
}
