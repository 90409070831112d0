/* Compares hq_cbc_encrypt, hq_cbc_decrypt, hq_cmac, hq_seal, hq_unseal, hq_code_mac and hq_data_mac with OpenSSL's CBC and CMAC; status 1 on a difference. */
#include <openssl/core_names.h>
#include <openssl/crypto.h>
#include <openssl/evp.h>
#include <openssl/params.h>
#include <stdio.h>
#include <stdlib.h>
#include <string.h>

#include "hq_ciphers.h"
#include "numbers.h"

enum { LONGEST = 200, KEYS = 50, LINES = 20000 };

static EVP_CIPHER_CTX *cipher_ctx;
static EVP_MAC_CTX *mac_ctx;

/* Ends the run where OpenSSL fails. */
static void expect(int ok)
{
    if (!ok) {
        fprintf(stderr, "tests: OpenSSL failed\n");
        exit(1);
    }
}

/* CBC of the whole blocks of n bytes by OpenSSL, in place. */
static void openssl_cbc(int encrypts, const uint8_t key[16], const uint8_t iv[16], uint8_t *bytes, size_t n)
{
    int done = 0, whole = (int)(n / 16 * 16);
    expect(EVP_CipherInit_ex(cipher_ctx, EVP_aes_128_cbc(), NULL, key, iv, encrypts) == 1);
    expect(EVP_CIPHER_CTX_set_padding(cipher_ctx, 0) == 1);
    expect(EVP_CipherUpdate(cipher_ctx, bytes, &done, bytes, whole) == 1 && done == whole);
}

/* CMAC of n bytes by OpenSSL. */
static void openssl_cmac(const uint8_t key[16], const uint8_t *m, size_t n, uint8_t out[16])
{
    char name[] = "AES-128-CBC";
    size_t done = 0;
    OSSL_PARAM params[] = {OSSL_PARAM_construct_utf8_string(OSSL_MAC_PARAM_CIPHER, name, 0), OSSL_PARAM_construct_end()};
    expect(EVP_MAC_init(mac_ctx, key, 16, params) == 1);
    expect(EVP_MAC_update(mac_ctx, m, n) == 1);
    expect(EVP_MAC_final(mac_ctx, out, &done, 16) == 1 && done == 16);
}

/* The eight bytes of a number, the highest first. */
static void high_first(uint64_t x, uint8_t out[8])
{
    for (int i = 0; i < 8; i++)
        out[i] = (uint8_t)(x >> (56 - 8 * i));
}

/* A data line sealed or opened by OpenSSL, in place: CBC under the line key, from AES under that key of eight zero bytes and the address. */
static void openssl_line(int seals, uint64_t hi, uint64_t lo, uint64_t address, uint8_t line[64])
{
    static const uint8_t one[1] = {1}, zeros[16];
    uint8_t drk[16], key[16], iv[16] = {0};
    high_first(hi, drk);
    high_first(lo, drk + 8);
    openssl_cmac(drk, one, 1, key);
    high_first(address, iv + 8);
    openssl_cbc(1, key, zeros, iv, 16);
    openssl_cbc(seals, key, iv, line, 64);
}

/* The MAC of n bytes of a line by OpenSSL: CMAC under the DRK of a byte that says what for, the address and the bytes. */
static void openssl_mac(uint8_t prefix, uint64_t hi, uint64_t lo, uint64_t address, const uint8_t *bytes, size_t n, uint8_t out[16])
{
    uint8_t drk[16], text[9 + 64];
    high_first(hi, drk);
    high_first(lo, drk + 8);
    text[0] = prefix;
    high_first(address, text + 1);
    memcpy(text + 9, bytes, n);
    openssl_cmac(drk, text, 9 + n, out);
}

/* The number of differences in CBC on n bytes under one key, 0 to 2. */
static int cbc_differences(const uint8_t key[16], const uint32_t w[44], size_t n)
{
    uint8_t iv[16], ours[LONGEST], theirs[LONGEST];
    int wrong = 0;
    fill(iv, 16);
    fill(ours, n);
    memcpy(theirs, ours, n);
    hq_cbc_encrypt(w, iv, ours, n);
    openssl_cbc(1, key, iv, theirs, n);
    wrong += memcmp(ours, theirs, n) != 0;
    fill(ours, n);
    memcpy(theirs, ours, n);
    hq_cbc_decrypt(key, iv, ours, n);
    openssl_cbc(0, key, iv, theirs, n);
    wrong += memcmp(ours, theirs, n) != 0;
    return wrong;
}

/* The number of differences in CMAC on n bytes under one key, 0 or 1. */
static int cmac_differences(const uint8_t key[16], const uint32_t w[44], size_t n)
{
    uint8_t m[LONGEST], ours[16], theirs[16];
    fill(m, n);
    hq_cmac(w, m, n, ours);
    openssl_cmac(key, m, n, theirs);
    return memcmp(ours, theirs, 16) != 0;
}

/* The number of differences on one line at an address, 0 to 5: sealed, opened, there and back, and both MACs. */
static int line_differences(uint64_t address)
{
    uint64_t hi = next_number(), lo = next_number();
    uint8_t line[64], ours[64], theirs[64], mac[16], their_mac[16];
    int wrong = 0;
    fill(line, 64);
    memcpy(ours, line, 64);
    memcpy(theirs, line, 64);
    hq_seal(hi, lo, address, ours, 64);
    openssl_line(1, hi, lo, address, theirs);
    wrong += memcmp(ours, theirs, 64) != 0;
    hq_unseal(hi, lo, address, ours, 64);
    wrong += memcmp(ours, line, 64) != 0;
    memcpy(theirs, line, 64);
    hq_unseal(hi, lo, address, ours, 64);
    openssl_line(0, hi, lo, address, theirs);
    wrong += memcmp(ours, theirs, 64) != 0;
    hq_code_mac(hi, lo, address, line, mac);
    openssl_mac(2, hi, lo, address, line, 48, their_mac);
    wrong += memcmp(mac, their_mac, 16) != 0;
    hq_data_mac(hi, lo, address, line, mac);
    openssl_mac(3, hi, lo, address, line, 64, their_mac);
    wrong += memcmp(mac, their_mac, 16) != 0;
    return wrong;
}

int main(void)
{
    static const uint64_t edges[] = {0, 64, 1ull << 63, -64ull};
    EVP_MAC *mac = EVP_MAC_fetch(NULL, "CMAC", NULL);
    long wrong = 0;
    expect(mac != NULL);
    cipher_ctx = EVP_CIPHER_CTX_new();
    mac_ctx = EVP_MAC_CTX_new(mac);
    expect(cipher_ctx != NULL && mac_ctx != NULL);
    for (int i = 0; i < KEYS; i++) {
        uint8_t key[16];
        uint32_t w[44];
        fill(key, 16);
        hq_aes_expand(key, w);
        for (size_t n = 0; n <= LONGEST; n++)
            wrong += cbc_differences(key, w, n) + cmac_differences(key, w, n);
    }
    for (int i = 0; i < LINES; i++)
        wrong += line_differences(i % 8 < 4 ? edges[i % 4] : next_number() / 64 * 64);
    EVP_MAC_CTX_free(mac_ctx);
    EVP_CIPHER_CTX_free(cipher_ctx);
    EVP_MAC_free(mac);
    printf("CBC, CMAC and sealed lines beside %s: %d keys with all lengths to %d, %d lines, %ld differences\n",
           OpenSSL_version(OPENSSL_VERSION), KEYS, LONGEST, LINES, wrong);
    return wrong != 0;
}
