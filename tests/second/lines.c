/* 'Protected lines' of document 01 by OpenSSL's AES and CMAC, with the contexts of the last few keys kept for speed. */
#include "lines.h"

#include <openssl/core_names.h>
#include <openssl/evp.h>
#include <openssl/params.h>
#include <stdio.h>
#include <stdlib.h>
#include <string.h>

enum { KEYS_KEPT = 4 };

/* What belongs to one DRK: its CMAC, and AES under its line key in three uses. */
struct key_set {
    bool used;
    uint64_t drk[2];
    EVP_MAC_CTX *cmac;
    EVP_CIPHER_CTX *block;
    EVP_CIPHER_CTX *chain;
    EVP_CIPHER_CTX *unchain;
};

/* Ends the program where OpenSSL fails: no result would mean anything. */
static void must(bool fine)
{
    if (fine)
        return;
    fprintf(stderr, "second model: OpenSSL failed\n");
    abort();
}

void put_high_first(uint8_t out[8], uint64_t number)
{
    for (int i = 0; i < 8; i++)
        out[i] = (uint8_t)(number >> (56 - 8 * i));
}

uint64_t get_high_first(const uint8_t in[8])
{
    uint64_t number = 0;
    for (int i = 0; i < 8; i++)
        number = number << 8 | in[i];
    return number;
}

/* Two words as sixteen bytes, the highest first. */
static void put_words(uint8_t out[16], const uint64_t words[2])
{
    put_high_first(out, words[0]);
    put_high_first(out + 8, words[1]);
}

/* CMAC of a message in a context that has its key. */
static void cmac_in(EVP_MAC_CTX *ctx, const uint8_t *message, size_t length, uint8_t mac[16])
{
    size_t given = 0;
    must(EVP_MAC_init(ctx, NULL, 0, NULL) == 1);
    must(EVP_MAC_update(ctx, message, length) == 1);
    must(EVP_MAC_final(ctx, mac, &given, 16) == 1 && given == 16);
}

/* Makes the contexts of a key set, once. */
static void make_contexts(struct key_set *set)
{
    EVP_MAC *kind = EVP_MAC_fetch(NULL, "CMAC", NULL);
    must(kind != NULL);
    set->cmac = EVP_MAC_CTX_new(kind);
    EVP_MAC_free(kind);
    set->block = EVP_CIPHER_CTX_new();
    set->chain = EVP_CIPHER_CTX_new();
    set->unchain = EVP_CIPHER_CTX_new();
    must(set->cmac != NULL && set->block != NULL && set->chain != NULL && set->unchain != NULL);
    must(EVP_CipherInit_ex(set->block, EVP_aes_128_ecb(), NULL, NULL, NULL, 1) == 1);
    must(EVP_CipherInit_ex(set->chain, EVP_aes_128_cbc(), NULL, NULL, NULL, 1) == 1);
    must(EVP_CipherInit_ex(set->unchain, EVP_aes_128_cbc(), NULL, NULL, NULL, 0) == 1);
}

/* Gives a key set its DRK, and AES its line key, CMAC(DRK, byte 1). */
static void set_key(struct key_set *set, const uint64_t drk[2])
{
    static const uint8_t one[1] = {1};
    char cipher[] = "AES-128-CBC";
    OSSL_PARAM parameters[] = {OSSL_PARAM_construct_utf8_string(OSSL_MAC_PARAM_CIPHER, cipher, 0), OSSL_PARAM_construct_end()};
    uint8_t key[16], line_key[16];
    if (set->cmac == NULL)
        make_contexts(set);
    put_words(key, drk);
    must(EVP_MAC_init(set->cmac, key, 16, parameters) == 1);
    cmac_in(set->cmac, one, 1, line_key);
    must(EVP_CipherInit_ex(set->block, NULL, NULL, line_key, NULL, -1) == 1);
    must(EVP_CipherInit_ex(set->chain, NULL, NULL, line_key, NULL, -1) == 1);
    must(EVP_CipherInit_ex(set->unchain, NULL, NULL, line_key, NULL, -1) == 1);
    must(EVP_CIPHER_CTX_set_padding(set->block, 0) == 1);
    must(EVP_CIPHER_CTX_set_padding(set->chain, 0) == 1);
    must(EVP_CIPHER_CTX_set_padding(set->unchain, 0) == 1);
    memcpy(set->drk, drk, sizeof set->drk);
    set->used = true;
}

/* The key set of a DRK, made in turn where it is not among those kept. */
static struct key_set *keys_of(const uint64_t drk[2])
{
    static struct key_set sets[KEYS_KEPT];
    static unsigned turn;
    for (unsigned i = 0; i < KEYS_KEPT; i++)
        if (sets[i].used && sets[i].drk[0] == drk[0] && sets[i].drk[1] == drk[1])
            return &sets[i];
    struct key_set *set = &sets[turn++ % KEYS_KEPT];
    set_key(set, drk);
    return set;
}

/* Whole blocks through a cipher context. */
static void through(EVP_CIPHER_CTX *ctx, const uint8_t *in, uint8_t *out, int length)
{
    int given = 0;
    must(EVP_CipherUpdate(ctx, out, &given, in, length) == 1 && given == length);
}

/* The 64 bytes of a line through CBC from the IV of its address: AES under the line key of eight zero bytes, then the address. */
static void through_chain(struct key_set *set, EVP_CIPHER_CTX *ctx, uint64_t address, const uint8_t *in, uint8_t *out)
{
    uint8_t start[16] = {0}, iv[16];
    put_high_first(start + 8, address);
    through(set->block, start, iv, 16);
    must(EVP_CipherInit_ex(ctx, NULL, NULL, NULL, iv, -1) == 1);
    through(ctx, in, out, 64);
}

void drk_cmac(const uint64_t drk[2], const uint8_t *message, size_t length, uint8_t mac[16])
{
    cmac_in(keys_of(drk)->cmac, message, length, mac);
}

/* CMAC(DRK, a byte for the kind of line, the address, the line's first bytes). */
static void line_mac(const uint64_t drk[2], uint8_t kind, uint64_t address, const uint8_t *line, size_t length, uint8_t mac[16])
{
    uint8_t message[1 + 8 + 64];
    message[0] = kind;
    put_high_first(message + 1, address);
    memcpy(message + 9, line, length);
    drk_cmac(drk, message, 9 + length, mac);
}

void code_mac(const uint64_t drk[2], uint64_t address, const uint8_t *line, uint8_t mac[16])
{
    line_mac(drk, 2, address, line, 48, mac);
}

void data_mac(const uint64_t drk[2], uint64_t address, const uint8_t *line, uint8_t mac[16])
{
    line_mac(drk, 3, address, line, 64, mac);
}

void seal_line(const uint64_t drk[2], uint64_t address, const uint8_t *plain, uint8_t *line, uint8_t mac[16])
{
    struct key_set *set = keys_of(drk);
    through_chain(set, set->chain, address, plain, line);
    data_mac(drk, address, line, mac);
}

bool open_line(const uint64_t drk[2], uint64_t address, const uint8_t *line, const uint8_t *mac, uint8_t *plain)
{
    uint8_t right[16];
    struct key_set *set = keys_of(drk);
    data_mac(drk, address, line, right);
    if (memcmp(mac, right, 16) != 0)
        return false;
    through_chain(set, set->unchain, address, line, plain);
    return true;
}

bool code_line_right(const uint64_t drk[2], uint64_t address, const uint8_t *line)
{
    uint8_t right[16];
    code_mac(drk, address, line, right);
    return memcmp(line + 48, right, 16) == 0;
}

void register_hash(const uint64_t drk[2], const uint64_t r[32], uint64_t hash[2])
{
    uint8_t message[1 + 31 * 8], mac[16];
    message[0] = 4;
    for (int i = 1; i < 32; i++)
        put_high_first(message + 1 + 8 * (i - 1), r[i]);
    drk_cmac(drk, message, sizeof message, mac);
    hash[0] = get_high_first(mac);
    hash[1] = get_high_first(mac + 8);
}

void xor_key_stream(const uint64_t drk[2], const uint64_t hash[2], uint64_t r[32])
{
    uint8_t stream[256];
    for (int j = 0; j < 16; j++) {
        put_words(stream + 16 * j, hash);
        stream[16 * j + 15] ^= (uint8_t)j;
    }
    through(keys_of(drk)->block, stream, stream, 256);
    for (int i = 1; i < 32; i++)
        r[i] ^= get_high_first(stream + 8 * (i - 1));
}
