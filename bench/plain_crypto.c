/* The few functions of OpenSSL that the second model calls, by the plain C cipher: linked in OpenSSL's place, they make it a model that is plain C throughout. */
#include <openssl/evp.h>
#include <openssl/params.h>
#include <stdlib.h>
#include <string.h>

#include "plain_aes.h"

enum { BLOCK = 16, MESSAGE = 512 };

struct evp_mac_st {
    int unused;
};

struct evp_mac_ctx_st {
    uint8_t words[176], message[MESSAGE];
    size_t length;
};

struct evp_cipher_st {
    int chained;
};

struct evp_cipher_ctx_st {
    int chained, enciphers;
    uint8_t words[176], before[BLOCK];
};

static struct evp_mac_st cmac;
static const struct evp_cipher_st ecb = {0}, cbc = {1};

EVP_MAC *EVP_MAC_fetch(OSSL_LIB_CTX *library, const char *name, const char *properties)
{
    (void)library, (void)name, (void)properties;
    plain_tables();
    return &cmac;
}

void EVP_MAC_free(EVP_MAC *mac) { (void)mac; }

EVP_MAC_CTX *EVP_MAC_CTX_new(EVP_MAC *mac)
{
    (void)mac;
    return calloc(1, sizeof(EVP_MAC_CTX));
}

int EVP_MAC_init(EVP_MAC_CTX *ctx, const unsigned char *key, size_t length, const OSSL_PARAM parameters[])
{
    (void)length, (void)parameters;
    ctx->length = 0;
    if (key != NULL)
        plain_expand(key, ctx->words);
    return 1;
}

int EVP_MAC_update(EVP_MAC_CTX *ctx, const unsigned char *message, size_t length)
{
    if (length > MESSAGE - ctx->length)
        return 0;
    memcpy(ctx->message + ctx->length, message, length);
    ctx->length += length;
    return 1;
}

/* A subkey of CMAC from the one before it: a shift to the left, and 87 where a bit was lost. */
static void doubled(uint8_t k[BLOCK])
{
    int lost = k[0] >> 7;
    for (int i = 0; i < BLOCK; i++)
        k[i] = (uint8_t)(k[i] << 1 | (i + 1 < BLOCK ? k[i + 1] >> 7 : 0));
    k[BLOCK - 1] ^= (uint8_t)(lost ? 0x87 : 0);
}

int EVP_MAC_final(EVP_MAC_CTX *ctx, unsigned char *mac, size_t *given, size_t size)
{
    uint8_t key[BLOCK] = {0}, x[BLOCK] = {0}, last[BLOCK] = {0};
    size_t whole = ctx->length == 0 ? 0 : (ctx->length - 1) / BLOCK, rest = ctx->length - whole * BLOCK;
    plain_encipher(ctx->words, key, key);
    doubled(key);
    memcpy(last, ctx->message + whole * BLOCK, rest);
    if (rest < BLOCK) {
        doubled(key);
        last[rest] = 0x80;
    }
    for (size_t b = 0; b <= whole; b++) {
        for (int i = 0; i < BLOCK; i++)
            x[i] ^= b < whole ? ctx->message[b * BLOCK + (size_t)i] : (uint8_t)(last[i] ^ key[i]);
        plain_encipher(ctx->words, x, x);
    }
    memcpy(mac, x, BLOCK);
    *given = BLOCK;
    return size >= BLOCK;
}

EVP_CIPHER_CTX *EVP_CIPHER_CTX_new(void) { return calloc(1, sizeof(EVP_CIPHER_CTX)); }
const EVP_CIPHER *EVP_aes_128_ecb(void) { return &ecb; }
const EVP_CIPHER *EVP_aes_128_cbc(void) { return &cbc; }

int EVP_CIPHER_CTX_set_padding(EVP_CIPHER_CTX *ctx, int padding)
{
    (void)ctx, (void)padding;
    return 1;
}

int EVP_CipherInit_ex(EVP_CIPHER_CTX *ctx, const EVP_CIPHER *cipher, ENGINE *engine, const unsigned char *key, const unsigned char *iv, int enciphers)
{
    (void)engine;
    if (cipher != NULL)
        ctx->chained = cipher->chained;
    if (enciphers != -1)
        ctx->enciphers = enciphers;
    if (key != NULL)
        plain_expand(key, ctx->words);
    if (iv != NULL)
        memcpy(ctx->before, iv, BLOCK);
    return 1;
}

/* One block in a context. */
static void block_through(EVP_CIPHER_CTX *ctx, const uint8_t in[BLOCK], uint8_t out[BLOCK])
{
    uint8_t x[BLOCK], y[BLOCK];
    for (int i = 0; i < BLOCK; i++)
        x[i] = (uint8_t)(in[i] ^ (ctx->chained && ctx->enciphers ? ctx->before[i] : 0));
    if (ctx->enciphers)
        plain_encipher(ctx->words, x, y);
    else
        plain_decipher(ctx->words, x, y);
    for (int i = 0; i < BLOCK && ctx->chained && !ctx->enciphers; i++)
        y[i] ^= ctx->before[i];
    memcpy(ctx->before, ctx->enciphers ? y : x, BLOCK);
    memcpy(out, y, BLOCK);
}

int EVP_CipherUpdate(EVP_CIPHER_CTX *ctx, unsigned char *out, int *given, const unsigned char *in, int length)
{
    for (int at = 0; at < length; at += BLOCK)
        block_through(ctx, in + at, out + at);
    *given = length;
    return length % BLOCK == 0;
}

OSSL_PARAM OSSL_PARAM_construct_utf8_string(const char *key, char *text, size_t size)
{
    return (OSSL_PARAM){key, OSSL_PARAM_UTF8_STRING, text, size, 0};
}

OSSL_PARAM OSSL_PARAM_construct_end(void) { return (OSSL_PARAM){NULL, 0, NULL, 0, 0}; }
