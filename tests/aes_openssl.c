/* Compares hq_aes_encipher and hq_aes_decipher with OpenSSL's AES-128 on keys and blocks of zeros, of ones and of a single bit, and on 100,000
   pseudo-random ones; status 1 on a difference. */
#include <openssl/crypto.h>
#include <openssl/evp.h>
#include <stdio.h>
#include <string.h>

#include "hq_ciphers.h"
#include "numbers.h"

enum { PAIRS = 100000 };

/* One block under a key by OpenSSL, enciphered or deciphered; 0 where OpenSSL fails. */
static int by_openssl(EVP_CIPHER_CTX *ctx, int enciphers, const uint8_t key[16], const uint8_t block[16], uint8_t out[16])
{
    int n = 0;
    return EVP_CipherInit_ex(ctx, EVP_aes_128_ecb(), NULL, key, NULL, enciphers) == 1
        && EVP_CIPHER_CTX_set_padding(ctx, 0) == 1
        && EVP_CipherUpdate(ctx, out, &n, block, 16) == 1
        && n == 16;
}

/* The number of differences on one key and one block, 0 to 3; each direction, and there and back. */
static int differences(EVP_CIPHER_CTX *ctx, const uint8_t key[16], const uint8_t block[16])
{
    uint32_t w[44];
    uint8_t enciphered[16], deciphered[16], back[16], theirs[16];
    hq_aes_expand(key, w);
    hq_aes_encipher(w, block, enciphered);
    hq_aes_decipher(key, block, deciphered);
    hq_aes_decipher(key, enciphered, back);
    int wrong = memcmp(back, block, 16) != 0;
    wrong += !by_openssl(ctx, 1, key, block, theirs) || memcmp(enciphered, theirs, 16) != 0;
    wrong += !by_openssl(ctx, 0, key, block, theirs) || memcmp(deciphered, theirs, 16) != 0;
    return wrong;
}

/* The number of differences on keys and blocks of zeros or ones alone, and of a single bit in either. */
static long plain_differences(EVP_CIPHER_CTX *ctx)
{
    static const uint8_t zeros[16];
    uint8_t ones[16], bit[16];
    memset(ones, 255, 16);
    long wrong = differences(ctx, zeros, zeros) + differences(ctx, zeros, ones) + differences(ctx, ones, zeros) + differences(ctx, ones, ones);
    for (int n = 0; n < 128; n++) {
        memset(bit, 0, 16);
        bit[n / 8] = (uint8_t)(1 << n % 8);
        wrong += differences(ctx, bit, zeros) + differences(ctx, zeros, bit);
    }
    return wrong;
}

int main(void)
{
    EVP_CIPHER_CTX *ctx = EVP_CIPHER_CTX_new();
    long wrong = 0;
    if (ctx == NULL)
        return 1;
    wrong += plain_differences(ctx);
    for (int i = 0; i < PAIRS; i++) {
        uint8_t key[16], block[16];
        fill(key, 16);
        fill(block, 16);
        wrong += differences(ctx, key, block);
    }
    EVP_CIPHER_CTX_free(ctx);
    printf("AES-128 beside %s: %d keys and blocks, both directions, %ld differences\n",
           OpenSSL_version(OPENSSL_VERSION), 4 + 256 + PAIRS, wrong);
    return wrong != 0;
}
