/* A plain byte-oriented AES-128 in C, written from FIPS 197: what a programmer in a hurry would use, for the benchmark to compare with. */
#ifndef PLAIN_AES_H
#define PLAIN_AES_H

#include <stdint.h>

/* Makes the S-box and its inverse from the field rule; called once, before all else. */
void plain_tables(void);

/* KeyExpansion: the eleven round keys, a byte at a time. */
void plain_expand(const uint8_t key[16], uint8_t w[176]);

/* Cipher. */
void plain_encipher(const uint8_t w[176], const uint8_t block[16], uint8_t out[16]);

/* InvCipher. */
void plain_decipher(const uint8_t w[176], const uint8_t block[16], uint8_t out[16]);

#endif
