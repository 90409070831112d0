/* AES-128, CBC, CMAC and sealed lines for programs in C: the functions of the crate cipher_face, in crates/cipher_face/out/libcipher_face.a. */
#ifndef HQ_CIPHERS_H
#define HQ_CIPHERS_H

#include <stddef.h>
#include <stdint.h>

/* KeyExpansion: the 44 words of a key go to w. */
void hq_aes_expand(const uint8_t key[16], uint32_t w[44]);

/* Cipher: a block under the words of a key schedule goes to out, which is no part of the block. */
void hq_aes_encipher(const uint32_t w[44], const uint8_t block[16], uint8_t out[16]);

/* InvCipher: a block under a key goes to out, which is no part of the key or the block. */
void hq_aes_decipher(const uint8_t key[16], const uint8_t block[16], uint8_t out[16]);

/* CBC encryption of all whole blocks of n bytes, in place, under the words of a key schedule; bytes behind them stay. */
void hq_cbc_encrypt(const uint32_t w[44], const uint8_t iv[16], uint8_t *bytes, size_t n);

/* CBC decryption of all whole blocks of n bytes, in place, under a key; bytes behind them stay. */
void hq_cbc_decrypt(const uint8_t key[16], const uint8_t iv[16], uint8_t *bytes, size_t n);

/* CMAC: the MAC of n bytes under the words of a key schedule goes to out, which is no part of them. */
void hq_cmac(const uint32_t w[44], const uint8_t *m, size_t n, uint8_t out[16]);

/* CMAC's subkeys, K1 for a whole last block and K2 for one that is padded, go to out. */
void hq_cmac_subkey1(const uint32_t w[44], uint8_t out[16]);
void hq_cmac_subkey2(const uint32_t w[44], uint8_t out[16]);

/* The MAC of the 48 code bytes, or of the 64 encrypted bytes, of the line at an address goes to out, under a DRK of two words. */
void hq_code_mac(uint64_t hi, uint64_t lo, uint64_t address, const uint8_t code[48], uint8_t out[16]);
void hq_data_mac(uint64_t hi, uint64_t lo, uint64_t address, const uint8_t line[64], uint8_t out[16]);

/* Seals the data line at an address, in place, under a DRK of two words; a line has n = 64 bytes. */
void hq_seal(uint64_t hi, uint64_t lo, uint64_t address, uint8_t *line, size_t n);

/* Opens the sealed data line at an address, in place, under a DRK of two words; a line has n = 64 bytes. */
void hq_unseal(uint64_t hi, uint64_t lo, uint64_t address, uint8_t *line, size_t n);

#endif
