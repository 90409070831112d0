/* 'Protected lines' of document 01 by OpenSSL's AES and CMAC: keys, MACs, sealing, and the hash and key stream of a suspension. */
#ifndef SECOND_LINES_H
#define SECOND_LINES_H

#include <stdbool.h>
#include <stddef.h>
#include <stdint.h>

/* The number in eight bytes, the highest first. */
void put_high_first(uint8_t out[8], uint64_t number);

/* The number that eight bytes give, the highest first. */
uint64_t get_high_first(const uint8_t in[8]);

/* CMAC under a DRK (high word first) of a message. */
void drk_cmac(const uint64_t drk[2], const uint8_t *message, size_t length, uint8_t mac[16]);

/* The MAC of a code line: byte 2, the address, the first 48 bytes. */
void code_mac(const uint64_t drk[2], uint64_t address, const uint8_t *line, uint8_t mac[16]);

/* The MAC of a data line: byte 3, the address, the 64 encrypted bytes. */
void data_mac(const uint64_t drk[2], uint64_t address, const uint8_t *line, uint8_t mac[16]);

/* Seals 64 bytes from `plain` into `line` (which may be the same) and gives the MAC. */
void seal_line(const uint64_t drk[2], uint64_t address, const uint8_t *plain, uint8_t *line, uint8_t mac[16]);

/* Checks the MAC of a sealed line and, where it is right, puts the 64 plain bytes into `plain` (which may be the line). */
bool open_line(const uint64_t drk[2], uint64_t address, const uint8_t *line, const uint8_t *mac, uint8_t *plain);

/* Whether bytes 48 to 63 of a line are its code MAC. */
bool code_line_right(const uint64_t drk[2], uint64_t address, const uint8_t *line);

/* The hash of R1 to R31, the high word first. */
void register_hash(const uint64_t drk[2], const uint64_t r[32], uint64_t hash[2]);

/* Xors R1 to R31 with the key stream of a hash. */
void xor_key_stream(const uint64_t drk[2], const uint64_t hash[2], uint64_t r[32]);

#endif
