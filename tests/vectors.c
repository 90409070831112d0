/* Runs every published vector of AES-128, CBC and CMAC on the library of cipher_face: FIPS 197, SP 800-38A, RFC 4493 and NIST's files *128.rsp in the
   folder that is named; writes how many ran and how many came out wrong, and ends with status 1 where one did. */
#include <stdint.h>
#include <stdio.h>
#include <stdlib.h>
#include <string.h>

#include "hq_ciphers.h"

/* How many answers were compared, and how many were wrong. */
struct tally {
    long ran, wrong;
};

static struct tally total;

/* Writes a tally under a name, and adds it to the total. */
static void written(const char *name, struct tally t)
{
    printf("%s: ran %ld, wrong %ld\n", name, t.ran, t.wrong);
    total.ran += t.ran;
    total.wrong += t.wrong;
}

/* Ends the run where a vector cannot be read. */
static void expect(int ok, const char *what)
{
    if (!ok) {
        fprintf(stderr, "vectors: %s\n", what);
        exit(1);
    }
}

/* n bytes from 2 n digits, and no digit behind them. */
static void bytes(const char *digits, uint8_t *out, size_t n)
{
    for (size_t i = 0; i < n; i++) {
        unsigned x = 0;
        expect(sscanf(digits + 2 * i, "%2x", &x) == 1, "a number that is no number");
        out[i] = (uint8_t)x;
    }
    expect(strspn(digits, "0123456789abcdefABCDEF") == 2 * n, "a number of another size");
}

/* Compares n bytes with an answer. */
static void compared(struct tally *t, const uint8_t *answer, const uint8_t *expected, size_t n)
{
    t->ran++;
    t->wrong += memcmp(answer, expected, n) != 0;
}

static void enciphers(struct tally *t, const uint8_t key[16], const uint8_t plain[16], const uint8_t coded[16])
{
    uint32_t w[44];
    uint8_t answer[16];
    hq_aes_expand(key, w);
    hq_aes_encipher(w, plain, answer);
    compared(t, answer, coded, 16);
}

static void deciphers(struct tally *t, const uint8_t key[16], const uint8_t plain[16], const uint8_t coded[16])
{
    uint8_t answer[16];
    hq_aes_decipher(key, coded, answer);
    compared(t, answer, plain, 16);
}

static void encrypts(struct tally *t, const uint8_t key[16], const uint8_t iv[16], const uint8_t plain[16], const uint8_t coded[16])
{
    uint32_t w[44];
    uint8_t answer[16];
    memcpy(answer, plain, 16);
    hq_aes_expand(key, w);
    hq_cbc_encrypt(w, iv, answer, 16);
    compared(t, answer, coded, 16);
}

static void decrypts(struct tally *t, const uint8_t key[16], const uint8_t iv[16], const uint8_t plain[16], const uint8_t coded[16])
{
    uint8_t answer[16];
    memcpy(answer, coded, 16);
    hq_cbc_decrypt(key, iv, answer, 16);
    compared(t, answer, plain, 16);
}

/* Each vector of one of NIST's files, in the direction of its part. */
static void file(const char *folder, const char *name)
{
    enum { KEY = 1, IV = 2, PLAIN = 4, CODED = 8 };
    const int is_cbc = strncmp(name, "CBC", 3) == 0, whole = KEY | PLAIN | CODED | (is_cbc ? IV : 0);
    uint8_t key[16], iv[16], plain[16], coded[16];
    char path[256], line[512], digits[256];
    struct tally t = {0, 0};
    int encrypting = 0, have = 0;
    expect(snprintf(path, sizeof path, "%s/%s", folder, name) < (int)sizeof path, "a path that is too long");
    FILE *f = fopen(path, "r");
    expect(f != NULL, path);
    while (fgets(line, sizeof line, f) != NULL) {
        if (strncmp(line, "[ENCRYPT]", 9) == 0)
            encrypting = 1;
        else if (strncmp(line, "[DECRYPT]", 9) == 0)
            encrypting = 0;
        else if (strncmp(line, "COUNT", 5) == 0)
            have = 0;
        else if (sscanf(line, "KEY = %255s", digits) == 1)
            bytes(digits, key, 16), have |= KEY;
        else if (sscanf(line, "IV = %255s", digits) == 1)
            bytes(digits, iv, 16), have |= IV;
        else if (sscanf(line, "PLAINTEXT = %255s", digits) == 1)
            bytes(digits, plain, 16), have |= PLAIN;
        else if (sscanf(line, "CIPHERTEXT = %255s", digits) == 1)
            bytes(digits, coded, 16), have |= CODED;
        else
            continue;
        if (have != whole)
            continue;
        if (is_cbc)
            (encrypting ? encrypts : decrypts)(&t, key, iv, plain, coded);
        else
            (encrypting ? enciphers : deciphers)(&t, key, plain, coded);
        have = 0;
    }
    fclose(f);
    written(name, t);
}

/* FIPS 197, appendix A.1: each word of a key schedule. */
static void fips_schedule(void)
{
    static const uint32_t expected[44] = {
        0x2b7e1516, 0x28aed2a6, 0xabf71588, 0x09cf4f3c, 0xa0fafe17, 0x88542cb1, 0x23a33939, 0x2a6c7605,
        0xf2c295f2, 0x7a96b943, 0x5935807a, 0x7359f67f, 0x3d80477d, 0x4716fe3e, 0x1e237e44, 0x6d7a883b,
        0xef44a541, 0xa8525b7f, 0xb671253b, 0xdb0bad00, 0xd4d1c6f8, 0x7c839d87, 0xcaf2b8bc, 0x11f915bc,
        0x6d88a37a, 0x110b3efd, 0xdbf98641, 0xca0093fd, 0x4e54f70e, 0x5f5fc9f3, 0x84a64fb2, 0x4ea6dc4f,
        0xead27321, 0xb58dbad2, 0x312bf560, 0x7f8d292f, 0xac7766f3, 0x19fadc21, 0x28d12941, 0x575c006e,
        0xd014f9a8, 0xc9ee2589, 0xe13f0cc8, 0xb6630ca6};
    uint8_t key[16];
    uint32_t w[44];
    struct tally t = {0, 0};
    bytes("2b7e151628aed2a6abf7158809cf4f3c", key, 16);
    hq_aes_expand(key, w);
    for (int i = 0; i < 44; i++) {
        t.ran++;
        t.wrong += w[i] != expected[i];
    }
    written("FIPS 197 A.1, words of the key schedule", t);
}

/* FIPS 197, appendices B and C.1, both directions. */
static void fips_blocks(void)
{
    static const char *const vectors[2][3] = {
        {"2b7e151628aed2a6abf7158809cf4f3c", "3243f6a8885a308d313198a2e0370734", "3925841d02dc09fbdc118597196a0b32"},
        {"000102030405060708090a0b0c0d0e0f", "00112233445566778899aabbccddeeff", "69c4e0d86a7b0430d8cdb78070b4c55a"}};
    struct tally t = {0, 0};
    for (int i = 0; i < 2; i++) {
        uint8_t key[16], plain[16], coded[16];
        bytes(vectors[i][0], key, 16);
        bytes(vectors[i][1], plain, 16);
        bytes(vectors[i][2], coded, 16);
        enciphers(&t, key, plain, coded);
        deciphers(&t, key, plain, coded);
    }
    written("FIPS 197 B and C.1, both directions", t);
}

/* The message of SP 800-38A and of RFC 4493, and its four blocks in one chain. */
static const char message[] = "6bc1bee22e409f96e93d7e117393172aae2d8a571e03ac9c9eb76fac45af8e51"
                              "30c81c46a35ce411e5fbc1191a0a52eff69f2445df4f9b17ad2b417be66c3710";
static const char chained[] = "7649abac8119b246cee98e9b12e9197d5086cb9b507219ee95db113a917678b2"
                              "73bed6b8e3c1743b7116e69e222295163ff1caa1681fac09120eca307586e1a7";

/* SP 800-38A, F.2.1 and F.2.2: four blocks in one call, byte by byte. */
static void sp800_38a(void)
{
    uint8_t key[16], iv[16], plain[64], coded[64], there[64], back[64];
    uint32_t w[44];
    struct tally encrypted = {0, 0}, decrypted = {0, 0};
    bytes("2b7e151628aed2a6abf7158809cf4f3c", key, 16);
    bytes("000102030405060708090a0b0c0d0e0f", iv, 16);
    bytes(message, plain, 64);
    bytes(chained, coded, 64);
    memcpy(there, plain, 64);
    memcpy(back, coded, 64);
    hq_aes_expand(key, w);
    hq_cbc_encrypt(w, iv, there, 64);
    hq_cbc_decrypt(key, iv, back, 64);
    for (int i = 0; i < 64; i++) {
        compared(&encrypted, there + i, coded + i, 1);
        compared(&decrypted, back + i, plain + i, 1);
    }
    written("SP 800-38A F.2.1, bytes", encrypted);
    written("SP 800-38A F.2.2, bytes", decrypted);
}

/* RFC 4493 and NIST's examples for SP 800-38B: the subkeys, and the MACs of the first 0, 16, 20, 40 and 64 bytes of the message. */
static void rfc4493(void)
{
    static const struct {
        size_t n;
        const char *mac;
    } examples[5] = {{0, "bb1d6929e95937287fa37d129b756746"},
                     {16, "070a16b46b4d4144f79bdd9dd04a287c"},
                     {20, "7d85449ea6ea19c823a7bf78837dfade"},
                     {40, "dfa66747de9ae63030ca32611497c827"},
                     {64, "51f0bebf7e3b9d92fc49741779363cfe"}};
    uint8_t key[16], m[64], answer[16], expected[16];
    uint32_t w[44];
    struct tally subkeys = {0, 0}, macs = {0, 0};
    bytes("2b7e151628aed2a6abf7158809cf4f3c", key, 16);
    bytes(message, m, 64);
    hq_aes_expand(key, w);
    hq_cmac_subkey1(w, answer);
    bytes("fbeed618357133667c85e08f7236a8de", expected, 16);
    compared(&subkeys, answer, expected, 16);
    hq_cmac_subkey2(w, answer);
    bytes("f7ddac306ae266ccf90bc11ee46d513b", expected, 16);
    compared(&subkeys, answer, expected, 16);
    for (int i = 0; i < 5; i++) {
        hq_cmac(w, m, examples[i].n, answer);
        bytes(examples[i].mac, expected, 16);
        compared(&macs, answer, expected, 16);
    }
    written("RFC 4493, subkeys K1 and K2", subkeys);
    written("RFC 4493 and SP 800-38B, MACs", macs);
}

int main(int count, char **words)
{
    static const char *const files[] = {"ECBGFSbox128.rsp", "ECBKeySbox128.rsp", "ECBVarKey128.rsp", "ECBVarTxt128.rsp",
                                        "CBCGFSbox128.rsp", "CBCKeySbox128.rsp", "CBCVarKey128.rsp", "CBCVarTxt128.rsp"};
    expect(count == 2, "usage: vectors FOLDER");
    fips_schedule();
    fips_blocks();
    sp800_38a();
    rfc4493();
    for (size_t i = 0; i < sizeof files / sizeof *files; i++)
        file(words[1], files[i]);
    printf("total: ran %ld, wrong %ld\n", total.ran, total.wrong);
    return total.wrong != 0;
}
