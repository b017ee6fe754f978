/* A data logger's use of the library: a reading is sealed and checked, a polynomial is tried, and the published cases are
 * compared. Ends with status 0 when all is as it should be. */
#include "bilgelongan.h"
#include "published.h"

#include <stdio.h>
#include <string.h>

static int failures = 0;

static void want(const char *what, long got, long wanted)
{
    if (got != wanted) {
        printf("%s: %ld, and %ld is wanted\n", what, got, wanted);
        failures++;
    }
}

static void want_bytes(const char *what, const uint8_t *got, const uint8_t *wanted, size_t length)
{
    if (memcmp(got, wanted, length) != 0) {
        printf("%s: other bytes than wanted\n", what);
        failures++;
    }
}

static unsigned digit(char c)
{
    return c <= '9' ? (unsigned)(c - '0') : (unsigned)(c - 'a') + 10;
}

static size_t bytes_of(const char *hexadecimal, uint8_t *bytes)
{
    size_t length = strlen(hexadecimal) / 2;
    for (size_t i = 0; i < length; i++)
        bytes[i] = (uint8_t)(digit(hexadecimal[2 * i]) << 4 | digit(hexadecimal[2 * i + 1]));
    return length;
}

/* Eight bytes as a number, the first highest. */
static uint64_t number_of(const uint8_t *bytes)
{
    uint64_t number = 0;
    for (int i = 0; i < 8; i++)
        number = number << 8 | bytes[i];
    return number;
}

static const uint64_t KEY[2] = {0xacbef20579b4b8eb, 0xce889bac8732dad7};
static const uint64_t PAD[2] = {0xfd2caa16a5832e76, 0xaa132c1453eeda7e};

static void seal_a_reading(void)
{
    static const char header[] = "station 06610, 2024-11-04 12:00 UTC";
    char reading[] = "1013.2 hPa, 11.4 C, 76 %";
    const uint8_t *h = (const uint8_t *)header;
    const uint8_t *b = (const uint8_t *)reading;
    size_t hn = strlen(header), bn = strlen(reading);
    uint8_t sealed[33];

    memset(sealed, 0xaa, sizeof sealed);
    want("seal", sonde_tag(KEY[0], KEY[1], PAD[0], PAD[1], h, hn, b, bn, sealed, sizeof sealed), 0);
    want("the byte after the answer", sealed[32], 0xaa);
    printf("tag ");
    for (int i = 16; i < 32; i++)
        printf("%02x", sealed[i]);
    printf("\n");

    const uint8_t *tag = sealed + 16;
    want("check of 16 bytes", sonde_check_tag(KEY[0], KEY[1], PAD[0], PAD[1], h, hn, b, bn, tag, 16), 0);
    want("check of 4 bytes", sonde_check_tag(KEY[0], KEY[1], PAD[0], PAD[1], h, hn, b, bn, tag, 4), 0);
    want("check of 3 bytes", sonde_check_tag(KEY[0], KEY[1], PAD[0], PAD[1], h, hn, b, bn, tag, 3), -7);
    want("check of 17 bytes", sonde_check_tag(KEY[0], KEY[1], PAD[0], PAD[1], h, hn, b, bn, tag, 17), -7);
    reading[0] = '2';
    want("check of another reading", sonde_check_tag(KEY[0], KEY[1], PAD[0], PAD[1], h, hn, b, bn, tag, 16), -8);
    reading[0] = '1';
    sealed[31] ^= 1;
    want("check of another last byte", sonde_check_tag(KEY[0], KEY[1], PAD[0], PAD[1], h, hn, b, bn, tag, 16), -8);
}

static void refuse(void)
{
    static const uint8_t header[65536];
    uint8_t output[32], before[32];

    memset(output, 0x55, sizeof output);
    memcpy(before, output, sizeof output);
    want("longest header, short output", sonde_tag(0, 1, 0, 0, header, 65535, header, 0, output, 31), -15);
    want("header too long, short output", sonde_tag(0, 1, 0, 0, header, 65536, header, 0, output, 31), -1);
    want_bytes("output after a refusal", output, before, 32);
    want("header too long, wrong tag length", sonde_check_tag(0, 1, 0, 0, header, 65536, header, 0, output, 2), -7);
    want("header too long", sonde_check_tag(0, 1, 0, 0, header, 65536, header, 0, output, 16), -1);
    want("null output", sonde_tag(0, 1, 0, 0, header, 1, header, 1, NULL, 0), -15);
    want("null tag", sonde_check_tag(0, 1, 0, 0, header, 1, header, 1, NULL, 0), -7);
}

/* No header and no body: the hash is zero, and the tag is the pad. */
static void take_nothing(void)
{
    uint8_t output[32], wanted[32] = {0};

    bytes_of("fd2caa16a5832e76aa132c1453eeda7e", wanted + 16);
    want("null parts", sonde_tag(KEY[0], KEY[1], PAD[0], PAD[1], NULL, 0, NULL, 0, output, sizeof output), 0);
    want_bytes("tag of null parts", output, wanted, 32);
    want("check of null parts", sonde_check_tag(KEY[0], KEY[1], PAD[0], PAD[1], NULL, 0, NULL, 0, wanted + 16, 16), 0);
}

static void try_polynomials(void)
{
    want("made for the key", sonde_try_polynomial(KEY[0], KEY[1], 0xe9946daba2f5fa33, 0xa25bb629506b19fe), 70);
    want("another", sonde_try_polynomial(KEY[0], KEY[1], 0xe9946daba2f5fa33, 0xa25bb629506b19ff), -3);
    want("t^128 at zero", sonde_try_polynomial(0, 0, 0, 0), 0);
    want("t^128 + 1 at one", sonde_try_polynomial(0x8000000000000000, 0, 0x8000000000000000, 0), 1);
    want("t^128 + t^127 at one", sonde_try_polynomial(0x8000000000000000, 0, 0, 1), 1);
    want("t^128 at one", sonde_try_polynomial(0x8000000000000000, 0, 0, 0), -3);
}

static void compare_published(const struct published *c)
{
    uint8_t key[16], pad[16], header[64], body[128], wanted[32], output[32];
    size_t hn = bytes_of(c->header, header), bn = bytes_of(c->body, body);
    char what[32];

    snprintf(what, sizeof what, "published case %d", c->number);
    bytes_of(c->subkey, key);
    bytes_of(c->pad, pad);
    bytes_of(c->hash, wanted);
    bytes_of(c->tag, wanted + 16);
    want(what, sonde_tag(number_of(key), number_of(key + 8), number_of(pad), number_of(pad + 8), header, hn, body, bn, output,
                         sizeof output), 0);
    want_bytes(what, output, wanted, 32);
    for (size_t n = 4; n <= 16; n++)
        want(what, sonde_check_tag(number_of(key), number_of(key + 8), number_of(pad), number_of(pad + 8), header, hn, body, bn,
                                   wanted + 16, n), 0);
}

int main(void)
{
    size_t cases = sizeof published / sizeof published[0];

    seal_a_reading();
    refuse();
    take_nothing();
    try_polynomials();
    for (size_t i = 0; i < cases; i++)
        compare_published(&published[i]);
    if (failures == 0)
        printf("the logger answers as it should, %zu published cases among it\n", cases);
    return failures == 0 ? 0 : 1;
}
