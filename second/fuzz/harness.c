/*
 * Holds the archive's three calls to the second settlement's, on whatever libFuzzer makes up. A
 * month file is taken as it is: the same bytes, none written beyond them, and none at all where the
 * room is a byte too short. Bytes that start with `/` are a division and a check: how many bytes of
 * weights, of room and of amounts, the pot, and the two lists.
 */
#include <stddef.h>
#include <stdint.h>
#include <stdio.h>
#include <stdlib.h>
#include <string.h>

uint64_t noketualo_statement(const uint8_t *text, size_t text_len, uint8_t *out, size_t out_len);
uint64_t noketualo_divide(uint64_t pot, const uint8_t *weights, size_t weights_len,
                          uint8_t *amounts, size_t amounts_len);
uint64_t noketualo_check(uint64_t pot, const uint8_t *weights, size_t weights_len,
                         const uint8_t *amounts, size_t amounts_len);
uint64_t second_divide(uint64_t pot, const uint8_t *weights, size_t weights_len, uint8_t *amounts,
                       size_t amounts_len);
uint64_t second_check(uint64_t pot, const uint8_t *weights, size_t weights_len,
                      const uint8_t *amounts, size_t amounts_len);
size_t second_statement(const uint8_t *text, size_t text_len, uint8_t *out, size_t out_len);

/* More than any statement: 32 charges and 64 credits of no more than 100 bytes each. */
#define ROOMY 10000
#define UNTOUCHED 0xa5
#define ROOM 2u

static uint8_t expected[ROOMY];
static uint8_t out[ROOMY];

static void hold(int good, const char *what, uint64_t answer, size_t length) {
    if (!good) {
        uint64_t told = answer >> 8 < ROOMY ? answer >> 8 : ROOMY;
        fprintf(stderr, "%s: the archive answered %llu\n", what, (unsigned long long)answer);
        fprintf(stderr, "second:\n%.*s\n", (int)length, (const char *)expected);
        fprintf(stderr, "archive:\n%.*s\n", (int)told, (const char *)out);
        abort();
    }
}

static int untouched(size_t from) {
    for (size_t place = from; place < ROOMY; place++) {
        if (out[place] != UNTOUCHED) {
            return 0;
        }
    }
    return 1;
}

/* Divides and checks: 0 where the bytes are none of that. */
static int divides(const uint8_t *bytes, size_t length) {
    if (length < 15 || bytes[0] != '/') {
        return 0;
    }
    size_t weights_len = bytes[1] | (size_t)bytes[2] << 8;
    size_t room = bytes[3] | (size_t)bytes[4] << 8;
    size_t amounts_len = bytes[5] | (size_t)bytes[6] << 8;
    if (weights_len + amounts_len > length - 15 || room > ROOMY) {
        return 0;
    }
    uint64_t pot;
    memcpy(&pot, bytes + 7, 8);
    const uint8_t *weights = bytes + 15;
    const uint8_t *amounts = weights + weights_len;

    memset(expected, UNTOUCHED, ROOMY);
    memset(out, UNTOUCHED, ROOMY);
    uint64_t told = second_divide(pot, weights, weights_len, expected, room);
    uint64_t answer = noketualo_divide(pot, weights, weights_len, out, room);
    hold(answer == told, "another division", answer, 0);
    hold(memcmp(out, expected, ROOMY) == 0, "other amounts", answer, 0);

    answer = noketualo_check(pot, weights, weights_len, amounts, amounts_len);
    hold(answer == second_check(pot, weights, weights_len, amounts, amounts_len), "another check",
         answer, 0);
    return 1;
}

int LLVMFuzzerTestOneInput(const uint8_t *text, size_t text_len) {
    if (divides(text, text_len)) {
        return 0;
    }
    size_t length = second_statement(text, text_len, expected, ROOMY);
    if (length == 0 || length > ROOMY) {
        abort();
    }

    memset(out, UNTOUCHED, ROOMY);
    uint64_t answer = noketualo_statement(text, text_len, out, ROOMY);
    hold(answer == (uint64_t)length << 8, "another length", answer, length);
    hold(memcmp(out, expected, length) == 0, "other bytes", answer, length);
    hold(untouched(length), "bytes beyond the statement", answer, length);

    memset(out, UNTOUCHED, ROOMY);
    answer = noketualo_statement(text, text_len, out, length - 1);
    hold(answer == ROOM, "a room too short that isn't refused", answer, length);
    hold(untouched(0), "bytes in a room too short", answer, length);
    return 0;
}
