/*
 * Both header checks on document 01's starred values, on every routing word and on many headers, beside long division
 * written out here. It ends with 0 if all are right. C99 and C++.
 * cc -std=c99 -I OUT examples/checks.c OUT/libplevandor_checks.a -o checks, with OUT from bin/library --checks OUT
 */
#include "plevandor_checks.h"

#include <stdio.h>

static unsigned long checks, wrong;

static void expect(const char *what, uint32_t of, unsigned is, unsigned should) {
    checks++;
    if (is != should) {
        wrong++;
        printf("%s of %08lX: %02X, should be %02X\n", what, (unsigned long)of, is, should);
    }
}

/* What is left of so many bits times x^width by x^width + low, struck out one by one from the highest. */
static unsigned divided(uint32_t message, unsigned bits, unsigned width, unsigned low) {
    uint64_t left = (uint64_t)message << width, divisor = ((uint64_t)1 << width) + low;
    while (bits-- > 0)
        if (left >> (bits + width) & 1)
            left ^= divisor << bits;
    return (unsigned)left;
}

static void header(uint32_t word) {
    expect("header check", word, plevandor_header_check(word), divided(word, 32, 8, 7) ^ 0x55);
}

/* "Check of 00 00 00 00 is 55", and the other starred ones; of a routing header the check is its low four bits. */
static void starred(void) {
    static const uint32_t headers[][2] = {
        {0x00000000, 0x55}, {0x00000001, 0x52}, {0x00500210, 0x2B}, {0x00900280, 0x5F}, {0x10500210, 0x4C}};
    static const uint16_t routings[] = {0x1050, 0x2038, 0x711D};
    unsigned i;
    for (i = 0; i < sizeof headers / sizeof headers[0]; i++)
        expect("header check", headers[i][0], plevandor_header_check(headers[i][0]), headers[i][1]);
    for (i = 0; i < sizeof routings / sizeof routings[0]; i++)
        expect("routing check", routings[i], plevandor_routing_check((uint16_t)(routings[i] >> 4)), routings[i] & 15u);
}

/* All 4,096 words, also with something above the 12 bits. */
static void routings(void) {
    uint32_t word;
    for (word = 0; word < 65536; word++)
        expect("routing check", word, plevandor_routing_check((uint16_t)word), divided(word % 4096, 12, 4, 3));
}

/* Every single and every two bits, and a million headers more. */
static void headers(void) {
    unsigned i, j;
    uint32_t word = 1;
    for (i = 0; i < 32; i++)
        for (j = 0; j <= i; j++)
            header((uint32_t)1 << i | (uint32_t)1 << j);
    for (i = 0; i < 1000000; i++) {
        word = word * 1664525u + 1013904223u;
        header(word);
    }
}

int main(void) {
    starred(), routings(), headers();
    printf("checks: %lu right, %lu wrong\n", checks - wrong, wrong);
    return wrong != 0;
}
