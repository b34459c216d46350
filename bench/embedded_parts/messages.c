/*
 * Reads two messages, of 83 and of 338 bytes, over and over by the library, and prints how many a second. The first argument is how often a
 * thousand of each are read; the elements that were found are counted, so that no read is left out.
 */
#include "card_switch.h"

#include <stdio.h>
#include <stdlib.h>
#include <string.h>
#include <time.h>

static const char request[] = "01007220000100008000164111111111111111000000000000001000031409153000000106400001840";

/* A reversal advice of 24 elements: its type, its number of elements, and the elements' numbers and values. */
static const struct {
    uint8_t number;
    const char *value;
} advice[] = {
    {2, "4111111111111111"},
    {3, "000000"},
    {4, "000000001000"},
    {5, "000000001000"},
    {7, "0314091530"},
    {11, "000001"},
    {12, "091530"},
    {13, "0314"},
    {14, "2912"},
    {15, "0314"},
    {18, "5411"},
    {22, "051"},
    {25, "00"},
    {32, "400001"},
    {33, "1001"},
    {35, "4111111111111111=29121010000000000000"},
    {37, "031409000001"},
    {39, "68"},
    {41, "TERM0001"},
    {42, "MERCHANT0000001"},
    {43, "GROCER                  TOWN          NL"},
    {48, "additional data of a private kind"},
    {49, "840"},
    {90, "010000000103140915300000040000100000000000"},
};

#define ADVICE_ELEMENTS (sizeof advice / sizeof advice[0])

/* Writes the advice, and returns how many bytes it has. */
static size_t write_advice(uint8_t *output, size_t capacity) {
    uint8_t values[1024];
    cs_element elements[ADVICE_ELEMENTS];
    size_t length = 0;
    for (size_t place = 0; place < ADVICE_ELEMENTS; place++) {
        size_t size = strlen(advice[place].value);
        memcpy(values + length, advice[place].value, size);
        elements[place] = (cs_element){.start = length, .length = size, .number = advice[place].number};
        length += size;
    }
    cs_writing writing;
    if (cs_message_write((const uint8_t *)"0420", 4, values, length, elements, ADVICE_ELEMENTS, output, capacity, &writing) != CS_DONE)
        exit(1);
    return writing.length;
}

static double seconds(void) {
    struct timespec now;
    clock_gettime(CLOCK_MONOTONIC, &now);
    return (double)now.tv_sec + (double)now.tv_nsec / 1e9;
}

static void measure(const uint8_t *message, size_t length, unsigned long rounds) {
    cs_element elements[CS_MOST_ELEMENTS];
    cs_reading reading;
    unsigned long found = 0;
    double begin = seconds();
    for (unsigned long round = 0; round < 1000 * rounds; round++) {
        if (cs_message_read(message, length, elements, CS_MOST_ELEMENTS, &reading) != CS_DONE)
            exit(1);
        found += reading.count;
    }
    double passed = seconds() - begin;
    printf("%zu bytes: %lu elements, %.1f million messages a second\n", length, found, (double)rounds / 1000 / passed);
}

int main(int count, char **words) {
    unsigned long rounds = count == 2 ? strtoul(words[1], NULL, 10) : 1000;
    uint8_t message[1024];
    size_t length = write_advice(message, sizeof message);
    measure((const uint8_t *)request, sizeof request - 1, rounds);
    measure(message, length, rounds);
    return 0;
}
