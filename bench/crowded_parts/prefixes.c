/* Prints prefixes of twelve digits, the first of which is 4, whose hashes have the same bits under a mask.
 *
 * usage: prefixes COUNT MASK VALUE [FRONT]      (FRONT: zero-ended text that is written before the prefix, for a rank's node)
 *
 * The hash is that of a HashMap over prefixes (card_digits, Prefix): their digits as numbers, in one write. */
#include <stdint.h>
#include <stdio.h>
#include <stdlib.h>
#include <string.h>

#define MULTIPLIER 0x9e3779b97f4a7c15u

static uint64_t folded(uint64_t a, uint64_t b)
{
    unsigned __int128 product = (unsigned __int128)a * b;
    return (uint64_t)product ^ (uint64_t)(product >> 64);
}

static uint64_t short_word(const unsigned char *bytes, unsigned length)
{
    if (length >= 4) {
        uint32_t low, high;
        memcpy(&low, bytes, 4);
        memcpy(&high, bytes + length - 4, 4);
        return low | (uint64_t)high << 32;
    }
    return length ? bytes[0] | (uint64_t)bytes[length / 2] << 8 | (uint64_t)bytes[length - 1] << 16 : 0;
}

int main(int argc, char **argv)
{
    if (argc < 4)
        return 2;
    uint64_t count = strtoull(argv[1], NULL, 0), mask = strtoull(argv[2], NULL, 0), value = strtoull(argv[3], NULL, 0);
    uint64_t begin = 0x243f6a8885a308d3u;
    if (argc > 4)
        begin = folded(begin ^ short_word((unsigned char *)argv[4], strlen(argv[4])), MULTIPLIER ^ 2 * strlen(argv[4]));
    unsigned char digits[12] = {4};
    while (count > 0 && digits[0] == 4) {
        uint64_t front, back;
        memcpy(&front, digits, 8);
        memcpy(&back, digits + 4, 8);
        uint64_t hash = folded(front ^ (begin + 12), back ^ MULTIPLIER);
        if (((hash ^ hash >> 32) & mask) == value) {
            for (int i = 0; i < 12; i++)
                putchar('0' + digits[i]);
            putchar('\n');
            count--;
        }
        int last = 11;
        while (++digits[last] == 10)
            digits[last--] = 0;
    }
    return 0;
}
