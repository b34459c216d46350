/* Prints card numbers of sixteen digits, the first of which is 4, whose hashes with a settlement date have the same bits under a mask.
 *
 * usage: cards DATE COUNT MASK VALUE      (four digits; numbers)
 *
 * The hash is that of a HashMap over cards and dates (book_index, CardDay): the digits of the card and those of the date, as numbers. */
#include <stdint.h>
#include <stdio.h>
#include <stdlib.h>
#include <string.h>

#define MULTIPLIER 0x9e3779b97f4a7c15u

static uint64_t folded(uint64_t a, uint64_t b)
{
    unsigned __int128 product = (unsigned __int128)a * b;
    return (uint64_t)product ^ (uint64_t)(product >> 64);
}

/* The last digit, by which the number is a good one. */
static unsigned char check_digit(const unsigned char *digits)
{
    unsigned sum = 0;
    for (int i = 0; i < 15; i++) {
        unsigned twice = digits[i] * 2;
        sum += i % 2 ? digits[i] : twice / 10 + twice % 10;
    }
    return (10 - sum % 10) % 10;
}

int main(int argc, char **argv)
{
    if (argc != 5 || strlen(argv[1]) != 4)
        return 2;
    uint64_t count = strtoull(argv[2], NULL, 0), mask = strtoull(argv[3], NULL, 0), value = strtoull(argv[4], NULL, 0);
    uint64_t date = 0;
    for (int i = 3; i >= 0; i--)
        date = date << 8 | (uint64_t)(argv[1][i] - '0');
    for (uint64_t number = 0; count > 0; number++) {
        unsigned char digits[16] = {4};
        uint64_t rest = number, front, back;
        for (int i = 14; rest > 0; i--, rest /= 10)
            digits[i] = rest % 10;
        digits[15] = check_digit(digits);
        memcpy(&front, digits, 8);
        memcpy(&back, digits + 8, 8);
        uint64_t hash = folded(front ^ (0x243f6a8885a308d3u + 16), back ^ MULTIPLIER);
        hash = folded(hash ^ (date | date << 32), MULTIPLIER ^ 8);
        if (((hash ^ hash >> 32) & mask) == value) {
            printf("4%014llu%u\n", (unsigned long long)number, digits[15]);
            count--;
        }
    }
    return 0;
}
