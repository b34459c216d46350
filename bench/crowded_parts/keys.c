/* Prints traces and times of one acquirer whose keys' hashes have the same bits under a mask.
 *
 * usage: keys ACQUIRER COUNT MASK VALUE [OF]      (eleven digits; numbers)
 *
 * The hash is that of a HashMap. Each write is a multiplication to 128 bits whose halves are joined, and at last the halves of the state are
 * joined. A table has a place for the lowest bits, and a tag of the highest eight. OF is 0 for the key of a request (card_digits, Key): the
 * acquirer, the trace and the time are written; 1 for the identity of its reversal (message_keys, AdviceId): before that its kind, and behind
 * it the number and the bytes of its forwarder, which are zeros; 2 for the same among stored ones (advice_slots, ItemName): first that it is
 * an advice. */
#include <stdint.h>
#include <stdio.h>
#include <stdlib.h>
#include <string.h>

#define MULTIPLIER 0x9e3779b97f4a7c15u
#define TRACES 1000000

static uint64_t folded(uint64_t a, uint64_t b)
{
    unsigned __int128 product = (unsigned __int128)a * b;
    return (uint64_t)product ^ (uint64_t)(product >> 64);
}

static uint64_t word(const char *bytes)
{
    uint64_t read;
    memcpy(&read, bytes, 8);
    return read;
}

static uint64_t after_long(uint64_t state, const char *bytes, unsigned length)
{
    return folded(word(bytes) ^ (state + length), word(bytes + length - 8) ^ MULTIPLIER);
}

static uint64_t after_trace(uint64_t state, const char *trace)
{
    uint32_t low, high;
    memcpy(&low, trace, 4);
    memcpy(&high, trace + 2, 4);
    return folded(state ^ (low | (uint64_t)high << 32), MULTIPLIER ^ 12);
}

static uint64_t after_number(uint64_t state, uint64_t number)
{
    return folded(state ^ ((number & 0xffffffff) | number >> 32 << 32), MULTIPLIER ^ 16);
}

static uint64_t after_forwarder(uint64_t state)
{
    state = after_number(state, 11);
    for (int i = 0; i < 11; i++)
        state = folded(state ^ ('0' | '0' << 8 | '0' << 16), MULTIPLIER ^ 2);
    return state;
}

static void print_time(char *time, uint64_t second)
{
    unsigned day = 1 + second / 86400 % 28, month = 1 + second / 86400 / 28 % 12;
    unsigned hour = second / 3600 % 24, minute = second / 60 % 60;
    snprintf(time, 11, "%02u%02u%02u%02u%02u", month, day, hour, minute, (unsigned)(second % 60));
}

int main(int argc, char **argv)
{
    if (argc < 5 || strlen(argv[1]) != 11)
        return 2;
    uint64_t count = strtoull(argv[2], NULL, 0), mask = strtoull(argv[3], NULL, 0), value = strtoull(argv[4], NULL, 0);
    uint64_t *states = malloc(TRACES * sizeof *states), begin = 0x243f6a8885a308d3u;
    int of = argc > 5 ? atoi(argv[5]) : 0;
    if (of == 2)
        begin = after_number(begin, 0);
    if (of > 0)
        begin = after_number(begin, 1);
    uint64_t acquirer = after_long(begin, argv[1], 11);
    char trace[7], time[32];
    if (!states)
        return 1;
    for (unsigned number = 0; number < TRACES; number++) {
        snprintf(trace, sizeof trace, "%06u", number);
        states[number] = after_trace(acquirer, trace) + 10;
    }
    for (uint64_t second = 0; count > 0; second++) {
        print_time(time, second);
        uint64_t front = word(time), back = word(time + 2) ^ MULTIPLIER;
        for (unsigned number = 0; number < TRACES && count > 0; number++) {
            uint64_t hash = folded(front ^ states[number], back);
            if (of > 0)
                hash = after_forwarder(hash);
            if (((hash ^ hash >> 32) & mask) == value) {
                printf("%06u %s\n", number, time);
                count--;
            }
        }
    }
    return 0;
}
