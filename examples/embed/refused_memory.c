/*
 * Does a job of card_switch on standard input again and again. Each time another request of the library for memory is refused, alone and then
 * with all behind it, until there is none left to refuse. Each call has to give back what it got, and to end as the header says. Prints how
 * many requests were refused.
 *
 * Linked as refusing.h says.
 */
#include "card_switch.h"
#include "refusing.h"

#include <stdio.h>
#include <stdlib.h>
#include <string.h>

#define CAPACITY 65536
#define BLANK 0x2e

static uint8_t input[65536], output[CAPACITY], wanted[CAPACITY];
static size_t input_length, wanted_length;
static uint8_t wanted_status;

static uint8_t run(const char *job, size_t *length) {
    memset(output, BLANK, CAPACITY);
    if (strcmp(job, "check") == 0)
        return cs_check(input, input_length, output, CAPACITY, length);
    if (strcmp(job, "make") == 0)
        return cs_make(input, input_length, output, CAPACITY, length);
    if (strcmp(job, "replay") == 0)
        return cs_replay(input, input_length, output, CAPACITY, length);
    return cs_decode(strcmp(job, "frames") == 0, input, input_length, output, CAPACITY, length);
}

static bool is_blank_from(size_t start) {
    for (size_t place = start; place < CAPACITY; place++)
        if (output[place] != BLANK)
            return false;
    return true;
}

/* Whether the text says that there was no memory. */
static bool names_memory(size_t length) {
    static const char word[] = "memory\n";
    for (size_t place = 0; place + sizeof word - 1 <= length; place++)
        if (memcmp(output + place, word, sizeof word - 1) == 0)
            return true;
    return false;
}

/* Whether the text says that no ranks were found in the memory that there was. */
static bool gave_up(size_t length) {
    static const char line[] = "gave up\n";
    return length == sizeof line - 1 && memcmp(output, line, length) == 0;
}

/* Whether a call ended as the header says, where memory may have been refused. */
static bool is_right(uint8_t status, size_t length) {
    if (status == CS_NO_MEMORY)
        return length == 0 && is_blank_from(0);
    if (!is_blank_from(length))
        return false;
    if (status == wanted_status && length == wanted_length && memcmp(output, wanted, length) == 0)
        return true;
    return (status == CS_FAULT && names_memory(length)) || (status == CS_REFUSED && gave_up(length));
}

/* Does the job with one request refused. Returns whether there was such a request, or ends the program where the call went wrong. */
static bool refuse(const char *job, size_t number, bool later) {
    size_t length = 0;
    requests = 0;
    blocks = 0;
    refused_number = number;
    refuses_later = later;
    uint8_t status = run(job, &length);
    bool was_refused = requests >= number;
    refused_number = 0;
    refuses_later = false;
    if (blocks != 0 || !is_right(status, length)) {
        fprintf(stderr, "refused_memory: %s with request %zu refused: status %d, %ld blocks kept\n", job, number, status, blocks);
        exit(1);
    }
    return was_refused;
}

int main(int count, char **words) {
    if (count != 2) {
        fputs("usage: refused_memory check|make|replay|lines|frames\n", stderr);
        return 2;
    }
    input_length = fread(input, 1, sizeof input, stdin);
    wanted_status = run(words[1], &wanted_length);
    memcpy(wanted, output, CAPACITY);
    size_t number = 1;
    while (refuse(words[1], number, false) && refuse(words[1], number, true))
        number++;
    printf("%zu\n", number - 1);
    return 0;
}
