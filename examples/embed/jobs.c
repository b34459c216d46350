/* Does a job of card_switch on standard input by the library, and prints what the program would print, with its exit status. */
#include "card_switch.h"

#include <stdio.h>
#include <stdlib.h>
#include <string.h>

typedef uint8_t (*job)(const uint8_t *, size_t, uint8_t *, size_t, size_t *);

static uint8_t decode_lines(const uint8_t *input, size_t input_length, uint8_t *output, size_t capacity, size_t *length) {
    return cs_decode(false, input, input_length, output, capacity, length);
}

static uint8_t decode_frames(const uint8_t *input, size_t input_length, uint8_t *output, size_t capacity, size_t *length) {
    return cs_decode(true, input, input_length, output, capacity, length);
}

static job job_of(int count, char **words) {
    if (count == 2 && strcmp(words[1], "check") == 0)
        return cs_check;
    if (count == 2 && strcmp(words[1], "make") == 0)
        return cs_make;
    if (count == 2 && strcmp(words[1], "replay") == 0)
        return cs_replay;
    if (count == 2 && strcmp(words[1], "decode") == 0)
        return decode_lines;
    if (count == 3 && strcmp(words[1], "decode") == 0 && strcmp(words[2], "--frames") == 0)
        return decode_frames;
    return NULL;
}

/* Standard input, at most one byte more than the library takes. */
static uint8_t *read_input(size_t *length) {
    size_t most = (size_t)CS_MOST_INPUT + 1;
    uint8_t *input = malloc(most);
    *length = input ? fread(input, 1, most, stdin) : 0;
    return input;
}

/* Does a job with a buffer that grows once, to what the text wants. Returns the status, with the text where there is one. */
static uint8_t run(job does, const uint8_t *input, size_t input_length, uint8_t **text, size_t *length) {
    size_t capacity = 16;
    *text = malloc(capacity);
    if (*text == NULL)
        return CS_NO_MEMORY;
    uint8_t status = does(input, input_length, *text, capacity, length);
    if (status != CS_TOO_SMALL)
        return status;
    uint8_t *larger = realloc(*text, *length);
    if (larger == NULL)
        return CS_NO_MEMORY;
    *text = larger;
    return does(input, input_length, *text, *length, length);
}

int main(int count, char **words) {
    job does = job_of(count, words);
    if (does == NULL) {
        fputs("usage: jobs check|make|replay|decode [--frames]\n", stderr);
        return 2;
    }
    size_t input_length, length = 0;
    uint8_t *text = NULL;
    uint8_t *input = read_input(&input_length);
    uint8_t status = input ? run(does, input, input_length, &text, &length) : CS_NO_MEMORY;
    if (status == CS_NO_MEMORY)
        fputs("jobs: no memory\n", stderr);
    else
        fwrite(text, 1, length, stdout);
    free(text);
    free(input);
    return status;
}
