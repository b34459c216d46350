/*
 * Prints the elements of messages, one message a line of standard input, as 'card_switch decode' does, from where they stand in the line. With
 * the word 'again' it writes each message again, from its elements, and prints that.
 */
#include "card_switch.h"

#include <stdio.h>
#include <string.h>

/* The most bytes of a line; a longer one ends the program. */
#define MOST_LINE 65536

static const char *const faults[] = {"", "short", "type", "bit map", "element", "length", "character", "trailing"};

static void print_fault(const cs_reading *reading) {
    printf("fault message %d %s", reading->fault, faults[reading->fault]);
    if (reading->element != 0)
        printf(" %d", reading->element);
    putchar('\n');
}

/* Hexadecimal digits are printed as capitals. */
static void print_element(const uint8_t *message, const cs_element *element) {
    bool is_binary = element->number == 52 || element->number == 64 || element->number == 128;
    printf("%d ", element->number);
    for (size_t place = element->start; place < element->start + element->length; place++) {
        uint8_t byte = message[place];
        putchar(is_binary && byte >= 'a' && byte <= 'f' ? byte - 'a' + 'A' : byte);
    }
    putchar('\n');
}

/* Prints the canonical bytes of one message, and returns whether it is right. */
static bool print_again(unsigned long number, const uint8_t *message, size_t length) {
    static uint8_t again[MOST_LINE];
    cs_element elements[CS_MOST_ELEMENTS];
    cs_reading reading;
    cs_writing writing;
    (void)number;
    if (cs_message_read(message, length, elements, CS_MOST_ELEMENTS, &reading) != CS_DONE)
        return false;
    if (cs_message_write(message, 4, message, length, elements, reading.count, again, sizeof again, &writing) != CS_DONE)
        return false;
    fwrite(again, 1, writing.length, stdout);
    putchar('\n');
    return true;
}

/* Prints one message, and returns whether it is right. */
static bool print_message(unsigned long number, const uint8_t *message, size_t length) {
    cs_element elements[CS_MOST_ELEMENTS];
    cs_reading reading;
    uint8_t status = cs_message_read(message, length, elements, CS_MOST_ELEMENTS, &reading);
    printf("message %lu\n", number);
    if (status != CS_DONE) {
        print_fault(&reading);
        return false;
    }
    printf("type %.4s\n", (const char *)message);
    for (size_t place = 0; place < reading.count; place++)
        print_element(message, &elements[place]);
    return true;
}

int main(int count, char **words) {
    static uint8_t line[MOST_LINE];
    bool (*print)(unsigned long, const uint8_t *, size_t) = count == 2 && strcmp(words[1], "again") == 0 ? print_again : print_message;
    unsigned long number = 0;
    int status = 0, byte;
    size_t length = 0;
    while ((byte = getchar()) != EOF) {
        if (byte == '\n') {
            number++;
            if (!print(number, line, length))
                status = CS_FAULT;
            length = 0;
        } else if (length < MOST_LINE) {
            line[length++] = (uint8_t)byte;
        } else {
            return 1;
        }
    }
    return status;
}
