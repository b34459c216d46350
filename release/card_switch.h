/*
 * card_switch.h: the jobs of the program card_switch, its codec of messages, and a node of a network, for programs in C and C++.
 *
 * What a function leaves is what the contract of its export says, where the caller keeps to what stands under "The caller's duties";
 * docs/GUARANTEES.md says which contracts are proved. docs/FORMATS.md has the formats of inputs, texts and messages.
 *
 * Link libcard_switch.a, which calls malloc, realloc and free:
 *
 *     cc -std=c11 -I release client.c release/libcard_switch.a -o client
 *
 * The caller's duties, which nothing checks:
 *
 *  - No pointer is null, also where a length is 0. What two pointers of a call point to doesn't overlap, unless both are to const.
 *  - A pointer before a length or a capacity points to so many bytes or elements. Nobody changes them during the call.
 *  - malloc, realloc and free come from one allocator, and align a block to each power of two up to 16 that divides its size.
 *  - No function is called from a signal handler, nor from the child of a process with threads before it has executed another program.
 *
 *  - A handle of a node begins as CS_NODE_EMPTY, and is changed by this library's functions alone: it isn't copied, and no two calls have one
 *    handle at the same time.
 *
 * The library starts no thread and takes no lock, and keeps nothing from one call to the next but what a node's handle holds. Any number of
 * threads may call it at once, each with buffers and handles of its own. A handle may go from one thread to another. All memory that a call asks
 * for is given back before it returns, but for a node's, which cs_node_free gives back.
 */
#ifndef CARD_SWITCH_H
#define CARD_SWITCH_H

#include <stdbool.h>
#include <stddef.h>
#include <stdint.h>

#ifdef __cplusplus
extern "C" {
#endif

/* What a function returns that returns a status. The first three are the exit statuses of the program. */
enum {
    /* The job is done. */
    CS_DONE = 0,
    /* The tables are refused, have a circle, or no ranks were found for them. */
    CS_REFUSED = 1,
    /* The input has a fault, or there was too little memory for it: the text is the line that says which. */
    CS_FAULT = 2,
    /* The caller's buffer or array is too small, and what it has to have is told. */
    CS_TOO_SMALL = 3,
    /* There was no memory. */
    CS_NO_MEMORY = 4,
    /* What a call names isn't there: a node, a link, an output, or an input that the node could take. */
    CS_UNKNOWN = 5,
    /* The handle holds no node. */
    CS_EMPTY = 6
};

/*
 * The jobs. Each takes the bytes that the program would read from standard input, and makes the text that the program would print. Where it
 * returns CS_DONE, CS_REFUSED or CS_FAULT, the text stands at the front of `output`, *output_length is the number of its bytes, and the bytes of
 * the buffer behind it are as they were. The text is ASCII but for bytes of the input that it repeats, and no zero byte ends it. CS_TOO_SMALL
 * leaves the buffer as it was and puts the number of bytes that the text has into *output_length, CS_NO_MEMORY leaves it as it was and puts 0.
 */

/* The most bytes of an input. A longer one gets CS_FAULT and the line "fault bundle 2 too long". */
#define CS_MOST_INPUT 16777216u

/* The verdict on tables and their ranks. The input has two parts, tables and ranks, with a line %% between them. */
uint8_t cs_check(const uint8_t *input, size_t input_length, uint8_t *output, size_t output_capacity, size_t *output_length);

/* Ranks for tables, or the circle for which there are none; or "gave up", where there was too little memory. The input has one part, tables. */
uint8_t cs_make(const uint8_t *input, size_t input_length, uint8_t *output, size_t output_capacity, size_t *output_length);

/* What the nodes of accepted tables put out for the lines of a script. The input has three parts: tables, ranks, a script. */
uint8_t cs_replay(const uint8_t *input, size_t input_length, uint8_t *output, size_t output_capacity, size_t *output_length);

/* The elements of ISO 8583:1987 messages: one message a line, or, with `frames`, each behind its length in two bytes, the higher one first. */
uint8_t cs_decode(bool frames, const uint8_t *input, size_t input_length, uint8_t *output, size_t output_capacity, size_t *output_length);

/*
 * Messages of ISO 8583:1987, one at a time. Reading asks for no memory and copies nothing.
 */

/* The most elements of a message. */
#define CS_MOST_ELEMENTS 127

/*
 * Where the value of an element stands in the bytes of its message: `length` bytes from the byte `start` on, behind the digits of its length.
 * Those of a binary element (52, 64 and 128) are the sixteen hexadecimal digits, in either case, of its eight bytes.
 */
typedef struct cs_element {
    size_t start;
    size_t length;
    uint8_t number;
} cs_element;

/* What is wrong with a message: the first fault in the order of its bytes. The numbers are those that the program prints. */
enum {
    /* The bytes end too early. */
    CS_FAULT_SHORT = 1,
    /* No message type stands at the front. */
    CS_FAULT_TYPE = 2,
    /* A byte of a bit map is no hexadecimal digit. */
    CS_FAULT_BIT_MAP = 3,
    /* The element is not in the table of elements. */
    CS_FAULT_ELEMENT = 4,
    /* The element's length is no number, or above the most. */
    CS_FAULT_LENGTH = 5,
    /* The element has a byte that isn't of its class. */
    CS_FAULT_CHARACTER = 6,
    /* Bytes stand behind the last element. */
    CS_FAULT_TRAILING = 7
};

/* What was read: how many elements the message has, or the number of its fault and that of the element that the fault names, 0 for none. */
typedef struct cs_reading {
    size_t count;
    uint8_t fault;
    uint8_t element;
} cs_reading;

/*
 * Reads a message. CS_DONE: the message is right, and its reading->count elements stand at the front of `elements`, in ascending order of number.
 * CS_FAULT: it is wrong, and reading->fault and reading->element say how. CS_TOO_SMALL: it is right, and has reading->count elements, which are
 * more than `elements_capacity`. After CS_FAULT and CS_TOO_SMALL anything may stand in `elements`. The first four bytes of a right message are
 * its type.
 */
uint8_t cs_message_read(const uint8_t *message, size_t message_length, cs_element *elements, size_t elements_capacity, cs_reading *reading);

/* Finds an element by its number among those of a message, and copies it to *element. Returns whether it is there; if not, *element stays. */
bool cs_message_get(const cs_element *elements, size_t elements_length, uint8_t number, cs_element *element);

/* What was written: how many bytes the message has, or the number of the fault and that of the element that it names, 0 for none. */
typedef struct cs_writing {
    size_t length;
    uint8_t fault;
    uint8_t element;
} cs_writing;

/*
 * Writes the message of a type, given as its four digits, and of elements whose values stand in `values`, spelled as cs_element says. Of two
 * elements with one number the later counts. CS_DONE: the message stands at the front of `output`, and has writing->length bytes: its elements in
 * ascending order, hexadecimal digits in capitals, and a second bit map only where an element above 64 is there. CS_FAULT: the type is none
 * (CS_FAULT_TYPE), or of the first element that is wrong the number isn't in the table of elements (CS_FAULT_ELEMENT), the length isn't one that it
 * takes or leads behind `values` (CS_FAULT_LENGTH), or a byte isn't of its class (CS_FAULT_CHARACTER). CS_TOO_SMALL: the message has
 * writing->length bytes. CS_NO_MEMORY: there was no memory to make it. Unless it is CS_DONE the buffer is as it was; behind the message it
 * always is.
 */
uint8_t cs_message_write(const uint8_t *type, size_t type_length, const uint8_t *values, size_t values_length, const cs_element *elements,
                         size_t elements_length, uint8_t *output, size_t output_capacity, cs_writing *writing);

/*
 * A node of a network: what comes to it is told by cs_node_step, and what it puts out is then asked for by cs_node_output, one output after the
 * other. The program that calls carries packets between nodes, tells of links and ticks, and asks the host.
 */

/* A handle of a node. What is in it is the library's alone. */
typedef struct cs_node {
    void *node;
} cs_node;

/* A handle that holds no node, to begin with: cs_node node = CS_NODE_EMPTY; */
#define CS_NODE_EMPTY { NULL }

/*
 * Makes the node of a name, of 1 to 8 letters and digits, in tables that are accepted with these ranks. The texts are those that cs_check takes,
 * without carriage returns. CS_DONE: *node holds it, and nothing came to it yet; what *node held before is freed. CS_REFUSED: the tables are
 * refused with these ranks. CS_FAULT: the tables or the ranks have a fault; cs_check says which. CS_UNKNOWN: the tables have no node of this name.
 * CS_NO_MEMORY: there was no memory. Unless it is CS_DONE, *node is as it was.
 */
uint8_t cs_node_new(const uint8_t *tables, size_t tables_length, const uint8_t *ranks, size_t ranks_length, const uint8_t *name, size_t name_length,
                    cs_node *node);

/* Frees a node with all its memory. The handle holds none afterwards; freeing it again does nothing. */
void cs_node_free(cs_node *node);

/* What comes to a node, and which bytes are told with it. */
enum {
    /* An acquirer enters a message: its bytes. */
    CS_ENTER = 1,
    /* A packet came by a link of the node, with its serial: the packet's bytes, as the node at the other end put it. */
    CS_TAKE = 2,
    /* A link of the node came up. */
    CS_LINK_UP = 3,
    /* A link of the node went down. */
    CS_LINK_DOWN = 4,
    /* A tick of the clock. */
    CS_TICK = 5,
    /* The host answers the ask of a number: the two characters of its response code. */
    CS_HOST_ANSWER = 6,
    /* The settlement date is another one from now on: its four digits, MMDD. */
    CS_NEW_DATE = 7,
    /* The node lends another a part of its limit for a card: the text "LENDER BORROWER CARD MMDD AMOUNT", as behind the word `lend` of a
       script. LENDER is the node's name. */
    CS_LEND = 8
};

/*
 * An input. `number` is the serial of CS_TAKE and the number of the ask of CS_HOST_ANSWER, and `link` the place of a link in the tables, from 0, of
 * CS_TAKE, CS_LINK_UP and CS_LINK_DOWN. Other inputs don't look at them.
 */
typedef struct cs_input {
    uint64_t number;
    size_t link;
    uint8_t kind;
} cs_input;

/* Why a node refuses an input. The numbers are those that the program prints. */
enum {
    /* The bytes are no message, and message_fault and element say how (CS_FAULT_SHORT and so on). */
    CS_REFUSAL_MESSAGE = 1,
    /* The acquirer isn't attached to the node. */
    CS_REFUSAL_ACQUIRER = 2,
    /* A required element is missing: `element`. */
    CS_REFUSAL_MISSING = 3,
    /* The message's type isn't for this input. */
    CS_REFUSAL_TYPE = 4,
    /* The host was never asked so. */
    CS_REFUSAL_ASK = 5,
    /* A partial reversal without a right actual amount. */
    CS_REFUSAL_REPLACEMENT = 6,
    /* The node has had 1,000,000 inputs, which is the most. */
    CS_REFUSAL_FULL = 7,
    /* There is no place for an advice, or for a lent amount. */
    CS_REFUSAL_NO_PLACE = 9,
    /* The amount may not be lent. */
    CS_REFUSAL_NOT_LENT = 10
};

/* What a step did: how many outputs it has; or the number of why it was refused, that of the message's fault and that of the element, 0 for none. */
typedef struct cs_step {
    size_t outputs;
    uint8_t refusal;
    uint8_t message_fault;
    uint8_t element;
} cs_step;

/*
 * Tells a node an input. CS_DONE: the node made its step, which has step->outputs outputs. CS_REFUSED: the node refuses the input, and *step says
 * why. CS_UNKNOWN: these numbers and bytes are no input of this node: the kind is none, the link isn't the node's, or the bytes are no code, date or
 * order. CS_NO_MEMORY: there was no memory; the same call may be tried again. CS_EMPTY: the handle holds no node. In these three cases all
 * numbers of *step are 0. Unless it is CS_DONE the node is as it was, and its newest step is still the one before.
 */
uint8_t cs_node_step(cs_node *node, const cs_input *input, const uint8_t *bytes, size_t bytes_length, cs_step *step);

/* Where an output goes. */
enum {
    /* A packet, to be carried over a link to its other end, where it is told as CS_TAKE with its serial. */
    CS_PUT = 1,
    /* The answer to the acquirer. */
    CS_ANSWER = 2,
    /* The host is asked, and its code is to be told as CS_HOST_ANSWER with the number of this ask. */
    CS_ASK = 3,
    /* A message for the host's books. */
    CS_POST = 4
};

/* An output: the serial of a packet or the number of an ask, else 0; the place of a packet's link in the tables, else 0; how many bytes it has. */
typedef struct cs_output {
    uint64_t number;
    size_t link;
    size_t length;
    uint8_t way;
} cs_output;

/* So many bytes have room for each output: no message has more than 13,218. */
#define CS_MOST_OUTPUT 13218

/*
 * Gives the output at a place, from 0, among those of the node's newest step, any number of times. CS_DONE: output->length bytes stand at the front of
 * `bytes`. CS_TOO_SMALL: the output has output->length bytes, which are more than `bytes_capacity`. CS_UNKNOWN: there are not so many outputs.
 * CS_EMPTY: the handle holds no node. In these two cases *output is as it was. Unless it is CS_DONE the buffer is as it was; behind the output it
 * always is.
 */
uint8_t cs_node_output(cs_node *node, size_t place, uint8_t *bytes, size_t bytes_capacity, cs_output *output);

/*
 * Finds a link of the tables by its name. CS_DONE: its place there, from 0, is in *link. CS_UNKNOWN: there is none. CS_EMPTY: the handle holds no node.
 * In these two cases *link is as it was.
 */
uint8_t cs_node_link(cs_node *node, const uint8_t *name, size_t name_length, size_t *link);

/*
 * Gives the name of the link at a place of the tables, 1 to 8 letters and digits; no zero byte ends it. CS_DONE: *name_length bytes stand at the front of
 * `name`. CS_TOO_SMALL: it has *name_length bytes. CS_UNKNOWN: there are not so many links. CS_EMPTY: the handle holds no node. In
 * these two cases *name_length is as it was. Unless it is CS_DONE the buffer is as it was; behind the name it always is.
 */
uint8_t cs_node_link_name(cs_node *node, size_t link, uint8_t *name, size_t name_capacity, size_t *name_length);

#ifdef __cplusplus
}
#endif

#endif
