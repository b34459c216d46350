/*
 * Shows each status of a node's calls: node_statuses TABLES RANKS takes the texts of examples/first, whose node A is the gate of an acquirer and
 * whose node H is the home of its cards, with the link AH between them. Prints nothing where each call answers what it should.
 */
#include "card_switch.h"

#include <stdio.h>
#include <stdlib.h>
#include <string.h>

#define REQUEST "01007220000100008000164111111111111111000000000000001000031409153000000106400001840"
#define OTHER_ACQUIRER "01007220000100008000164111111111111111000000000000001000031409153000000106400002840"

static uint8_t tables[65536], ranks[65536];
static size_t tables_length, ranks_length;
static int wrong;

static size_t read_file(const char *path, uint8_t *bytes) {
    FILE *file = fopen(path, "rb");
    if (file == NULL)
        exit(2);
    size_t length = fread(bytes, 1, 65536, file);
    fclose(file);
    return length;
}

#define WANTED(what) wanted(__LINE__, (what))

static void wanted(int line, bool holds) {
    if (!holds) {
        fprintf(stderr, "node_statuses: line %d: another answer\n", line);
        wrong = 1;
    }
}

static uint8_t make(const char *name, cs_node *node) {
    return cs_node_new(tables, tables_length, ranks, ranks_length, (const uint8_t *)name, strlen(name), node);
}

static uint8_t tell(cs_node *node, uint8_t kind, size_t link, uint64_t number, const char *bytes, cs_step *made) {
    cs_input input = {number, link, kind};
    return cs_node_step(node, &input, (const uint8_t *)bytes, strlen(bytes), made);
}

static bool is_refused(cs_node *node, uint8_t kind, uint64_t number, const char *bytes, uint8_t refusal, uint8_t message_fault, uint8_t element) {
    cs_step made;
    uint8_t status = tell(node, kind, 0, number, bytes, &made);
    return status == CS_REFUSED && made.outputs == 0 && made.refusal == refusal && made.message_fault == message_fault && made.element == element;
}

/* Whether a call answers so, and tells zeros alone. */
static bool tells_nothing(cs_node *node, uint8_t kind, size_t link, uint64_t number, const char *bytes, uint8_t wanted_status) {
    cs_step made = {1, 1, 1, 1};
    uint8_t status = tell(node, kind, link, number, bytes, &made);
    return status == wanted_status && made.outputs == 0 && made.refusal == 0 && made.message_fault == 0 && made.element == 0;
}

/* Whether a call that isn't done leaves the outputs of the step before. */
static bool still_puts(cs_node *node, uint64_t serial) {
    uint8_t bytes[CS_MOST_OUTPUT];
    cs_output output;
    return cs_node_output(node, 0, bytes, sizeof bytes, &output) == CS_DONE && output.way == CS_PUT && output.number == serial;
}

static void making(void) {
    cs_node node = CS_NODE_EMPTY;
    WANTED(make("B", &node) == CS_UNKNOWN && node.node == NULL);
    WANTED(make("", &node) == CS_UNKNOWN && node.node == NULL);
    WANTED(cs_node_new(tables, 7, ranks, ranks_length, (const uint8_t *)"A", 1, &node) == CS_FAULT && node.node == NULL);
    WANTED(cs_node_new(tables, tables_length, ranks, 3, (const uint8_t *)"A", 1, &node) == CS_FAULT && node.node == NULL);
    WANTED(cs_node_new(tables, tables_length, (const uint8_t *)"RANKS 1\nEND\n", 12, (const uint8_t *)"A", 1, &node) == CS_REFUSED && node.node == NULL);
    WANTED(make("A", &node) == CS_DONE && node.node != NULL);
    /* The node that stood there is freed. */
    WANTED(make("H", &node) == CS_DONE && node.node != NULL);
    WANTED(make("B", &node) == CS_UNKNOWN && node.node != NULL);
    cs_node_free(&node);
    WANTED(node.node == NULL);
    cs_node_free(&node);
}

static void no_node(void) {
    cs_node node = CS_NODE_EMPTY;
    cs_output output = {.length = 99};
    uint8_t bytes[16];
    size_t length = 99;
    WANTED(tells_nothing(&node, CS_TICK, 0, 0, "", CS_EMPTY));
    WANTED(cs_node_output(&node, 0, bytes, sizeof bytes, &output) == CS_EMPTY && output.length == 99);
    WANTED(cs_node_link(&node, (const uint8_t *)"AH", 2, &length) == CS_EMPTY && length == 99);
    WANTED(cs_node_link_name(&node, 0, bytes, sizeof bytes, &length) == CS_EMPTY && length == 99);
}

static void links(cs_node *node) {
    uint8_t name[8] = "........";
    size_t link = 99, length = 0;
    WANTED(cs_node_link(node, (const uint8_t *)"HA", 2, &link) == CS_UNKNOWN && link == 99);
    WANTED(cs_node_link(node, (const uint8_t *)"AH", 2, &link) == CS_DONE && link == 0);
    WANTED(cs_node_link_name(node, 0, name, 1, &length) == CS_TOO_SMALL && length == 2 && name[0] == '.');
    WANTED(cs_node_link_name(node, 0, name, 8, &length) == CS_DONE && length == 2 && memcmp(name, "AH......", 8) == 0);
    WANTED(cs_node_link_name(node, 1, name, 8, &length) == CS_UNKNOWN && length == 2);
}

static void inputs(cs_node *node) {
    uint8_t bytes[CS_MOST_OUTPUT];
    cs_step made;
    cs_output output = {.length = 99};
    WANTED(tell(node, CS_ENTER, 0, 0, REQUEST, &made) == CS_DONE && made.outputs == 1 && made.refusal == 0);
    WANTED(still_puts(node, 1));
    WANTED(cs_node_output(node, 1, bytes, sizeof bytes, &output) == CS_UNKNOWN && output.length == 99);
    bytes[0] = '.';
    WANTED(cs_node_output(node, 0, bytes, 20, &output) == CS_TOO_SMALL && output.length == 87 && bytes[0] == '.');
    WANTED(is_refused(node, CS_ENTER, 0, "0100", CS_REFUSAL_MESSAGE, CS_FAULT_SHORT, 0));
    WANTED(is_refused(node, CS_ENTER, 0, "0100722000010000800016411111111111111x000000000000001000031409153000000106400001840", CS_REFUSAL_MESSAGE, CS_FAULT_CHARACTER, 2));
    WANTED(is_refused(node, CS_ENTER, 0, OTHER_ACQUIRER, CS_REFUSAL_ACQUIRER, 0, 0));
    WANTED(is_refused(node, CS_HOST_ANSWER, 7, "00", CS_REFUSAL_ASK, 0, 0));
    WANTED(tells_nothing(node, 0, 0, 0, "", CS_UNKNOWN));
    WANTED(tells_nothing(node, 9, 0, 0, "", CS_UNKNOWN));
    WANTED(tells_nothing(node, CS_LINK_UP, 1, 0, "", CS_UNKNOWN));
    WANTED(tells_nothing(node, CS_HOST_ANSWER, 0, 1, "0", CS_UNKNOWN));
    WANTED(tells_nothing(node, CS_NEW_DATE, 0, 0, "03x5", CS_UNKNOWN));
    WANTED(tells_nothing(node, CS_LEND, 0, 0, "H A 4111111111111111 0314 100", CS_UNKNOWN));
    WANTED(is_refused(node, CS_LEND, 0, "A H 4111111111111111 0314 100", CS_REFUSAL_NOT_LENT, 0, 0));
    WANTED(still_puts(node, 1));
    WANTED(tell(node, CS_NEW_DATE, 0, 0, "0315", &made) == CS_DONE && made.outputs == 0);
    WANTED(cs_node_output(node, 0, bytes, sizeof bytes, &output) == CS_UNKNOWN);
}

int main(int count, char **words) {
    if (count != 3) {
        fputs("usage: node_statuses TABLES RANKS\n", stderr);
        return 2;
    }
    tables_length = read_file(words[1], tables);
    ranks_length = read_file(words[2], ranks);
    making();
    no_node();
    cs_node node = CS_NODE_EMPTY;
    WANTED(make("A", &node) == CS_DONE);
    links(&node);
    inputs(&node);
    cs_node_free(&node);
    /* A freed node is none. */
    WANTED(tells_nothing(&node, CS_TICK, 0, 0, "", CS_EMPTY));
    return wrong;
}
