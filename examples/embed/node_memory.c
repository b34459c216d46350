/*
 * Has nodes make their steps again and again: `node_memory answered TABLES RANKS` takes the texts of examples/first and has a request answered by
 * its two nodes; `node_memory link_fails TABLES RANKS` takes those of examples/link_fails, and at their gate the link of a request goes down, which
 * the gate then reverses and approves by itself, and another request is answered by the other link. Each time another request of the library for
 * memory is refused, alone and then with all behind it. A call that finds no memory is made again once there is some. All outputs have to be those
 * with no request refused, and each block has to be given back. Prints how many requests were refused. Linked as refusing.h says.
 */
#include "card_switch.h"
#include "refusing.h"

#include <stdio.h>
#include <stdlib.h>
#include <string.h>

#define MOST_TEXT 65536
#define MOST_SAID 4096

static const char request[] = "01007220000100008000164111111111111111000000000000001000031409153000000106400001840";
static const char second_request[] = "01007220000100008000164111111111111111000000000000001000031409153000000206400001840";
static const char second_response[] = "01107222000102008000164111111111111111000000000000001000031409153000000203140640000100840";

static uint8_t tables[MOST_TEXT], ranks[MOST_TEXT];
static size_t tables_length, ranks_length;

/* All outputs of a run, one behind the other, and what they are with no request refused. */
struct said {
    uint8_t bytes[MOST_SAID];
    size_t length;
};

static struct said said, wanted;

static void fail(const char *what) {
    fprintf(stderr, "node_memory: %s with request %zu refused\n", what, refused_number);
    exit(1);
}

static size_t read_file(const char *path, uint8_t *bytes) {
    FILE *file = fopen(path, "rb");
    if (file == NULL)
        exit(2);
    size_t length = fread(bytes, 1, MOST_TEXT, file);
    fclose(file);
    return length;
}

/* Whether a call is to be made again: there is memory from then on. */
static bool again(uint8_t status) {
    if (status != CS_NO_MEMORY)
        return false;
    if (refused_number == 0)
        fail("no memory, though none was refused");
    refuses_later = false;
    return true;
}

static void make(const char *name, cs_node *node) {
    uint8_t status;
    do
        status = cs_node_new(tables, tables_length, ranks, ranks_length, (const uint8_t *)name, 1, node);
    while (again(status));
    if (status != CS_DONE)
        fail("a node isn't made");
}

/* Tells a node an input, and keeps its outputs. The last of them stays in `bytes`. Returns its length. */
static size_t tell(cs_node *node, cs_input input, const void *told, size_t told_length, uint8_t *bytes, size_t outputs) {
    cs_step made;
    cs_output output = {0, 0, 0, 0};
    uint8_t status;
    do
        status = cs_node_step(node, &input, told, told_length, &made);
    while (again(status));
    if (status != CS_DONE || made.outputs != outputs)
        fail("another step");
    for (size_t place = 0; place < made.outputs; place++) {
        if (cs_node_output(node, place, bytes, CS_MOST_OUTPUT, &output) != CS_DONE)
            fail("no output");
        if (said.length + output.length > MOST_SAID)
            fail("too many outputs");
        memcpy(said.bytes + said.length, bytes, output.length);
        said.length += output.length;
    }
    return output.length;
}

/* A request, its answer, a tick, and the same request again. */
static void answered(void) {
    static uint8_t bytes[CS_MOST_OUTPUT];
    cs_node gate = CS_NODE_EMPTY, home = CS_NODE_EMPTY;
    make("A", &gate);
    make("H", &home);
    size_t length = tell(&gate, (cs_input){0, 0, CS_ENTER}, request, sizeof request - 1, bytes, 1);
    tell(&home, (cs_input){1, 0, CS_TAKE}, bytes, length, bytes, 1);
    length = tell(&home, (cs_input){1, 0, CS_HOST_ANSWER}, "00", 2, bytes, 1);
    tell(&gate, (cs_input){1, 0, CS_TAKE}, bytes, length, bytes, 1);
    tell(&gate, (cs_input){0, 0, CS_TICK}, "", 0, bytes, 0);
    tell(&gate, (cs_input){0, 0, CS_ENTER}, request, sizeof request - 1, bytes, 1);
    cs_node_free(&gate);
    cs_node_free(&home);
}

/* A request, a tick, and its link down: three outputs. Then a request on the other link, and its answer. */
static void link_fails(void) {
    static uint8_t bytes[CS_MOST_OUTPUT];
    cs_node gate = CS_NODE_EMPTY;
    make("A", &gate);
    tell(&gate, (cs_input){0, 0, CS_ENTER}, request, sizeof request - 1, bytes, 1);
    tell(&gate, (cs_input){0, 0, CS_TICK}, "", 0, bytes, 0);
    tell(&gate, (cs_input){0, 0, CS_LINK_DOWN}, "", 0, bytes, 3);
    tell(&gate, (cs_input){0, 0, CS_ENTER}, second_request, sizeof second_request - 1, bytes, 1);
    tell(&gate, (cs_input){1, 1, CS_TAKE}, second_response, sizeof second_response - 1, bytes, 1);
    cs_node_free(&gate);
}

/* What the nodes do. */
static void (*steps)(void);

static void run(void) {
    said.length = 0;
    steps();
}

/* Runs with one request refused. Returns whether there was such a request. */
static bool refuse(size_t number, bool later) {
    requests = 0;
    blocks = 0;
    refused_number = number;
    refuses_later = later;
    run();
    if (blocks != 0)
        fail("a block is kept");
    if (said.length != wanted.length || memcmp(said.bytes, wanted.bytes, said.length) != 0)
        fail("another output");
    bool was_refused = requests >= number;
    refused_number = 0;
    refuses_later = false;
    return was_refused;
}

int main(int count, char **words) {
    if (count == 4 && strcmp(words[1], "answered") == 0)
        steps = answered;
    else if (count == 4 && strcmp(words[1], "link_fails") == 0)
        steps = link_fails;
    if (steps == NULL) {
        fputs("usage: node_memory answered|link_fails TABLES RANKS\n", stderr);
        return 2;
    }
    tables_length = read_file(words[2], tables);
    ranks_length = read_file(words[3], ranks);
    run();
    wanted = said;
    size_t number = 1;
    while (refuse(number, false) && refuse(number, true))
        number++;
    printf("%zu\n", number - 1);
    return 0;
}
