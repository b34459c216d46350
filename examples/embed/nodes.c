/*
 * Runs a script on nodes of the library, and prints what `card_switch replay` prints for it: nodes TABLES RANKS SCRIPT NODE... takes the three
 * texts as files, and the names of the nodes. This program carries the packets from one node to the next.
 */
#include "card_switch.h"

#include <inttypes.h>
#include <stdio.h>
#include <stdlib.h>
#include <string.h>

#define MOST_NODES 64
#define MOST_PACKETS 4096
#define MOST_TEXT 65536

struct text {
    size_t length;
    uint8_t bytes[MOST_TEXT];
};

/* A packet that was put on a link, by which node. */
struct packet {
    size_t from;
    size_t link;
    uint64_t serial;
    size_t length;
    uint8_t *bytes;
};

static struct text tables, ranks, script;
static const char *names[MOST_NODES];
static cs_node nodes[MOST_NODES];
static size_t node_count, packet_count;
static struct packet packets[MOST_PACKETS];

static void stop(const char *what, size_t line) {
    fprintf(stderr, "nodes: line %zu: %s\n", line, what);
    exit(2);
}

static void read_file(const char *path, struct text *text) {
    FILE *file = fopen(path, "rb");
    if (file == NULL)
        stop("a file can't be read", 0);
    text->length = fread(text->bytes, 1, MOST_TEXT - 1, file);
    fclose(file);
}

static size_t node_named(const char *name, size_t line) {
    for (size_t node = 0; node < node_count; node++)
        if (strcmp(names[node], name) == 0)
            return node;
    stop("no such node", line);
    return 0;
}

static size_t link_named(size_t node, const char *name, size_t line) {
    size_t link = 0;
    if (cs_node_link(&nodes[node], (const uint8_t *)name, strlen(name), &link) != CS_DONE)
        stop("no such link", line);
    return link;
}

/* The packet that the other end of the link put with this serial. */
static const struct packet *packet_of(size_t node, size_t link, uint64_t serial, size_t line) {
    for (size_t place = 0; place < packet_count; place++)
        if (packets[place].from != node && packets[place].link == link && packets[place].serial == serial)
            return &packets[place];
    stop("no such packet", line);
    return NULL;
}

static void keep_packet(size_t node, const cs_output *output, const uint8_t *bytes) {
    struct packet *packet = &packets[packet_count];
    if (packet_count == MOST_PACKETS || (packet->bytes = malloc(output->length + 1)) == NULL)
        stop("too many packets", 0);
    memcpy(packet->bytes, bytes, output->length);
    packet->from = node;
    packet->link = output->link;
    packet->serial = output->number;
    packet->length = output->length;
    packet_count++;
}

static void print_link(size_t node, size_t link) {
    uint8_t name[8];
    size_t length = 0;
    if (cs_node_link_name(&nodes[node], link, name, sizeof name, &length) != CS_DONE)
        stop("a link without a name", 0);
    printf("%.*s", (int)length, (const char *)name);
}

static void print_output(size_t node, const cs_output *output, const uint8_t *bytes) {
    switch (output->way) {
    case CS_PUT:
        printf("  put ");
        print_link(node, output->link);
        printf(" %" PRIu64 " ", output->number);
        keep_packet(node, output, bytes);
        break;
    case CS_ANSWER:
        printf("  answer ");
        break;
    case CS_ASK:
        printf("  ask %" PRIu64 " ", output->number);
        break;
    default:
        printf("  post ");
    }
    fwrite(bytes, 1, output->length, stdout);
    putchar('\n');
}

/* Tells a node an input, and prints its step. */
static void step(size_t node, cs_input input, const void *bytes, size_t length, size_t line) {
    static uint8_t message[CS_MOST_OUTPUT];
    cs_step made;
    uint8_t status = cs_node_step(&nodes[node], &input, bytes, length, &made);
    if (status != CS_DONE) {
        fprintf(stderr, "nodes: line %zu: status %u, refusal %u %u %u\n", line, status, made.refusal, made.message_fault, made.element);
        exit(2);
    }
    printf("%zu %s\n", line, names[node]);
    for (size_t place = 0; place < made.outputs; place++) {
        cs_output output;
        if (cs_node_output(&nodes[node], place, message, sizeof message, &output) != CS_DONE)
            stop("an output is missing", line);
        print_output(node, &output, message);
    }
}

/* Does what a line says: its first word, and up to three more words. */
static void run_line(char *text, size_t line) {
    char *rest = strchr(text, ' ');
    char first[16] = "", second[16] = "", third[16] = "";
    if (rest == NULL || sscanf(rest + 1, "%15s %15s %15s", first, second, third) < 1)
        stop("malformed", line);
    *rest++ = '\0';
    cs_input input = {0, 0, 0};
    if (strcmp(text, "enter") == 0) {
        input.kind = CS_ENTER;
        char *message = strchr(rest, ' ');
        if (message == NULL)
            stop("malformed", line);
        *message++ = '\0';
        step(node_named(rest, line), input, message, strlen(message), line);
    } else if (strcmp(text, "take") == 0) {
        size_t node = node_named(second, line);
        input = (cs_input){strtoull(third, NULL, 10), link_named(node, first, line), CS_TAKE};
        const struct packet *packet = packet_of(node, input.link, input.number, line);
        step(node, input, packet->bytes, packet->length, line);
    } else if (strcmp(text, "up") == 0 || strcmp(text, "down") == 0) {
        size_t node = node_named(second, line);
        input = (cs_input){0, link_named(node, first, line), text[0] == 'u' ? CS_LINK_UP : CS_LINK_DOWN};
        step(node, input, "", 0, line);
    } else if (strcmp(text, "tick") == 0) {
        input.kind = CS_TICK;
        step(node_named(first, line), input, "", 0, line);
    } else if (strcmp(text, "host") == 0) {
        input = (cs_input){strtoull(second, NULL, 10), 0, CS_HOST_ANSWER};
        step(node_named(first, line), input, third, strlen(third), line);
    } else if (strcmp(text, "date") == 0) {
        input.kind = CS_NEW_DATE;
        step(node_named(first, line), input, second, strlen(second), line);
    } else if (strcmp(text, "lend") == 0) {
        input.kind = CS_LEND;
        step(node_named(first, line), input, rest, strlen(rest), line);
    } else {
        stop("no such word", line);
    }
}

static void run_script(void) {
    size_t line = 1;
    char *text = (char *)script.bytes, *end;
    for (; (end = strchr(text, '\n')) != NULL; text = end + 1, line++) {
        *end = '\0';
        run_line(text, line);
    }
}

int main(int count, char **words) {
    if (count < 5 || count - 4 > MOST_NODES) {
        fputs("usage: nodes TABLES RANKS SCRIPT NODE...\n", stderr);
        return 2;
    }
    read_file(words[1], &tables);
    read_file(words[2], &ranks);
    read_file(words[3], &script);
    node_count = (size_t)count - 4;
    for (size_t node = 0; node < node_count; node++) {
        names[node] = words[node + 4];
        uint8_t status = cs_node_new(tables.bytes, tables.length, ranks.bytes, ranks.length, (const uint8_t *)names[node], strlen(names[node]), &nodes[node]);
        if (status != CS_DONE) {
            fprintf(stderr, "nodes: %s: status %u\n", names[node], status);
            return status;
        }
    }
    run_script();
    for (size_t node = 0; node < node_count; node++)
        cs_node_free(&nodes[node]);
    while (packet_count > 0)
        free(packets[--packet_count].bytes);
    return 0;
}
