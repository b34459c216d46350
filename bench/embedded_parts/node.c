/*
 * Steps nodes of the library over and over: requests that are answered, that wait beside others, that fail one by one and all at once, advices that
 * are sent again, ticks, a full history, and a late approval where no place is left. Prints what was done, and on standard error how long that took.
 * The argument is the number of requests.
 */
#include "card_switch.h"

#include <stdio.h>
#include <stdlib.h>
#include <string.h>
#include <time.h>

/* The link of requests that wait, and that of requests that fail at the next tick, by their places in the tables. */
#define SLOW 0
#define QUICK 2
/* A request that waits counts for two of the 65,536 places of a node. So many leave two for one more. */
#define MOST_PENDING 32767
#define MOST_STORED 65536
/* The most entries of a history. */
#define HISTORY 1000000

static const char tables[] =
    "[network]\ncurrency = \"840\"\ndate = \"0314\"\nhost_ticks = 100\nadvice_ticks = 100\n"
    "[[node]]\nname = \"A\"\nid = \"1001\"\n[[node]]\nname = \"H\"\nid = \"1002\"\n"
    "[[link]]\nname = \"SLOW\"\nends = [\"A\", \"H\"]\nticks = 4000\n"
    "[[link]]\nname = \"SPARE\"\nends = [\"A\", \"H\"]\nticks = 4000\n"
    "[[link]]\nname = \"QUICK\"\nends = [\"A\", \"H\"]\nticks = 1\n"
    "[[acquirer]]\nid = \"400001\"\nnode = \"A\"\n"
    "[[issuer]]\nname = \"I\"\nprefix = \"4\"\nhome = \"H\"\nnamed = []\nceiling = 0\n"
    "[[issuer]]\nname = \"J\"\nprefix = \"5\"\nhome = \"H\"\nnamed = []\nceiling = 0\n"
    "[[route]]\nnode = \"A\"\nprefix = \"4\"\nlinks = [\"SLOW\", \"SPARE\"]\n"
    "[[route]]\nnode = \"A\"\nprefix = \"5\"\nlinks = [\"QUICK\"]\n";

static const char ranks[] = "RANKS 1\nA 4 1\nH 4 0\nA 5 1\nH 5 0\nEND\n";

/* A message but for its trace number, which stands behind the head, and again behind the middle, where there is one. */
struct words {
    const char *head, *middle, *tail;
};

/* The request of a card that begins with 4, its answers with codes 00 and 05, the acquirer's reversal of it, and what acknowledges that. */
static const struct words request = {"010072200001000080001641111111111111110000000000000010000314091530", "", "06400001840"};
static const struct words approval = {"011072220001020080001641111111111111110000000000000010000314091530", "", "03140640000100840"};
static const struct words refusal = {"011072220001020080001641111111111111110000000000000010000314091530", "", "03140640000105840"};
static const struct words reversal = {"0400F22000010000800000000040000000001641111111111111110000000000000010000314091600", "064000018400100",
                                      "03140915300000040000100000000000"};
static const struct words posted = {"0430F22000010200800000000040000000001641111111111111110000000000000010000314091600", "06400001008400100",
                                    "03140915300000040000100000000000"};
/* The request of a card that begins with 5, and what acknowledges the node's own reversal of it. */
static const struct words quick = {"010072200001000080001655555555555544440000000000000010000314091530", "", "06400001840"};
static const struct words acknowledgement = {"0430F22200018200800000000040000000001655555555555544440000000000000010000314091530",
                                             "031406400001041001008400100", "03140915300000040000100000000000"};

static unsigned long steps, puts_made, answers;

static double seconds(void) {
    struct timespec now;
    clock_gettime(CLOCK_MONOTONIC, &now);
    return (double)now.tv_sec + (double)now.tv_nsec / 1e9;
}

static cs_node new_node(void) {
    cs_node node = CS_NODE_EMPTY;
    if (cs_node_new((const uint8_t *)tables, sizeof tables - 1, (const uint8_t *)ranks, sizeof ranks - 1, (const uint8_t *)"A", 1, &node) != CS_DONE)
        exit(1);
    return node;
}

/* Whether the node refuses the input, and how; 0 where it makes its step, whose outputs are counted. */
static int told(cs_node *node, cs_input input, const uint8_t *bytes, size_t length) {
    uint8_t message[1024];
    cs_step made;
    cs_output output;
    uint8_t status = cs_node_step(node, &input, bytes, length, &made);
    if (status == CS_REFUSED)
        return made.refusal;
    if (status != CS_DONE)
        exit(1);
    steps++;
    for (size_t place = 0; place < made.outputs; place++) {
        if (cs_node_output(node, place, message, sizeof message, &output) != CS_DONE)
            exit(1);
        puts_made += output.way == CS_PUT;
        answers += output.way == CS_ANSWER;
    }
    return 0;
}

static size_t add_trace(uint8_t *bytes, unsigned long trace) {
    for (size_t place = 6; place > 0; trace /= 10)
        bytes[--place] = (uint8_t)('0' + trace % 10);
    return 6;
}

static size_t add_text(uint8_t *bytes, const char *text) {
    memcpy(bytes, text, strlen(text));
    return strlen(text);
}

static int message(cs_node *node, cs_input input, const struct words *words, unsigned long trace) {
    uint8_t bytes[1024];
    size_t length = add_text(bytes, words->head);
    length += add_trace(bytes + length, trace);
    if (words->middle[0] != '\0') {
        length += add_text(bytes + length, words->middle);
        length += add_trace(bytes + length, trace);
    }
    length += add_text(bytes + length, words->tail);
    return told(node, input, bytes, length);
}

static void enter(cs_node *node, const struct words *words, unsigned long first, unsigned long count) {
    for (unsigned long trace = first; trace < first + count; trace++)
        if (message(node, (cs_input){0, 0, CS_ENTER}, words, trace) != 0)
            exit(1);
}

static int take(cs_node *node, size_t link, const struct words *words, unsigned long trace) {
    return message(node, (cs_input){trace, link, CS_TAKE}, words, trace);
}

static void tick(cs_node *node, unsigned long count) {
    for (unsigned long done = 0; done < count; done++)
        if (told(node, (cs_input){0, 0, CS_TICK}, (const uint8_t *)"", 0) != 0)
            exit(1);
}

static void print(const char *name, double begin) {
    double passed = seconds() - begin;
    printf("%s: %lu steps, %lu puts, %lu answers\n", name, steps, puts_made, answers);
    fprintf(stderr, "%s: %.0f us\n", name, 1e6 * passed);
    steps = puts_made = answers = 0;
}

/* Requests, each with its approval: two steps, a put and an answer for each. */
static void answer(cs_node *node, const char *name, unsigned long first, unsigned long requests) {
    double begin = seconds();
    for (unsigned long trace = first; trace < first + requests; trace++) {
        enter(node, &request, trace, 1);
        take(node, SLOW, &approval, trace);
    }
    print(name, begin);
}

static void ticks(cs_node *node, const char *name, unsigned long count) {
    double begin = seconds();
    tick(node, count);
    print(name, begin);
}

static void answered(cs_node *node, unsigned long requests) {
    answer(node, "answered", 0, requests);
}

/* As the link goes down, each request that waits is reversed by the spare link and answered 91: one step, a put and an answer for each. */
static void beside_pending(cs_node *node, unsigned long requests) {
    unsigned long pending = requests < MOST_PENDING ? requests : MOST_PENDING;
    double begin = seconds();
    enter(node, &request, 0, pending);
    print("pending", begin);
    answer(node, "answered beside pending", pending, requests);
    ticks(node, "ticks beside pending", 1000);
    begin = seconds();
    told(node, (cs_input){0, SLOW, CS_LINK_DOWN}, (const uint8_t *)"", 0);
    print("link down", begin);
}

/* Each request fails at the next tick, which puts its reversal and answers 91, and the reversal is acknowledged: an advice that stayed would be put again. */
static void failing_in_turn(cs_node *node, unsigned long requests) {
    double begin = seconds();
    for (unsigned long trace = 0; trace < requests; trace++) {
        enter(node, &quick, trace, 1);
        tick(node, 1);
        take(node, QUICK, &acknowledgement, trace);
    }
    print("failing in turn", begin);
}

static void failing_together(cs_node *node, unsigned long requests) {
    enter(node, &quick, 0, requests < MOST_PENDING ? requests : MOST_PENDING);
    steps = puts_made = answers = 0;
    ticks(node, "failing together", 1);
}

/* Up to the 99th tick no advice is due. Of the 201 ticks after it, all are due at the first, the 101st and the 201st. */
static void sent_again(cs_node *node, unsigned long requests) {
    double begin = seconds();
    enter(node, &reversal, 0, requests < MOST_STORED ? requests : MOST_STORED);
    print("advices", begin);
    ticks(node, "ticks beside advices", 99);
    ticks(node, "advices sent again", 201);
}

static void idle(cs_node *node, unsigned long requests) {
    ticks(node, "ticks", requests);
}

static void full(cs_node *node, unsigned long requests) {
    (void)requests;
    ticks(node, "ticks", HISTORY);
    printf("then refused: %d\n", told(node, (cs_input){0, 0, CS_TICK}, (const uint8_t *)"", 0));
}

/* A request is answered 05, and reversals take all places. Its approval, which comes late, finds a place once one reversal is acknowledged. */
static void late_at_full(cs_node *node, unsigned long requests) {
    (void)requests;
    double begin = seconds();
    enter(node, &request, 0, 1);
    take(node, SLOW, &refusal, 0);
    print("refused", begin);
    begin = seconds();
    enter(node, &reversal, 1, MOST_STORED);
    print("stored", begin);
    printf("then refused: %d\n", take(node, SLOW, &approval, 0));
    begin = seconds();
    take(node, SLOW, &posted, 1);
    take(node, SLOW, &approval, 0);
    print("with a place", begin);
}

int main(int count, char **words) {
    unsigned long requests = count == 2 ? strtoul(words[1], NULL, 10) : 1000;
    void (*const parts[])(cs_node *, unsigned long) = {answered, beside_pending, failing_in_turn, failing_together, sent_again, idle, full, late_at_full};
    for (size_t part = 0; part < sizeof parts / sizeof *parts; part++) {
        cs_node node = new_node();
        parts[part](&node, requests);
        cs_node_free(&node);
    }
    return 0;
}
