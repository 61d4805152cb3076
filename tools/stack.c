/* stack TABLES REPLY: how many bytes of the stack stazzumpi_list_model takes on a model, behind its listing's first lines. The rest is
 * examples/c/listmodel.c; the call itself runs in a thread of its own whose stack is painted before. */
#include <pthread.h>
#include <stddef.h>
#include <stdint.h>
#include <stdio.h>
#include <string.h>
#include <sys/mman.h>

#include "stazzumpi.h"

#define STACK ((size_t)64 << 20)
#define PAINT 0xA5

/* What the call is lent. */
struct call {
    const struct stazzumpi_tables *tables;
    const uint64_t *nodes;
    size_t nodes_length;
    const uint8_t *text;
    size_t text_length;
    uint8_t *out;
    size_t out_length;
    uint64_t *told;
    uint64_t answer;
};

static void *run(void *lent) {
    struct call *c = lent;
    c->answer = stazzumpi_list_model_of(c->tables, c->nodes, c->nodes_length, c->text, c->text_length, c->out, c->out_length, c->told);
    return NULL;
}

/* A thread that does nothing, to see what a thread takes by itself. */
static void *rest(void *lent) {
    return lent;
}

static size_t taken(void *(*work)(void *), void *lent) {
    uint8_t *stack = mmap(NULL, STACK, PROT_READ | PROT_WRITE, MAP_PRIVATE | MAP_ANONYMOUS, -1, 0);
    pthread_attr_t how;
    pthread_t thread;
    size_t low = 0;
    memset(stack, PAINT, STACK);
    pthread_attr_init(&how);
    pthread_attr_setstack(&how, stack, STACK);
    pthread_create(&thread, &how, work, lent);
    pthread_join(thread, NULL);
    while (low < STACK && stack[low] == PAINT) low++;
    munmap(stack, STACK);
    return STACK - low;
}

static uint64_t painted(const struct stazzumpi_tables *tables, const uint64_t *nodes, size_t nodes_length, const uint8_t *text,
                        size_t text_length, uint8_t *out, size_t out_length, uint64_t *told) {
    struct call call = {tables, nodes, nodes_length, text, text_length, out, out_length, told, 0};
    size_t thread = taken(rest, NULL);
    fprintf(stderr, "%zu bytes of the stack in a room of %zu\n", taken(run, &call) - thread, out_length);
    return call.answer;
}

#define stazzumpi_list_model_of painted
#include "../examples/c/listmodel.c"
