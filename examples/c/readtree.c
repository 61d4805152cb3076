/* readtree FILE: the tree of one S-expression, a node a line, indented by its depth. */
#include <inttypes.h>

#include "files.h"
#include "stazzumpi.h"

/* What is lent to the reader, and the three numbers that it tells. */
struct lent {
    uint64_t *nodes, *stack;
    uint8_t *text;
    size_t node_words, text_bytes, entries;
    uint64_t told[3];
};

static void lend(struct lent *lent, size_t nodes, size_t text, size_t depth) {
    lent->node_words = nodes * STAZZUMPI_NODE_WORDS;
    lent->text_bytes = text;
    lent->entries = depth;
    lent->nodes = room(lent->node_words, sizeof *lent->nodes);
    lent->text = room(text, 1);
    lent->stack = room(depth, sizeof *lent->stack);
}

static void print_text(const struct lent *lent, const uint64_t *node, const char *quote) {
    printf("%s", quote);
    fwrite(lent->text + node[2], 1, (size_t)node[1], stdout);
    printf("%s\n", quote);
}

/* Nodes stand in the order their tokens begin, and a list says where it ends: no recursion is needed. */
static void print_nodes(const struct lent *lent) {
    uint64_t *ends = room((size_t)lent->told[2], sizeof *ends), open = 0, i;
    for (i = 0; i < lent->told[0]; i++) {
        const uint64_t *node = lent->nodes + STAZZUMPI_NODE_WORDS * i;
        while (open > 0 && ends[open - 1] == i) open--;
        printf("%*s", (int)(2 * open), "");
        switch (node[0]) {
        case STAZZUMPI_BitVec:
            printf("bit vector of width %" PRIu64 ", 0x%016" PRIx64 "%016" PRIx64 "\n", node[1], node[3], node[2]);
            break;
        case STAZZUMPI_Numeral:
            if (node[3] == 0)
                printf("numeral %" PRIu64 "\n", node[2]);
            else
                printf("numeral 0x%" PRIx64 "%016" PRIx64 "\n", node[3], node[2]);
            break;
        case STAZZUMPI_String:
            print_text(lent, node, "\"");
            break;
        case STAZZUMPI_Symbol:
            print_text(lent, node, "");
            break;
        default:
            printf("list of %" PRIu64 "\n", node[1]);
            ends[open++] = node[2];
        }
    }
    free(ends);
}

int main(int count, char **arguments) {
    struct lent lent;
    size_t length;
    uint8_t *input;
    uint64_t r;
    if (count != 2) {
        fputs("usage: readtree FILE\n", stderr);
        return 2;
    }
    input = whole_file(arguments[1], &length);
    lend(&lent, length, 2 * length, length); /* no input needs more */
    r = stazzumpi_parse_sexpr(input, length, lent.nodes, lent.node_words, lent.text, lent.text_bytes, lent.stack, lent.entries,
                              lent.told, 3);
    if (r == 0) {
        print_nodes(&lent);
        printf("nodes=%" PRIu64 " text=%" PRIu64 " depth=%" PRIu64 "\n", lent.told[0], lent.told[1], lent.told[2]);
    } else
        printf("refused=%d\ndetail=%" PRIu64 "\n", STAZZUMPI_NUMBER(r), STAZZUMPI_DETAIL(r));
    free(input);
    free(lent.nodes);
    free(lent.text);
    free(lent.stack);
    return r == 0 ? 0 : 1;
}
