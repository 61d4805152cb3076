/* listmodel [-v] TABLES REPLY: the listing of a solver's model over the tables, or with -v of its reply to get-value; or the number of
 * the refusal and its detail. */
#include <inttypes.h>
#include <string.h>

#include "files.h"
#include "stazzumpi.h"

/* Enough for the tables of any text. */
#define TABLE_WORDS (1024 * STAZZUMPI_ROW_WORDS)
#define FIELD_WORDS 32768

static uint64_t *lend_words(uint64_t *old, size_t *length, uint64_t count) {
    free(old);
    *length = (size_t)count;
    return room((size_t)count, sizeof *old);
}

static uint8_t *lend_bytes(uint8_t *old, size_t *length, uint64_t count) {
    free(old);
    *length = (size_t)count;
    return room((size_t)count, 1);
}

static struct stazzumpi_table_rooms table_rooms(void) {
    struct stazzumpi_table_rooms rooms = {0};
    rooms.sorts = lend_words(NULL, &rooms.sorts_length, TABLE_WORDS);
    rooms.fields = lend_words(NULL, &rooms.fields_length, FIELD_WORDS);
    rooms.variables = lend_words(NULL, &rooms.variables_length, TABLE_WORDS);
    rooms.functions = lend_words(NULL, &rooms.functions_length, TABLE_WORDS);
    rooms.members = lend_words(NULL, &rooms.members_length, TABLE_WORDS);
    return rooms;
}

/* Lends nothing at first, and then what a refusal says is needed. */
static uint64_t read_tree(const uint8_t *input, size_t length, struct stazzumpi_tree_rooms *rooms, struct stazzumpi_tree *tree) {
    for (;;) {
        uint64_t r = stazzumpi_parse_sexpr_in(input, length, rooms, tree);
        switch (STAZZUMPI_NUMBER(r)) {
        case STAZZUMPI_NodeRoom:
            rooms->nodes = lend_words(rooms->nodes, &rooms->nodes_length, STAZZUMPI_NODE_WORDS * STAZZUMPI_DETAIL(r));
            break;
        case STAZZUMPI_TextRoom:
            rooms->text = lend_bytes(rooms->text, &rooms->text_length, STAZZUMPI_DETAIL(r));
            break;
        case STAZZUMPI_DepthRoom:
            rooms->stack = lend_words(rooms->stack, &rooms->stack_length, STAZZUMPI_DETAIL(r));
            break;
        default:
            return r;
        }
    }
}

/* The same; the listing's length is told. */
static uint64_t list(int values, const struct stazzumpi_tables *tables, const struct stazzumpi_tree_rooms *rooms, uint8_t **out,
                     uint64_t *length) {
    size_t lent = 0;
    for (;;) {
        uint64_t r = (values ? stazzumpi_list_values_of : stazzumpi_list_model_of)(tables, rooms->nodes, rooms->nodes_length,
                                                                                    rooms->text, rooms->text_length, *out, lent, length);
        if (STAZZUMPI_NUMBER(r) != STAZZUMPI_OutRoom) return r;
        *out = lend_bytes(*out, &lent, STAZZUMPI_DETAIL(r));
    }
}

int main(int count, char **arguments) {
    struct stazzumpi_table_rooms rows;
    struct stazzumpi_tables tables = {0};
    struct stazzumpi_tree_rooms rooms = {0};
    struct stazzumpi_tree tree = {0};
    uint8_t *text, *reply, *out = NULL;
    size_t text_length, reply_length;
    uint64_t length, r;
    int values = count > 1 && strcmp(arguments[1], "-v") == 0;
    arguments += values;
    if (count != 3 + values) {
        fputs("usage: listmodel [-v] TABLES REPLY\n", stderr);
        return 2;
    }
    text = whole_file(arguments[1], &text_length);
    reply = whole_file(arguments[2], &reply_length);
    rows = table_rooms();
    r = stazzumpi_read_tables_in(text, text_length, &rows, &tables);
    if (r == 0) r = read_tree(reply, reply_length, &rooms, &tree);
    if (r == 0) r = list(values, &tables, &rooms, &out, &length);
    if (r == 0)
        fwrite(out, 1, (size_t)length, stdout);
    else
        printf("refused=%d\ndetail=%" PRIu64 "\n", STAZZUMPI_NUMBER(r), STAZZUMPI_DETAIL(r));
    free(rows.sorts);
    free(rows.fields);
    free(rows.variables);
    free(rows.functions);
    free(rows.members);
    free(rooms.nodes);
    free(rooms.stack);
    free(rooms.text);
    free(text);
    free(reply);
    free(out);
    return r == 0 ? 0 : 1;
}
