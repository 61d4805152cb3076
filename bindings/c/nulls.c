/* Calls every export with NULL wherever a length is 0, alone and by the structs, and looks at what it answers. */
#include <stdio.h>
#include <string.h>

#include "stazzumpi.h"

static int wrong = 0;

static void expect(const char *what, uint64_t got, int number, uint64_t detail) {
    if (STAZZUMPI_NUMBER(got) != number || STAZZUMPI_DETAIL(got) != detail) {
        printf("%s: %d and %llu, not %d and %llu\n", what, STAZZUMPI_NUMBER(got), (unsigned long long)STAZZUMPI_DETAIL(got), number,
               (unsigned long long)detail);
        wrong++;
    }
}

static void expect_words(const char *what, const uint64_t *got, const uint64_t *want, size_t count) {
    if (memcmp(got, want, count * sizeof *got) != 0) {
        printf("%s: other numbers are told\n", what);
        wrong++;
    }
}

static void expect_line(const char *what, uint64_t r, const uint8_t *out, uint64_t length, const char *want) {
    expect(what, r, 0, 0);
    if (length != strlen(want) || memcmp(out, want, strlen(want)) != 0) {
        printf("%s: another line\n", what);
        wrong++;
    }
}

/* Nothing at all is lent: what is told has no room. */
static void nothing(void) {
    expect("decode_string", stazzumpi_decode_string(NULL, 0, NULL, 0, NULL, 0), 26, 1);
    expect("parse_sexpr", stazzumpi_parse_sexpr(NULL, 0, NULL, 0, NULL, 0, NULL, 0, NULL, 0), 26, 3);
    expect("check_arena", stazzumpi_check_arena(NULL, 0, NULL, 0, NULL, 0), 26, 2);
    expect("check_tables", stazzumpi_check_tables(NULL, 0, NULL, 0, NULL, 0, NULL, 0, NULL, 0, NULL, 0), 0, 0);
    expect("read_tables", stazzumpi_read_tables(NULL, 0, NULL, 0, NULL, 0, NULL, 0, NULL, 0, NULL, 0, NULL, 0), 26, 5);
    expect("find_variable", stazzumpi_find_variable(NULL, 0, NULL, 0, NULL, 0, NULL, 0), 26, 2);
    expect("find_function", stazzumpi_find_function(NULL, 0, NULL, 0, NULL, 0, NULL, 0), 26, 2);
    expect("find_member", stazzumpi_find_member(NULL, 0, NULL, 0, NULL, 0, NULL, 0), 26, 2);
    expect("find_sort_name", stazzumpi_find_sort_name(NULL, 0, NULL, 0, NULL, 0, NULL, 0), 26, 2);
    expect("find_sort", stazzumpi_find_sort(NULL, 0, 1, 0, NULL, 0), 26, 2);
    expect("list_model", stazzumpi_list_model(NULL, 0, NULL, 0, NULL, 0, NULL, 0, NULL, 0, NULL, 0, NULL, 0, NULL, 0, NULL, 0, NULL, 0), 26,
           1);
    expect("list_values", stazzumpi_list_values(NULL, 0, NULL, 0, NULL, 0, NULL, 0, NULL, 0, NULL, 0, NULL, 0, NULL, 0, NULL, 0, NULL, 0), 26,
           1);
    expect("set_logic", stazzumpi_set_logic(NULL, 0, NULL, 0, NULL, 0), 26, 1);
    expect("set_option", stazzumpi_set_option(NULL, 0, NULL, 0, NULL, 0, NULL, 0), 26, 1);
    expect("comment", stazzumpi_comment(NULL, 0, NULL, 0, NULL, 0), 26, 1);
    expect("assert", stazzumpi_assert(NULL, 0, NULL, 0, NULL, 0), 26, 1);
    expect("define_fun", stazzumpi_define_fun(NULL, 0, NULL, 0, NULL, 0, NULL, 0, NULL, 0, NULL, 0, NULL, 0), 26, 1);
    expect("declare_const", stazzumpi_declare_const(NULL, 0, NULL, 0, NULL, 0, NULL, 0), 26, 1);
    expect("declare_fun", stazzumpi_declare_fun(NULL, 0, NULL, 0, NULL, 0, NULL, 0, NULL, 0, NULL, 0), 26, 1);
    expect("declare_datatype", stazzumpi_declare_datatype(NULL, 0, NULL, 0, NULL, 0, NULL, 0, NULL, 0, NULL, 0, NULL, 0), 26, 1);
    expect("check_sat", stazzumpi_check_sat(NULL, 0, NULL, 0), 26, 1);
    expect("get_model", stazzumpi_get_model(NULL, 0, NULL, 0), 26, 1);
    expect("reset", stazzumpi_reset(NULL, 0, NULL, 0), 26, 1);
    expect("exit", stazzumpi_exit(NULL, 0, NULL, 0), 26, 1);
}

/* Room for what is told, and nothing else. */
static void told_alone(void) {
    static const uint64_t zeros[5] = {0};
    uint64_t told[5] = {9, 9, 9, 9, 9};
    expect("decode_string", stazzumpi_decode_string(NULL, 0, NULL, 0, told, 1), 0, 0);
    expect_words("decode_string", told, zeros, 1);
    expect("parse_sexpr", stazzumpi_parse_sexpr(NULL, 0, NULL, 0, NULL, 0, NULL, 0, told, 3), 1, 0);
    expect("parse_sexpr", stazzumpi_parse_sexpr((const uint8_t *)"()", 2, NULL, 0, NULL, 0, NULL, 0, told, 3), 10, 1);
    expect("check_arena", stazzumpi_check_arena(NULL, 0, NULL, 0, told, 2), 27, 0);
    expect("read_tables", stazzumpi_read_tables(NULL, 0, NULL, 0, NULL, 0, NULL, 0, NULL, 0, NULL, 0, told, 5), 0, 0);
    expect_words("read_tables", told, zeros, 5);
    expect("find_variable", stazzumpi_find_variable(NULL, 0, NULL, 0, NULL, 0, told, 2), 0, 0);
    expect("find_function", stazzumpi_find_function(NULL, 0, NULL, 0, NULL, 0, told, 2), 0, 0);
    expect("find_member", stazzumpi_find_member(NULL, 0, NULL, 0, NULL, 0, told, 2), 0, 0);
    expect("find_sort_name", stazzumpi_find_sort_name(NULL, 0, NULL, 0, NULL, 0, told, 2), 0, 0);
    expect("find_sort", stazzumpi_find_sort(NULL, 0, 1, 0, told, 2), 0, 0);
    expect_words("find_sort", told, zeros, 2);
    expect("list_model", stazzumpi_list_model(NULL, 0, NULL, 0, NULL, 0, NULL, 0, NULL, 0, NULL, 0, NULL, 0, NULL, 0, NULL, 0, told, 1), 27,
           0);
    expect("list_values", stazzumpi_list_values(NULL, 0, NULL, 0, NULL, 0, NULL, 0, NULL, 0, NULL, 0, NULL, 0, NULL, 0, NULL, 0, told, 1), 27,
           0);
    expect("set_logic", stazzumpi_set_logic(NULL, 0, NULL, 0, told, 1), 26, 13);
    expect("exit", stazzumpi_exit(NULL, 0, told, 1), 26, 7);
}

/* Lines of empty parts. */
static void lines(void) {
    uint8_t out[64];
    uint64_t n = 0;
    const struct stazzumpi_parts none = {NULL, 0, NULL, 0};
    expect_line("set_logic", stazzumpi_set_logic(NULL, 0, out, 64, &n, 1), out, n, "(set-logic )\n");
    expect_line("set_option", stazzumpi_set_option(NULL, 0, NULL, 0, out, 64, &n, 1), out, n, "(set-option : )\n");
    expect_line("comment", stazzumpi_comment(NULL, 0, out, 64, &n, 1), out, n, "; \n");
    expect_line("assert", stazzumpi_assert(NULL, 0, out, 64, &n, 1), out, n, "(assert )\n");
    expect_line("define_fun", stazzumpi_define_fun_of(NULL, 0, &none, NULL, 0, NULL, 0, out, 64, &n), out, n, "(define-fun  ()  )\n");
    expect_line("declare_const", stazzumpi_declare_const(NULL, 0, NULL, 0, out, 64, &n, 1), out, n, "(declare-const  )\n");
    expect_line("declare_fun", stazzumpi_declare_fun_of(NULL, 0, &none, NULL, 0, out, 64, &n), out, n, "(declare-fun  () )\n");
    expect_line("declare_datatype", stazzumpi_declare_datatype_of(NULL, 0, &none, &none, out, 64, &n), out, n,
                "(declare-datatype  (\n  ))\n");
    expect_line("check_sat", stazzumpi_check_sat(out, 64, &n, 1), out, n, "(check-sat)\n");
    expect_line("get_model", stazzumpi_get_model(out, 64, &n, 1), out, n, "(get-model)\n");
    expect_line("reset", stazzumpi_reset(out, 64, &n, 1), out, n, "(reset)\n");
    expect_line("exit", stazzumpi_exit(out, 64, &n, 1), out, n, "(exit)\n");
}

/* Document 01's sample by the structs, the tables' fields and members being empty rooms. */
static void sample(void) {
    static const char text[] = "sort=bool\nsort=bitvec 8\nsort=option 1\nvar=x 2\nfun=f 1 0\n";
    static const char reply[] = "((define-fun x () (Option (_ BitVec 8)) (some #xfF)))";
    static const char listing[] = "vars=1\nfuns=0\nvar=x\nsort=2\nvalue=some(bv8:ff)\n";
    uint64_t sorts[15], variables[5], functions[5], nodes[64], stack[8], n = 0;
    uint8_t texts[64], out[64];
    struct stazzumpi_tables tables = {0};
    struct stazzumpi_tree tree = {0};
    struct stazzumpi_table_rooms rooms = {sorts, 15, NULL, 0, variables, 5, functions, 5, NULL, 0};
    struct stazzumpi_tree_rooms tree_rooms = {nodes, 64, texts, 64, stack, 8};
    expect("empty tables", stazzumpi_check_tables_of(&tables), 0, 0);
    expect("tables", stazzumpi_read_tables_in((const uint8_t *)text, sizeof text - 1, &rooms, &tables), 0, 0);
    expect("tables", stazzumpi_check_tables_of(&tables), 0, 0);
    expect("tree", stazzumpi_parse_sexpr_in((const uint8_t *)reply, sizeof reply - 1, &tree_rooms, &tree), 0, 0);
    expect("no room", stazzumpi_list_model_of(&tables, nodes, 4 * tree.nodes, texts, tree.text, NULL, 0, &n), 26, sizeof listing - 1);
    expect_line("listing", stazzumpi_list_model_of(&tables, nodes, 4 * tree.nodes, texts, tree.text, out, 64, &n), out, n, listing);
}

int main(void) {
    if (stazzumpi_version() != STAZZUMPI_VERSION) {
        printf("the library has another version than the header\n");
        wrong++;
    }
    nothing();
    told_alone();
    lines();
    sample();
    printf("%s\n", wrong ? "wrong" : "every call answers NULL where a length is 0");
    return wrong ? 1 : 0;
}
