/* Stazzumpi: reading what an SMT solver answered, with proof.
 *
 * Link with libstazzumpi.a, which `make library` writes for 64-bit Linux on x86-64 or Arm. It takes no memory of its own but the
 * stack, keeps nothing between calls, and may be called from several threads, each with its own buffers.
 *
 * Every call answers one 64-bit number: 0 where it accepts, else a refusal, whose number is STAZZUMPI_NUMBER(r) and whose detail is
 * STAZZUMPI_DETAIL(r): the exact need for 10, 11, 12 and 26, else 0. A caller may look at the need, lend that much, and call again.
 *
 * What an acceptance yields is put at the front of `told`; later words of `told` stay as they were. Each call says how many words
 * that takes (a call that yields nothing has no `told`); a shorter `told` is refused by 26 with that many as its detail, before
 * anything else is looked at. A refusal changes nothing that was lent. What else a buffer holds after an acceptance stands at each
 * call; every byte not named stays as it was.
 *
 * What the caller owes:
 *   - each pointer is valid for as many elements as the length after it says, and stays so during the call;
 *   - pointers to uint64_t are aligned as that type is (a pointer whose length is 0 may be NULL, or any other);
 *   - a buffer that may be written (a pointer that is not const) overlaps no other memory of the same call, and nothing else uses
 *     it during the call.
 * Nothing else is asked: all bytes, words and lengths are answered.
 */
#ifndef STAZZUMPI_H
#define STAZZUMPI_H

#include <stddef.h>
#include <stdint.h>

#ifdef __cplusplus
extern "C" {
#endif

/* The version of these calls, major, minor and patch, and that of the library that is linked: as long as both have the same major
 * number, and while that is 0 the same minor number too, what is said here holds of what is linked. */
#define STAZZUMPI_VERSION_MAJOR 0
#define STAZZUMPI_VERSION_MINOR 3
#define STAZZUMPI_VERSION_PATCH 0
#define STAZZUMPI_VERSION (STAZZUMPI_VERSION_MAJOR * 65536 + STAZZUMPI_VERSION_MINOR * 256 + STAZZUMPI_VERSION_PATCH)
uint64_t stazzumpi_version(void);

/* The refusals, by their numbers (docs/REFUSALS.md says what to do about each). */
enum stazzumpi_refusal {
    STAZZUMPI_UnexpectedEnd = 1,
    STAZZUMPI_Utf8Error = 2,
    STAZZUMPI_StringParseError = 3,
    STAZZUMPI_ParseIntError = 4,
    STAZZUMPI_UnclosedSExpr = 5,
    STAZZUMPI_TrailingTokens = 6,
    STAZZUMPI_IntegerOverflow = 7,
    STAZZUMPI_ZeroWidthBitVec = 8,
    STAZZUMPI_InputTooLong = 9,
    STAZZUMPI_NodeRoom = 10,  /* detail: how many nodes */
    STAZZUMPI_TextRoom = 11,  /* detail: how many bytes of text */
    STAZZUMPI_DepthRoom = 12, /* detail: how many entries of the stack */
    STAZZUMPI_UnexpectedModel = 13,
    STAZZUMPI_UnknownType = 14,
    STAZZUMPI_UnknownLiteral = 15,
    STAZZUMPI_UnmatchedType = 16,
    STAZZUMPI_UnmatchedFieldType = 17,
    STAZZUMPI_UnmatchedRecordType = 18,
    STAZZUMPI_InvalidOptionType = 19,
    STAZZUMPI_InvalidSetType = 20,
    STAZZUMPI_UnexpectedForm = 21,
    STAZZUMPI_NotCovered = 22,
    STAZZUMPI_NoSortRow = 23,
    STAZZUMPI_TooNested = 24,
    STAZZUMPI_BadTable = 25,
    STAZZUMPI_OutRoom = 26,   /* detail: how many bytes of output, words of a table, or words of `told` */
    STAZZUMPI_BadArena = 27,
    STAZZUMPI_SetUnionNonLiterals = 28
};

/* The refusal's number, 1 to 28, or 0; and its detail. */
#define STAZZUMPI_NUMBER(r) ((int)((uint64_t)(r) & 255))
#define STAZZUMPI_DETAIL(r) ((uint64_t)(r) >> 8)

/* The words of a node in the arena that stazzumpi_parse_sexpr writes: word 0 is the kind, words 1 to 3 by the kind.
 *   BitVec   width, low word, high word of its number, sign-extended to 128 bits
 *   Numeral  0, low word, high word
 *   String   length, text offset, 0
 *   Symbol   length, text offset, 0
 *   App      children, the node after its last descendant, 0
 * Nodes stand in the order their tokens begin; the first child of the node i is the node i + 1. */
#define STAZZUMPI_NODE_WORDS 4
enum stazzumpi_kind {
    STAZZUMPI_BitVec = 1,
    STAZZUMPI_Numeral = 2,
    STAZZUMPI_String = 3,
    STAZZUMPI_Symbol = 4,
    STAZZUMPI_App = 5
};

/* The text of what stands between the quotes of a string literal, at the front of `out`.
 * Tells 1 word: the length of the text. Refusals: 26 (told), 9, 3, 11. */
uint64_t stazzumpi_decode_string(const uint8_t *s, size_t s_length, uint8_t *out, size_t out_length, uint64_t *told,
                                 size_t told_length);

/* The tree of one S-expression: its nodes and its text at the front of `nodes` and `text`. As many first entries of `stack` are
 * zeroed as the tree has open brackets. All lengths count elements; four words of `nodes` are a node.
 * An input of n bytes needs at most n nodes, 2 n bytes of text and n entries of the stack.
 * Tells 3 words: nodes, text bytes, open brackets. Refusals: 26 (told), 9, 1 to 6 by the input, 10, 11, 12. */
uint64_t stazzumpi_parse_sexpr(const uint8_t *input, size_t input_length, uint64_t *nodes, size_t nodes_length, uint8_t *text,
                               size_t text_length, uint64_t *stack, size_t stack_length, uint64_t *told, size_t told_length);

/* Whether words and a text start with the arena of a tree, whoever wrote them.
 * Tells 2 words: how many nodes and text bytes the tree takes. Refusals: 26 (told), 27. */
uint64_t stazzumpi_check_arena(const uint64_t *words, size_t words_length, const uint8_t *text, size_t text_length,
                               uint64_t *told, size_t told_length);

/* Whether tables break no rule of document 01. A row has five words in each table; names and texts are ranges of `names`.
 *   words 0 and 1  where the row's name begins in `names`, and its length (a sort's: kinds 9 and 10 alone)
 *   sorts          2: the kind, 1 bool, 2 string, 3 decimal, 4 datetime, 5 duration, 6 bitvec, 7 option, 8 set, 9 entity,
 *                  10 record; 3: the width of 6, the row of 7 and 8; 3 and 4: where the fields of 10 begin in `fields`, and
 *                  how many they are
 *   variables      2: the row of its sort
 *   functions      2 and 3: the rows of its argument's and its result's sort
 *   members        2: the row of its entity; 3 and 4: where its text begins in `names`, and its length
 * Words that a row does not need are not looked at. Tells nothing. Refusal: 25. */
#define STAZZUMPI_ROW_WORDS 5
uint64_t stazzumpi_check_tables(const uint64_t *sorts, size_t sorts_length, const uint64_t *fields, size_t fields_length,
                                const uint64_t *variables, size_t variables_length, const uint64_t *functions,
                                size_t functions_length, const uint64_t *members, size_t members_length, const uint8_t *names,
                                size_t names_length);

/* The text form of tables, a line a row, each ended by 0A, in this order of kinds:
 *   sort=bool      (or string, decimal, datetime, duration)
 *   sort=bitvec 8
 *   sort=option 1  (or set)
 *   sort=entity NAME
 *   sort=record NAME ROW ROW ..
 *   var=NAME ROW
 *   fun=NAME ROW ROW
 *   enum=NAME ROW TEXT
 * Each table's rows, as above, are put at the front of its buffer, and so are the fields. Names and texts are ranges of `text`
 * itself, which is the `names` of the other calls. Lengths count elements. 5,120 words for each table and 32,768 for the fields are
 * enough for any text. The call takes some 430,000 bytes of the stack.
 * Tells 5 words: how many words sorts, fields, variables, functions and members have. Refusals: 26 (told); 9 for more than 65,536
 * bytes; 25 for a text that is not the text form of tables that break no rule; 26 for the first buffer, in the order of the
 * arguments, that is too short, with the words that it needs. */
uint64_t stazzumpi_read_tables(const uint8_t *text, size_t text_length, uint64_t *sorts, size_t sorts_length, uint64_t *fields,
                               size_t fields_length, uint64_t *variables, size_t variables_length, uint64_t *functions,
                               size_t functions_length, uint64_t *members, size_t members_length, uint64_t *told,
                               size_t told_length);

/* The lookups: the row of a name or a sort in one table.
 * Each tells 2 words: 1 and the number of the first row that has it, counted from 0, or 0 and 0 where no row has it; both are
 * acceptances. Where stazzumpi_check_tables accepts the tables, no other row has it. Names are compared byte by byte. Any words are
 * answered, checked or not: a row that is not whole is none, and a name that passes the end of `names` ends there.
 * Refusal: 26 (told). */
uint64_t stazzumpi_find_variable(const uint64_t *variables, size_t variables_length, const uint8_t *names, size_t names_length,
                                 const uint8_t *name, size_t name_length, uint64_t *told, size_t told_length);

uint64_t stazzumpi_find_function(const uint64_t *functions, size_t functions_length, const uint8_t *names, size_t names_length,
                                 const uint8_t *name, size_t name_length, uint64_t *told, size_t told_length);

uint64_t stazzumpi_find_member(const uint64_t *members, size_t members_length, const uint8_t *names, size_t names_length,
                               const uint8_t *name, size_t name_length, uint64_t *told, size_t told_length);

/* An entity's or a record's row. */
uint64_t stazzumpi_find_sort_name(const uint64_t *sorts, size_t sorts_length, const uint8_t *names, size_t names_length,
                                  const uint8_t *name, size_t name_length, uint64_t *told, size_t told_length);

/* The row of a sort without a name, by words 2 and 3 of such a row: the kind, 1 to 8, and the width of 6 or the row of 7 and 8 (for
 * 1 to 5 the number is not looked at). Any other kind has no row. */
uint64_t stazzumpi_find_sort(const uint64_t *sorts, size_t sorts_length, uint64_t kind, uint64_t number, uint64_t *told,
                             size_t told_length);

/* The listing of a model at the front of `out`: the variables and the functions of the tables that the tree defines, and what it
 * says of them, in the form of document 01. The tables are those of stazzumpi_check_tables, the tree stands at the front of `nodes`
 * and `text` as stazzumpi_parse_sexpr leaves it; both are checked first, whoever wrote them. The need for `out` counts members of a
 * set and arms of a function as often as they are written, the listing has each once; the bytes between the listing's end and the
 * need are zeroed. The call takes some 130,000 bytes of the stack and up to 1,000 more for each level that a value is nested, at
 * most 1,200,000.
 * Tells 1 word: the length of the listing. Refusals: 26 (told); 25; 27; 13 for a tree that is no list; that of the first command
 * that has one (4, 7, 8, 13 to 24, 28); 26 for `out`. */
uint64_t stazzumpi_list_model(const uint64_t *sorts, size_t sorts_length, const uint64_t *fields, size_t fields_length,
                              const uint64_t *variables, size_t variables_length, const uint64_t *functions,
                              size_t functions_length, const uint64_t *members, size_t members_length, const uint8_t *names,
                              size_t names_length, const uint64_t *nodes, size_t nodes_length, const uint8_t *text,
                              size_t text_length, uint8_t *out, size_t out_length, uint64_t *told, size_t told_length);

/* The listing of a reply to get-value, a list of pairs of a name and a value, as that of a model without functions. The value of a
 * name that is in the variable table has to be of the sort that the table gives it; a pair with any other name, a function's too, is
 * skipped and its value not read; a later pair replaces an earlier one, which is checked as well. Parameters, what is told and what
 * is left in `out` are those of stazzumpi_list_model, and it takes as much of the stack.
 * Refusals: 26 (told); 25; 27; 13 for a tree that is no list; that of the first pair that has one: 13 where it is no list of two or
 * its first no symbol, then those of a literal (4, 7, 8, 14 to 20, 22 to 24, 28), then 16 for another sort; 26 for `out`. */
uint64_t stazzumpi_list_values(const uint64_t *sorts, size_t sorts_length, const uint64_t *fields, size_t fields_length,
                               const uint64_t *variables, size_t variables_length, const uint64_t *functions,
                               size_t functions_length, const uint64_t *members, size_t members_length, const uint8_t *names,
                               size_t names_length, const uint64_t *nodes, size_t nodes_length, const uint8_t *text,
                               size_t text_length, uint8_t *out, size_t out_length, uint64_t *told, size_t told_length);

/* The lines of a script, each with its line feed at the front of `out`.
 * Each tells 1 word: the length of the line. Refusals: 26 (told); 9 for an input of more than 16,777,216 elements; 25 for ends that
 * fall or pass their string, or that are odd in count where they are pairs; 26 for `out`.
 * A list of texts is one string and the ends of its parts: `{2, 5}` over `abcde` is `ab` and `cde`. */
uint64_t stazzumpi_set_logic(const uint8_t *logic, size_t logic_length, uint8_t *out, size_t out_length, uint64_t *told,
                             size_t told_length);

uint64_t stazzumpi_set_option(const uint8_t *option, size_t option_length, const uint8_t *value, size_t value_length, uint8_t *out,
                              size_t out_length, uint64_t *told, size_t told_length);

/* The comment's line feeds become spaces. */
uint64_t stazzumpi_comment(const uint8_t *text, size_t text_length, uint8_t *out, size_t out_length, uint64_t *told,
                           size_t told_length);

uint64_t stazzumpi_assert(const uint8_t *term, size_t term_length, uint8_t *out, size_t out_length, uint64_t *told,
                          size_t told_length);

/* The arguments are pairs of a name and a sort, two ends each. */
uint64_t stazzumpi_define_fun(const uint8_t *name, size_t name_length, const uint8_t *string, size_t string_length,
                              const uint64_t *ends, size_t ends_length, const uint8_t *sort, size_t sort_length,
                              const uint8_t *body, size_t body_length, uint8_t *out, size_t out_length, uint64_t *told,
                              size_t told_length);

uint64_t stazzumpi_declare_const(const uint8_t *name, size_t name_length, const uint8_t *sort, size_t sort_length, uint8_t *out,
                                 size_t out_length, uint64_t *told, size_t told_length);

/* The arguments are sorts. */
uint64_t stazzumpi_declare_fun(const uint8_t *name, size_t name_length, const uint8_t *string, size_t string_length,
                               const uint64_t *ends, size_t ends_length, const uint8_t *sort, size_t sort_length, uint8_t *out,
                               size_t out_length, uint64_t *told, size_t told_length);

uint64_t stazzumpi_declare_datatype(const uint8_t *name, size_t name_length, const uint8_t *parameters, size_t parameters_length,
                                    const uint64_t *parameter_ends, size_t parameter_ends_length, const uint8_t *constructors,
                                    size_t constructors_length, const uint64_t *constructor_ends, size_t constructor_ends_length,
                                    uint8_t *out, size_t out_length, uint64_t *told, size_t told_length);

uint64_t stazzumpi_check_sat(uint8_t *out, size_t out_length, uint64_t *told, size_t told_length);

uint64_t stazzumpi_get_model(uint8_t *out, size_t out_length, uint64_t *told, size_t told_length);

uint64_t stazzumpi_reset(uint8_t *out, size_t out_length, uint64_t *told, size_t told_length);

uint64_t stazzumpi_exit(uint8_t *out, size_t out_length, uint64_t *told, size_t told_length);

/* The calls that take many slices once more, by structs. They only hand their parts on: answers, refusals and what each buffer holds
 * are those of the calls above. What is told goes into a struct, whole on acceptance and as it was on refusal. */

/* Tables, as the calls above take them. All zero, as `= {0}` makes them, they are empty tables. */
struct stazzumpi_tables {
    const uint64_t *sorts;
    size_t sorts_length;
    const uint64_t *fields;
    size_t fields_length;
    const uint64_t *variables;
    size_t variables_length;
    const uint64_t *functions;
    size_t functions_length;
    const uint64_t *members;
    size_t members_length;
    const uint8_t *names;
    size_t names_length;
};

/* Room for the tables of a text. */
struct stazzumpi_table_rooms {
    uint64_t *sorts;
    size_t sorts_length;
    uint64_t *fields;
    size_t fields_length;
    uint64_t *variables;
    size_t variables_length;
    uint64_t *functions;
    size_t functions_length;
    uint64_t *members;
    size_t members_length;
};

/* Room for a tree, and how much of it a tree took. */
struct stazzumpi_tree_rooms {
    uint64_t *nodes;
    size_t nodes_length;
    uint8_t *text;
    size_t text_length;
    uint64_t *stack;
    size_t stack_length;
};

struct stazzumpi_tree {
    uint64_t nodes;
    uint64_t text;
    uint64_t depth;
};

/* A list of texts: one string, and the ends of its parts. */
struct stazzumpi_parts {
    const uint8_t *string;
    size_t string_length;
    const uint64_t *ends;
    size_t ends_length;
};

/* stazzumpi_parse_sexpr. */
static inline uint64_t stazzumpi_parse_sexpr_in(const uint8_t *input, size_t input_length, const struct stazzumpi_tree_rooms *rooms,
                                                struct stazzumpi_tree *tree) {
    uint64_t told[3];
    uint64_t r = stazzumpi_parse_sexpr(input, input_length, rooms->nodes, rooms->nodes_length, rooms->text, rooms->text_length,
                                       rooms->stack, rooms->stack_length, told, 3);
    if (r == 0) {
        tree->nodes = told[0];
        tree->text = told[1];
        tree->depth = told[2];
    }
    return r;
}

/* stazzumpi_check_tables. */
static inline uint64_t stazzumpi_check_tables_of(const struct stazzumpi_tables *t) {
    return stazzumpi_check_tables(t->sorts, t->sorts_length, t->fields, t->fields_length, t->variables, t->variables_length,
                                  t->functions, t->functions_length, t->members, t->members_length, t->names, t->names_length);
}

/* stazzumpi_read_tables: on acceptance `tables` are those that were read, in the rooms and in `text`, which have to outlive them. */
static inline uint64_t stazzumpi_read_tables_in(const uint8_t *text, size_t text_length, const struct stazzumpi_table_rooms *rooms,
                                                struct stazzumpi_tables *tables) {
    uint64_t told[5];
    uint64_t r = stazzumpi_read_tables(text, text_length, rooms->sorts, rooms->sorts_length, rooms->fields, rooms->fields_length,
                                       rooms->variables, rooms->variables_length, rooms->functions, rooms->functions_length,
                                       rooms->members, rooms->members_length, told, 5);
    if (r == 0) {
        tables->sorts = rooms->sorts;
        tables->sorts_length = (size_t)told[0];
        tables->fields = rooms->fields;
        tables->fields_length = (size_t)told[1];
        tables->variables = rooms->variables;
        tables->variables_length = (size_t)told[2];
        tables->functions = rooms->functions;
        tables->functions_length = (size_t)told[3];
        tables->members = rooms->members;
        tables->members_length = (size_t)told[4];
        tables->names = text;
        tables->names_length = text_length;
    }
    return r;
}

/* stazzumpi_list_model: `nodes` and `text` hold the tree. */
static inline uint64_t stazzumpi_list_model_of(const struct stazzumpi_tables *t, const uint64_t *nodes, size_t nodes_length,
                                               const uint8_t *text, size_t text_length, uint8_t *out, size_t out_length,
                                               uint64_t *length) {
    return stazzumpi_list_model(t->sorts, t->sorts_length, t->fields, t->fields_length, t->variables, t->variables_length,
                                t->functions, t->functions_length, t->members, t->members_length, t->names, t->names_length, nodes,
                                nodes_length, text, text_length, out, out_length, length, 1);
}

/* stazzumpi_list_values, the same. */
static inline uint64_t stazzumpi_list_values_of(const struct stazzumpi_tables *t, const uint64_t *nodes, size_t nodes_length,
                                                const uint8_t *text, size_t text_length, uint8_t *out, size_t out_length,
                                                uint64_t *length) {
    return stazzumpi_list_values(t->sorts, t->sorts_length, t->fields, t->fields_length, t->variables, t->variables_length,
                                 t->functions, t->functions_length, t->members, t->members_length, t->names, t->names_length, nodes,
                                 nodes_length, text, text_length, out, out_length, length, 1);
}

/* stazzumpi_define_fun, stazzumpi_declare_fun, stazzumpi_declare_datatype. */
static inline uint64_t stazzumpi_define_fun_of(const uint8_t *name, size_t name_length, const struct stazzumpi_parts *arguments,
                                               const uint8_t *sort, size_t sort_length, const uint8_t *body, size_t body_length,
                                               uint8_t *out, size_t out_length, uint64_t *length) {
    return stazzumpi_define_fun(name, name_length, arguments->string, arguments->string_length, arguments->ends,
                                arguments->ends_length, sort, sort_length, body, body_length, out, out_length, length, 1);
}

static inline uint64_t stazzumpi_declare_fun_of(const uint8_t *name, size_t name_length, const struct stazzumpi_parts *arguments,
                                                const uint8_t *sort, size_t sort_length, uint8_t *out, size_t out_length,
                                                uint64_t *length) {
    return stazzumpi_declare_fun(name, name_length, arguments->string, arguments->string_length, arguments->ends,
                                 arguments->ends_length, sort, sort_length, out, out_length, length, 1);
}

static inline uint64_t stazzumpi_declare_datatype_of(const uint8_t *name, size_t name_length,
                                                     const struct stazzumpi_parts *parameters,
                                                     const struct stazzumpi_parts *constructors, uint8_t *out, size_t out_length,
                                                     uint64_t *length) {
    return stazzumpi_declare_datatype(name, name_length, parameters->string, parameters->string_length, parameters->ends,
                                      parameters->ends_length, constructors->string, constructors->string_length,
                                      constructors->ends, constructors->ends_length, out, out_length, length, 1);
}

#ifdef __cplusplus
}
#endif

#endif
