/* The limit beside which the bench sets the two readers: a plain C reader that trusts its input.
 * It looks at no room, no UTF-8 and no fault, so it is for well-formed input that a byte 0 follows and for buffers that are large
 * enough. What it leaves is document 01's arena: the same words, text and three numbers as the library's, which the bench checks. */
#include <stdint.h>
#include <string.h>

typedef unsigned __int128 pair;

enum { BITVEC = 1, NUMERAL, STRING, SYMBOL, APP };
enum { PLAIN, DIGIT, SPACE, OPEN, CLOSE, QUOTE, HASH, COMMENT, END };

static const uint8_t class_of[256] = {
    [0] = END, ['\t'] = SPACE, ['\n'] = SPACE, ['\f'] = SPACE, ['\r'] = SPACE, [' '] = SPACE, ['('] = OPEN, [')'] = CLOSE,
    ['"'] = QUOTE, ['#'] = HASH, [';'] = COMMENT, ['0'] = DIGIT, ['1'] = DIGIT, ['2'] = DIGIT, ['3'] = DIGIT, ['4'] = DIGIT,
    ['5'] = DIGIT, ['6'] = DIGIT, ['7'] = DIGIT, ['8'] = DIGIT, ['9'] = DIGIT,
};

/* What is being read and written. */
struct at {
    const uint8_t *in;
    uint64_t *node;
    uint8_t *text;
};

/* A hexadecimal digit's value; another byte's is 16 or more. */
static inline uint32_t digit(uint32_t c) {
    if (c - '0' < 10) return c - '0';
    return (c | 32) - 'a' < 6 ? (c | 32) - 'a' + 10 : 16;
}

static inline void put(struct at *at, uint64_t kind, uint64_t first, uint64_t second, uint64_t third) {
    at->node[0] = kind;
    at->node[1] = first;
    at->node[2] = second;
    at->node[3] = third;
    at->node += 4;
}

static uint8_t *encode(uint8_t *t, uint32_t c) {
    if (c < 0x80) {
        *t++ = c;
        return t;
    }
    if (c < 0x800) *t++ = 0xC0 | c >> 6;
    else if (c < 0x10000) *t++ = 0xE0 | c >> 12;
    else {
        *t++ = 0xF0 | c >> 18;
        *t++ = 0x80 | (c >> 12 & 63);
    }
    if (0x800 <= c) *t++ = 0x80 | (c >> 6 & 63);
    *t++ = 0x80 | (c & 63);
    return t;
}

/* What follows a backslash: an escape's code point, or nothing that counts, and the backslash stands for itself. */
static void escape(struct at *at) {
    int braces = at->in[0] == 'u' && at->in[1] == '{';
    const uint8_t *start = at->in + 1 + braces, *p = start;
    uint32_t c = 0;
    if (at->in[0] == 'u')
        for (; digit(*p) < 16 && p - start < (braces ? 6 : 4); p++) c = c << 4 | digit(*p);
    if (braces ? p != start && *p == '}' && c <= 0x2FFFF : p - start == 4) {
        at->text = encode(at->text, c);
        at->in = p + braces;
    } else *at->text++ = '\\';
}

/* The loops below hold the two places in locals, which no store through a byte pointer can be taken to change. */

static inline void string(struct at *at, const uint8_t *text) {
    const uint8_t *p = at->in + 1;
    uint8_t *from = at->text, *t = from;
    for (;;) {
        uint8_t c = *p++;
        if (c == '"') {
            if (*p != '"') break;
            *t++ = '"';
            p++;
        } else if (c == '\\') {
            at->in = p;
            at->text = t;
            escape(at);
            p = at->in;
            t = at->text;
        } else if (c < 0x80) *t++ = c;
        else t = encode(t, c);
    }
    at->in = p;
    at->text = t;
    put(at, STRING, t - from, from - text, 0);
}

static inline void vector(struct at *at) {
    unsigned bits = at->in[1] == 'b' ? 1 : 4;
    const uint8_t *from = at->in + 2, *p = from;
    pair number = 0;
    for (; digit(*p) < 1u << bits; p++) number = number << bits | digit(*p);
    uint64_t width = (p - from) * bits;
    if (width < 128 && number >> (width - 1)) number |= ~(pair)0 << width;
    at->in = p;
    put(at, BITVEC, width, number, number >> 64);
}

static inline void numeral(struct at *at) {
    const uint8_t *p = at->in;
    pair number = 0;
    do number = number * 10 + (*p++ - '0');
    while (class_of[*p] == DIGIT);
    at->in = p;
    put(at, NUMERAL, 0, number, number >> 64);
}

static inline void symbol(struct at *at, const uint8_t *text) {
    const uint8_t *p = at->in;
    uint8_t *from = at->text;
    do p++;
    while (class_of[*p] <= DIGIT);
    memcpy(from, at->in, p - at->in);
    put(at, SYMBOL, p - at->in, from - text, 0);
    at->text += p - at->in;
    at->in = p;
}

void plain_read(const uint8_t *in, uint64_t *nodes, uint8_t *text, uint64_t *stack, uint64_t *told) {
    struct at at = {in, nodes, text};
    uint64_t outside[4] = {0}, *list = outside, depth = 0, most = 0;
    for (;;) {
        uint8_t class = class_of[*at.in];
        if (class == SPACE) at.in++;
        else if (class == CLOSE) {
            list[2] = (at.node - nodes) / 4;
            stack[--depth] = 0;
            list = depth ? nodes + 4 * stack[depth - 1] : outside;
            at.in++;
        } else if (class == COMMENT) while (*at.in && *at.in != '\n') at.in++;
        else if (class == END) break;
        else {
            list[1]++;
            if (class == PLAIN) symbol(&at, text);
            else if (class == OPEN) {
                list = at.node;
                stack[depth++] = (at.node - nodes) / 4;
                if (most < depth) most = depth;
                put(&at, APP, 0, 0, 0);
                at.in++;
            } else if (class == HASH) vector(&at);
            else if (class == QUOTE) string(&at, text);
            else numeral(&at);
        }
    }
    told[0] = (at.node - nodes) / 4;
    told[1] = at.text - text;
    told[2] = most;
}
