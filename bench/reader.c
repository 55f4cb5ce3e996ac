// The other side of bench/reading: a plain reader of document 01 §2 and §3 in C, which writes the same words as the proved one.
#include "reader.h"

#include <string.h>

enum {
    NAME = 1, NUMBER, EQ, NE, LE, GE, AND, OR, PLUS, MINUS, STAR, SLASH, PERCENT, LESS, GREATER, EQUALS, BANG, LEFT_PAREN, RIGHT_PAREN,
    LEFT_BRACE, RIGHT_BRACE, LEFT_BRACKET, RIGHT_BRACKET, COLON, SEMICOLON, COMMA, VAR, FN, LET, IF, ELSE, WHILE, RETURN, EMIT, INT, BOOL, TRUE, FALSE
};

typedef struct {
    uint32_t kind, place, value;
} Token;

static Token *tokens;
static size_t count, at;
static uint32_t *out;
static int open;

static int letter(int c) { return (c >= 'a' && c <= 'z') || c == '_'; }
static int digit(int c) { return c >= '0' && c <= '9'; }

static uint32_t spelt(const char *s, size_t n, const char *word, size_t size, uint32_t kind) {
    return n == size && memcmp(s, word, size) == 0 ? kind : NAME;
}

#define SPELT(word, kind) spelt(s, n, word, sizeof word - 1, kind)

static uint32_t word(const char *s, size_t n) {
    switch (s[0]) {
    case 'b': return SPELT("bool", BOOL);
    case 'e': return s[1] == 'l' ? SPELT("else", ELSE) : SPELT("emit", EMIT);
    case 'f': return s[1] == 'n' ? SPELT("fn", FN) : SPELT("false", FALSE);
    case 'i': return s[1] == 'f' ? SPELT("if", IF) : SPELT("int", INT);
    case 'l': return SPELT("let", LET);
    case 'r': return SPELT("return", RETURN);
    case 't': return SPELT("true", TRUE);
    case 'v': return SPELT("var", VAR);
    case 'w': return SPELT("while", WHILE);
    default: return NAME;
    }
}

static uint32_t sign(char c, char next) {
    switch (c) {
    case '=': return next == '=' ? EQ : EQUALS;
    case '!': return next == '=' ? NE : BANG;
    case '<': return next == '=' ? LE : LESS;
    case '>': return next == '=' ? GE : GREATER;
    case '&': return next == '&' ? AND : 0;
    case '|': return next == '|' ? OR : 0;
    case '+': return PLUS;
    case '-': return MINUS;
    case '*': return STAR;
    case '/': return SLASH;
    case '%': return PERCENT;
    case '(': return LEFT_PAREN;
    case ')': return RIGHT_PAREN;
    case '{': return LEFT_BRACE;
    case '}': return RIGHT_BRACE;
    case '[': return LEFT_BRACKET;
    case ']': return RIGHT_BRACKET;
    case ':': return COLON;
    case ';': return SEMICOLON;
    case ',': return COMMA;
    default: return 0;
    }
}

// The token at i, and its end; 0 for none.
static size_t token(const char *s, size_t i, size_t n, Token *t) {
    size_t j = i;
    t->place = (uint32_t)i;
    t->value = 0;
    if (letter(s[i])) {
        while (j < n && (letter(s[j]) || digit(s[j]))) j++;
        if (j - i > 32) return 0;
        t->kind = word(s + i, j - i);
        if (t->kind == NAME) t->value = (uint32_t)(j - i);
        return j;
    }
    if (digit(s[i])) {
        uint64_t v = 0;
        for (; j < n && digit(s[j]); j++)
            if ((v = v * 10 + (uint64_t)(s[j] - '0')) > 2147483647) return 0;
        if ((j < n && letter(s[j])) || (s[i] == '0' && j - i > 1)) return 0;
        t->kind = NUMBER;
        t->value = (uint32_t)v;
        return j;
    }
    t->kind = sign(s[i], i + 1 < n ? s[i + 1] : 0);
    if (t->kind == 0) return 0;
    return t->kind < PLUS ? i + 2 : i + 1;
}

static int tokenize(const char *s, size_t n) {
    count = 0;
    for (size_t i = 0; i < n;) {
        char c = s[i];
        if (c == ' ' || c == '\t' || c == '\n' || c == '\r') {
            i++;
        } else if (c == '#') {
            for (i++; i < n && ((s[i] >= ' ' && s[i] <= '~') || s[i] == '\t' || s[i] == '\r'); i++) {}
        } else {
            i = token(s, i, n, &tokens[count]);
            if (i == 0) return 0;
            count++;
        }
    }
    tokens[count].kind = 0;
    return 1;
}

static void item(uint32_t k, uint32_t p, uint32_t a, uint32_t b) {
    out[0] = k;
    out[1] = p;
    out[2] = a;
    out[3] = b;
    out += 4;
}

static void header(uint32_t *h, uint32_t k, uint32_t p, uint32_t x, uint32_t n1, uint32_t n2, uint32_t s1, uint32_t s2, uint32_t w) {
    h[0] = k, h[1] = p, h[2] = x, h[3] = n1, h[4] = n2, h[5] = s1, h[6] = s2, h[7] = w;
}

static int take(uint32_t kind) { return tokens[at].kind == kind ? (at++, 1) : 0; }

static int level_of(uint32_t k) {
    switch (k) {
    case OR: return 1;
    case AND: return 2;
    case EQ: case NE: case LE: case GE: case LESS: case GREATER: return 3;
    case PLUS: case MINUS: return 4;
    case STAR: case SLASH: case PERCENT: return 5;
    default: return 0;
    }
}

static uint32_t number_of(uint32_t k) {
    static const uint8_t numbers[] = {[EQ] = 0, [NE] = 1, [LESS] = 2, [LE] = 3, [GREATER] = 4, [GE] = 5, [PLUS] = 6, [MINUS] = 7, [STAR] = 8, [SLASH] = 9, [PERCENT] = 10};
    return numbers[k];
}

static int level(int l);

static int enclosed(uint32_t closing) {
    if (open == 32) return 0;
    at++;
    open++;
    if (!level(1) || !take(closing)) return 0;
    open--;
    return 1;
}

// The arguments of a call; their number, or -1.
static int arguments(void) {
    int n = 0;
    if (open == 32) return -1;
    at++;
    if (take(RIGHT_PAREN)) return 0;
    open++;
    do {
        if (!level(1)) return -1;
        n++;
    } while (take(COMMA));
    open--;
    return take(RIGHT_PAREN) ? n : -1;
}

static int primary(void) {
    Token t = tokens[at];
    switch (t.kind) {
    case NUMBER: at++; item(0, 0, t.value, 0); return 1;
    case TRUE: case FALSE: at++; item(9, 0, t.kind == TRUE, 0); return 1;
    case LEFT_PAREN: return enclosed(RIGHT_PAREN);
    case MINUS: case BANG:
        if (open == 32) return 0;
        at++;
        open++;
        if (!primary()) return 0;
        open--;
        item(4, t.place, t.kind == BANG, 0);
        return 1;
    case NAME:
        at++;
        if (tokens[at].kind == LEFT_BRACKET) {
            if (!enclosed(RIGHT_BRACKET)) return 0;
            item(2, t.place, t.value, 0);
        } else if (tokens[at].kind == LEFT_PAREN) {
            int n = arguments();
            if (n < 0) return 0;
            item(3, t.place, t.value, (uint32_t)n);
        } else {
            item(1, t.place, t.value, 0);
        }
        return 1;
    default: return 0;
    }
}

static int level(int l) {
    if (l == 6) return primary();
    if (!level(l + 1)) return 0;
    while (level_of(tokens[at].kind) == l) {
        Token t = tokens[at++];
        uint32_t *joined = out;
        if (l < 3) out += 4;
        if (!level(l + 1)) return 0;
        if (l < 3) {
            uint32_t *end = out;
            out = joined;
            item(l == 1 ? 7 : 6, t.place, (uint32_t)(end - joined) / 4 - 1, 0);
            out = end;
            item(8, t.place, 0, 0);
        } else {
            item(5, t.place, number_of(t.kind), 0);
        }
        if (l == 3) break;
    }
    return 1;
}

static int type(uint32_t *t) { return take(INT) ? (*t = 1, 1) : take(BOOL) ? (*t = 2, 1) : 0; }

static int block(int *n);

// An expression and ";", as a statement of one expression.
static int single(uint32_t *h, uint32_t k, uint32_t p, uint32_t x) {
    if (!level(1) || !take(SEMICOLON)) return 0;
    uint32_t w = (uint32_t)(out - h) - 8;
    header(h, k, p, x, w / 4, 0, 0, 0, w);
    return 1;
}

static int change(uint32_t *h, Token t) {
    if (tokens[at].kind == LEFT_BRACKET) {
        if (!enclosed(RIGHT_BRACKET) || !take(EQUALS)) return 0;
        uint32_t *middle = out;
        if (!level(1) || !take(SEMICOLON)) return 0;
        header(h, 1, t.place, t.value, (uint32_t)(middle - h - 8) / 4, (uint32_t)(out - middle) / 4, 0, 0, (uint32_t)(out - h) - 8);
        return 1;
    }
    if (tokens[at].kind == LEFT_PAREN) {
        int n = arguments();
        if (n < 0 || !take(SEMICOLON)) return 0;
        item(3, t.place, t.value, (uint32_t)n);
        header(h, 7, t.place, t.value, (uint32_t)(out - h - 8) / 4, 0, 0, 0, (uint32_t)(out - h) - 8);
        return 1;
    }
    return take(EQUALS) && single(h, 0, t.place, t.value);
}

static int statement(void) {
    uint32_t *h = out, declared;
    Token t = tokens[at++];
    int n1, n2 = 0;
    out += 8;
    switch (t.kind) {
    case NAME: return change(h, t);
    case EMIT: return single(h, 6, t.place, 0);
    case RETURN:
        if (!take(SEMICOLON)) return single(h, 5, t.place, 0);
        header(h, 4, t.place, 0, 0, 0, 0, 0, 0);
        return 1;
    case LET:
        t = tokens[at];
        return take(NAME) && take(COLON) && type(&declared) && take(EQUALS) && single(h, 8 + declared, t.place, t.value);
    case IF: case WHILE: {
        if (!level(1)) return 0;
        uint32_t *middle = out, k = t.kind == IF ? 8 : 3;
        if (!block(&n1)) return 0;
        uint32_t *end = out;
        if (t.kind == IF && take(ELSE)) {
            k = 2;
            if (!block(&n2)) return 0;
        }
        header(h, k, t.place, (uint32_t)(end - middle), (uint32_t)(middle - h - 8) / 4, 0, (uint32_t)n1, (uint32_t)n2, (uint32_t)(out - h) - 8);
        return 1;
    }
    default: return 0;
    }
}

static int block(int *n) {
    if (open == 32 || !take(LEFT_BRACE)) return 0;
    open++;
    for (*n = 0; !take(RIGHT_BRACE); (*n)++)
        if (!statement()) return 0;
    open--;
    return 1;
}

static int function(void) {
    uint32_t *h = out, given = 0, result = 0, declared;
    Token t = tokens[at];
    int n;
    out += 8;
    if (!take(NAME) || !take(LEFT_PAREN)) return 0;
    if (!take(RIGHT_PAREN)) {
        do {
            Token p = tokens[at];
            if (!take(NAME) || !take(COLON) || !type(&declared)) return 0;
            out[0] = p.place, out[1] = p.value, out[2] = declared;
            out += 3;
            given++;
        } while (take(COMMA));
        if (!take(RIGHT_PAREN)) return 0;
    }
    if (take(COLON) && !type(&result)) return 0;
    uint32_t *body = out;
    if (!block(&n)) return 0;
    header(h, 1, t.place, t.value, given, result, (uint32_t)n, (uint32_t)(out - body), (uint32_t)(out - h) - 8);
    return 1;
}

static int array(void) {
    Token t = tokens[at], n;
    if (!take(NAME) || !take(COLON) || !take(INT) || !take(LEFT_BRACKET)) return 0;
    n = tokens[at];
    if (!take(NUMBER) || !take(RIGHT_BRACKET) || !take(SEMICOLON)) return 0;
    header(out, 0, t.place, t.value, n.value, 0, 0, 0, 0);
    out += 8;
    return 1;
}

size_t READER(const char *text, size_t size, uint32_t *room, uint32_t *tree, size_t *items) {
    tokens = (Token *)room;
    out = tree;
    at = 0;
    open = 0;
    *items = 0;
    if (size > 65536 || !tokenize(text, size)) return (size_t)-1;
    for (; at < count; (*items)++) {
        uint32_t k = tokens[at++].kind;
        if (k == VAR ? !array() : k == FN ? !function() : 1) return (size_t)-1;
    }
    return (size_t)(out - tree);
}
