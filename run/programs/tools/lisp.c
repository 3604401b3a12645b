/* Reads expressions of a small Lisp on standard input, and prints the value of each: numbers of 64
   bits, symbols, lists; quote, if, lambda, define; + - * < = cons car cdr list null. */
#include <stdint.h>
#include <stdio.h>
#include <stdlib.h>
#include <string.h>

enum kind { NONE, NUMBER, SYMBOL, PAIR, BUILTIN, LAMBDA };
typedef struct value value;
struct value {
    enum kind kind;
    union {
        int64_t number;
        const char *symbol;
        struct { value *first, *rest; };
        value *(*builtin)(value *);
        struct { value *names, *body, *scope; };
    };
};
static value none = {NONE};
static value *globals = &none;
static int next_byte;

static value *make(enum kind kind) {
    value *made = calloc(1, sizeof *made);
    if (!made) abort();
    made->kind = kind;
    return made;
}

static value *pair(value *first, value *rest) {
    value *made = make(PAIR);
    made->first = first;
    made->rest = rest;
    return made;
}

static value *number(int64_t n) {
    value *made = make(NUMBER);
    made->number = n;
    return made;
}

static int fail(const char *why, const char *what) {
    fflush(stdout);
    fprintf(stderr, "lisp: %s %s\n", why, what);
    exit(1);
}

static value *symbol(const char *name) {
    value *made = make(SYMBOL);
    made->symbol = strdup(name);
    return made;
}

static int is(const value *v, const char *name) {
    return v->kind == SYMBOL && !strcmp(v->symbol, name);
}

static void skip(void) {
    while (next_byte == ' ' || next_byte == '\n') next_byte = getchar();
}

static value *read_list(void);

static value *read_one(void) {
    char name[64];
    size_t size = 0;
    skip();
    if (next_byte == '(') {
        next_byte = getchar();
        return read_list();
    }
    while (next_byte != EOF && !strchr(" \n()", next_byte) && size < sizeof name - 1) {
        name[size++] = (char)next_byte;
        next_byte = getchar();
    }
    name[size] = 0;
    if (!size) fail("expected a value, and found", next_byte == EOF ? "the end" : ")");
    char *end;
    int64_t n = strtoll(name, &end, 10);
    return *end ? symbol(name) : number(n);
}

static value *read_list(void) {
    skip();
    if (next_byte == ')') {
        next_byte = getchar();
        return &none;
    }
    value *first = read_one();
    return pair(first, read_list());
}

static void print(const value *v) {
    switch (v->kind) {
    case NONE: printf("()"); break;
    case NUMBER: printf("%lld", (long long)v->number); break;
    case SYMBOL: printf("%s", v->symbol); break;
    case BUILTIN: case LAMBDA: printf("<function>"); break;
    case PAIR:
        printf("(");
        for (print(v->first); v->rest->kind == PAIR; print(v->first)) {
            v = v->rest;
            printf(" ");
        }
        printf(")");
    }
}

static value *find(value *name, value *scope) {
    for (; scope->kind == PAIR; scope = scope->rest)
        if (is(scope->first->first, name->symbol)) return scope->first->rest;
    return NULL;
}

static value *evaluate(value *v, value *scope);

static value *evaluate_all(value *list, value *scope) {
    if (list->kind != PAIR) return &none;
    value *first = evaluate(list->first, scope);
    return pair(first, evaluate_all(list->rest, scope));
}

static value *apply(value *function, value *given) {
    if (function->kind == BUILTIN) return function->builtin(given);
    if (function->kind != LAMBDA) fail("not a function:", "the first of a list");
    value *scope = function->scope;
    for (value *names = function->names; names->kind == PAIR; names = names->rest) {
        if (given->kind != PAIR) fail("too few values for", names->first->symbol);
        scope = pair(pair(names->first, given->first), scope);
        given = given->rest;
    }
    return evaluate(function->body, scope);
}

static value *define(value *name, value *v) {
    value *known = find(name, globals);
    if (known) fail("defined twice:", name->symbol);
    globals = pair(pair(name, v), globals);
    return name;
}

static value *evaluate(value *v, value *scope) {
    if (v->kind == SYMBOL) {
        value *known = find(v, scope);
        if (!known) known = find(v, globals);
        if (!known) fail("unknown:", v->symbol);
        return known;
    }
    if (v->kind != PAIR) return v;
    value *head = v->first, *rest = v->rest;
    if (is(head, "quote")) return rest->first;
    if (is(head, "define")) return define(rest->first, evaluate(rest->rest->first, scope));
    if (is(head, "if")) {
        int holds = evaluate(rest->first, scope)->kind != NONE;
        return evaluate(holds ? rest->rest->first : rest->rest->rest->first, scope);
    }
    if (is(head, "lambda")) {
        value *made = make(LAMBDA);
        made->names = rest->first;
        made->body = rest->rest->first;
        made->scope = scope;
        return made;
    }
    value *function = evaluate(head, scope);
    return apply(function, evaluate_all(rest, scope));
}

static int64_t number_of(value *given) {
    if (given->kind != PAIR || given->first->kind != NUMBER) fail("expected", "a number");
    return given->first->number;
}

static value *truth(int holds) { return holds ? symbol("t") : &none; }
static value *add(value *v) { return number(number_of(v) + number_of(v->rest)); }
static value *subtract(value *v) { return number(number_of(v) - number_of(v->rest)); }
static value *multiply(value *v) { return number(number_of(v) * number_of(v->rest)); }
static value *less(value *v) { return truth(number_of(v) < number_of(v->rest)); }
static value *equal(value *v) { return truth(number_of(v) == number_of(v->rest)); }
static value *cons(value *v) { return pair(v->first, v->rest->first); }
static value *car(value *v) { return v->first->kind == PAIR ? v->first->first : &none; }
static value *cdr(value *v) { return v->first->kind == PAIR ? v->first->rest : &none; }
static value *list(value *v) { return v; }
static value *null(value *v) { return truth(v->first->kind == NONE); }

int main(int count, char **words) {
    static const struct { const char *name; value *(*of)(value *); } all[] = {
        {"+", add}, {"-", subtract}, {"*", multiply}, {"<", less}, {"=", equal}, {"cons", cons},
        {"car", car}, {"cdr", cdr}, {"list", list}, {"null", null},
    };
    (void)count, (void)words;
    for (unsigned i = 0; i < sizeof all / sizeof *all; i++) {
        value *function = make(BUILTIN);
        function->builtin = all[i].of;
        define(symbol(all[i].name), function);
    }
    next_byte = getchar();
    for (skip(); next_byte != EOF; skip()) {
        print(evaluate(read_one(), &none));
        printf("\n");
    }
    return 0;
}
