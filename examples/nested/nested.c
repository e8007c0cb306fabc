/*
 * As many scopes as a book can have, each calling the next: the deepest nesting that a run can meet. Each scope's variable is that of its
 * sub-scope plus 1. Evaluating and running go through all 32; the gate does this with little stack.
 */
#include <stdio.h>
#include <string.h>

#include "engine.h"

enum { SCOPES = 32, SCOPE_BYTES = 22 };

/* A scope that calls the next, and the last one, which calls none. */
static const uint8_t calling[SCOPE_BYTES] = {
    0x01,                               /* a scope */
    0x02, 0x02,                         /* variable 0: a number */
    0x03, 0x00,                         /* sub-scope 0: the scope whose number is filled in */
    0x07, 0x00, 0x00,                   /* node 0: variable 0 of sub-scope 0 */
    0x05, 0x00, 0x00, 0x00, 0x01,       /* node 1: 1 */
    0x0D, 0x00, 0x01,                   /* node 2: their sum */
    0x13, 0xFF, 0x00, 0xFF, 0xFF, 0x02, /* clause 0: variable 0 is node 2 */
};
static const uint8_t last[] = {
    0x01, 0x02, 0x02, 0x05, 0x00, 0x00, 0x00, 0x01, 0x13, 0xFF, 0x00, 0xFF, 0xFF, 0x00,
};

static void show(const char *what, uint64_t answer, const uint8_t *results)
{
    printf("%s: refusal %u, outcome %u, %u scopes entered, %zu bytes, value %u\n", what, engine_refusal(answer),
           engine_outcome(answer), engine_count(answer), engine_length(answer), results[5]);
}

int main(void)
{
    static uint8_t book[SCOPES * SCOPE_BYTES];
    static uint8_t code[SCOPES * 64];
    uint8_t evaluated[6] = { 0 };
    uint8_t ran[6] = { 0 };
    size_t length = 0;

    for (uint8_t scope = 0; scope + 1 < SCOPES; scope++) {
        memcpy(book + length, calling, sizeof calling);
        book[length + 4] = scope + 1;
        length += sizeof calling;
    }
    memcpy(book + length, last, sizeof last);
    length += sizeof last;

    uint64_t compiled = engine_compile(book, length, code, sizeof code);
    printf("refusal %u, %zu bytes of code\n", engine_refusal(compiled), engine_length(compiled));
    show("evaluated", engine_evaluate(book, length, 0, NULL, 0, evaluated, sizeof evaluated), evaluated);
    show("ran", engine_run(code, engine_length(compiled), 0, NULL, 0, ran, sizeof ran), ran);
    return 0;
}
