/*
 * What the firmware of a film scanner does with the engine: it is handed a rule book, judges it, compiles it into memory of its own, and
 * from then on runs the code for each print. Here the book is the specification's example: the scanning speed, halved for a shrunken
 * print.
 */
#include <inttypes.h>
#include <stdio.h>
#include <string.h>

#include "engine.h"

enum { SCOPE = 0, SPEED = 0, SHRUNKEN = 1, UNKNOWN = 2, CODE_ROOM = 256, RESULT_ROOM = 9 };

static const uint8_t book[] = {
    0x01,                               /* scope 0 */
    0x02, 0x02,                         /* variable 0, the speed: a number */
    0x02, 0x01,                         /* variable 1, shrunken: yes or no */
    0x05, 0x00, 0x45, 0x93, 0xC0,       /* node 0: 4559808 */
    0x06, 0x01,                         /* node 1: shrunken */
    0x05, 0x00, 0x22, 0xC9, 0xE0,       /* node 2: 2279904 */
    0x13, 0xFF, 0x00, 0xFF, 0xFF, 0x00, /* clause 0: the speed is node 0 */
    0x13, 0xFF, 0x00, 0x00, 0x01, 0x02, /* clause 1, an exception to it: if node 1, the speed is node 2 */
};

/* The results: a record for the speed, one for shrunken. */
static void show_values(const uint8_t *results, size_t length)
{
    struct engine_value speed, shrunken;
    size_t first = engine_read_value(results, length, &speed);
    if (first == 0 || engine_read_value(results + first, length - first, &shrunken) == 0) {
        printf("no results\n");
        return;
    }
    printf("speed %" PRId32 " shrunken %s\n", speed.value, shrunken.value == 1 ? "yes" : "no");
}

static void show(uint64_t answer, const uint8_t *results)
{
    static const char *const outcomes[] = {
        [ENGINE_VALUES] = "values",         [ENGINE_EMPTY] = "empty",           [ENGINE_CONFLICT] = "conflict",
        [ENGINE_ABOVE] = "above the range", [ENGINE_BELOW] = "below the range",
    };
    if (engine_has_values(answer)) {
        show_values(results, engine_length(answer));
    } else if (engine_refusal(answer) != ENGINE_NOT_REFUSED) {
        printf("refused %u\n", engine_refusal(answer));
    } else {
        printf("no speed: %s\n", outcomes[engine_outcome(answer)]);
    }
}

/* Runs the code for one print. */
static void scan(const uint8_t *code, size_t code_len, const uint8_t *inputs, size_t inputs_len)
{
    uint8_t results[RESULT_ROOM] = { 0 };
    show(engine_run(code, code_len, SCOPE, inputs, inputs_len, results, sizeof results), results);
}

/* A book with a mistake in it: its last byte names a node that is not there. */
static void mistake(void)
{
    uint8_t wrong[sizeof book];
    memcpy(wrong, book, sizeof book);
    wrong[sizeof book - 1] = 3;
    printf("with a mistake: refused %u\n", engine_refusal(engine_judge(wrong, sizeof wrong)));
}

int main(void)
{
    static uint8_t code[CODE_ROOM];
    uint8_t inputs[9];

    uint64_t judged = engine_judge(book, sizeof book);
    if (engine_refusal(judged) != 0) {
        printf("refused %u\n", engine_refusal(judged));
        return 1;
    }
    uint64_t compiled = engine_compile(book, sizeof book, code, sizeof code);
    if (engine_refusal(compiled) != 0) {
        printf("refused %u\n", engine_refusal(compiled));
        return 1;
    }
    size_t length = engine_length(compiled);
    printf("%zu scope, %zu bytes of code\n", engine_length(judged), length);

    scan(code, length, inputs, engine_put_yes_no(inputs, SHRUNKEN, 1));
    scan(code, length, inputs, engine_put_yes_no(inputs, SHRUNKEN, 0));
    size_t given = engine_put_yes_no(inputs, SHRUNKEN, 1);
    scan(code, length, inputs, given + engine_put_number(inputs + given, SPEED, 1000));
    scan(code, length, NULL, 0);
    scan(code, length, inputs, engine_put_yes_no(inputs, UNKNOWN, 1));
    mistake();
    return 0;
}
