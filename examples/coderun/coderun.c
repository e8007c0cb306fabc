/*
 * As the program rulerun, but by way of code: standard input is the length of a book (2 bytes, high first), the book, a scope byte and
 * inputs. The book is compiled, the code is run, and what is printed is what rulerun prints: outcome and count of scopes entered, then number
 * and value of each variable; or a refusal.
 */
#include <inttypes.h>
#include <stdio.h>

#include "engine.h"

/* The longest book that two bytes can announce; one byte more of inputs than a good list can have; the results of 32 numbers. */
enum { BOOK_ROOM = 65535, INPUT_ROOM = 193, RESULT_ROOM = 192, CODE_ROOM = 1 << 22 };

static uint8_t input[2 + BOOK_ROOM + 1 + INPUT_ROOM];
static uint8_t code[CODE_ROOM];

static int refused(unsigned number)
{
    printf("refused %u\n", number);
    return 0;
}

/* A number of four bytes, high byte first, in two's complement. */
static int64_t number_at(const uint8_t *bytes)
{
    int64_t n = 0;
    for (int i = 0; i < 4; i++) {
        n = n * 256 + bytes[i];
    }
    return n < INT64_C(2147483648) ? n : n - INT64_C(4294967296);
}

/* A record for each variable: kind 1, number, 0 or 1; or kind 2, number, four bytes. */
static void show(const uint8_t *results, size_t length)
{
    for (size_t at = 0; at < length; at += results[at] == 2 ? 6 : 3) {
        if (results[at] == 2) {
            printf("%u %" PRId64 "\n", results[at + 1], number_at(results + at + 2));
        } else {
            printf("%u %s\n", results[at + 1], results[at + 2] == 1 ? "yes" : "no");
        }
    }
}

int main(void)
{
    static const char *const outcomes[] = {
        [ENGINE_VALUES] = "value", [ENGINE_EMPTY] = "empty", [ENGINE_CONFLICT] = "conflict",
        [ENGINE_ABOVE] = "above",  [ENGINE_BELOW] = "below",
    };
    uint8_t results[RESULT_ROOM] = { 0 };
    size_t have = fread(input, 1, sizeof input, stdin);
    size_t length = have < 2 ? 0 : (size_t)input[0] * 256 + input[1];
    if (have < length + 3) {
        return refused(1);
    }
    uint64_t compiled = engine_compile(input + 2, length, code, sizeof code);
    if (engine_refusal(compiled) != 0) {
        return refused(engine_refusal(compiled));
    }
    uint64_t ran = engine_run(code, engine_length(compiled), input[length + 2], input + length + 3, have - length - 3, results,
                              sizeof results);
    if (engine_refusal(ran) != 0) {
        return refused(engine_refusal(ran));
    }
    printf("%s %u\n", outcomes[engine_outcome(ran)], engine_count(ran));
    show(results, engine_length(ran));
    return 0;
}
