/*
 * How a conservator reviews a book: every choice of no and yes for two of its variables, a line for each. The book is a scanning speed that is
 * lower for a shrunken print and for a nitrate print; the full speed is the scanner's own and is given in every row. A device may keep such a
 * table, and later look up a print in it without evaluating anything.
 */
#include <inttypes.h>
#include <stdio.h>

#include "engine.h"

enum { SCOPE = 0, SPEED = 0, SHRUNKEN = 1, NITRATE = 2, FULL = 3 };
enum { CHOSEN = 2, ROWS = 1 << CHOSEN, TABLE_ROOM = ROWS * ENGINE_ROW_MAX };

static const uint8_t book[] = {
    0x01,                               /* scope 0 */
    0x02, 0x02,                         /* variable 0, the speed: a number */
    0x02, 0x01,                         /* variable 1, shrunken: yes or no */
    0x02, 0x01,                         /* variable 2, nitrate: yes or no */
    0x02, 0x02,                         /* variable 3, the full speed: a number */
    0x06, 0x03,                         /* node 0: the full speed */
    0x06, 0x01,                         /* node 1: shrunken */
    0x05, 0x00, 0x22, 0xC9, 0xE0,       /* node 2: 2279904 */
    0x06, 0x02,                         /* node 3: nitrate */
    0x05, 0x00, 0x34, 0x2E, 0xD0,       /* node 4: 3419856 */
    0x13, 0xFF, 0x00, 0xFF, 0xFF, 0x00, /* clause 0: the speed is node 0 */
    0x13, 0xFF, 0x00, 0x00, 0x01, 0x02, /* clause 1, an exception to it: if node 1, the speed is node 2 */
    0x13, 0xFF, 0x00, 0x00, 0x03, 0x04, /* clause 2, another one: if node 3, the speed is node 4 */
};

/* The chosen variables, in any order: here it is not that of their numbers, in which the table has them. */
static const uint8_t chosen[CHOSEN] = { NITRATE, SHRUNKEN };

static const char *yes_no(int yes)
{
    return yes ? "yes" : "no";
}

/* What a row says of the speed, which is the first of the results. */
static void show_speed(const uint8_t *row, size_t length)
{
    static const char *const outcomes[] = {
        [ENGINE_VALUES] = "values",         [ENGINE_EMPTY] = "empty",           [ENGINE_CONFLICT] = "conflict",
        [ENGINE_ABOVE] = "above the range", [ENGINE_BELOW] = "below the range",
    };
    struct engine_value speed;
    if (row[0] != ENGINE_VALUES) {
        printf("%s\n", outcomes[row[0]]);
    } else if (engine_read_value(row + 1, length - 1, &speed) != 0 && speed.variable == SPEED) {
        printf("%" PRId32 "\n", speed.value);
    }
}

static void show(const uint8_t *table, size_t length)
{
    printf("shrunken  nitrate  | speed\n");
    for (size_t row = 0; row < ROWS; row++) {
        printf("%-8s  %-7s  | ", yes_no(engine_row_yes(row, CHOSEN, 0)), yes_no(engine_row_yes(row, CHOSEN, 1)));
        show_speed(table + row * length, length);
    }
}

/* One print, looked up in the table. */
static void look_up(const uint8_t *table, size_t length, uint8_t shrunken, uint8_t nitrate)
{
    const uint8_t yes[CHOSEN] = { shrunken, nitrate };
    printf("shrunken %s, nitrate %s: ", yes_no(shrunken), yes_no(nitrate));
    show_speed(table + engine_row_number(yes, CHOSEN) * length, length);
}

/* What cannot be tabulated: the speed is no yes/no variable, and a table wants room for all its rows. */
static void refusals(const uint8_t *inputs, size_t inputs_len, size_t table_len)
{
    static const uint8_t number[] = { SPEED };
    static uint8_t table[TABLE_ROOM];
    uint64_t answer = engine_tabulate(book, sizeof book, SCOPE, number, sizeof number, inputs, inputs_len, table, sizeof table);
    printf("the speed chosen: refused %u\n", engine_refusal(answer));
    answer = engine_tabulate(book, sizeof book, SCOPE, chosen, CHOSEN, inputs, inputs_len, table, table_len - 1);
    printf("a byte too few: refused %u\n", engine_refusal(answer));
}

int main(void)
{
    static uint8_t table[TABLE_ROOM];
    uint8_t inputs[6];

    size_t given = engine_put_number(inputs, FULL, 4559808);
    uint64_t answer = engine_tabulate(book, sizeof book, SCOPE, chosen, CHOSEN, inputs, given, table, sizeof table);
    if (engine_refusal(answer) != ENGINE_NOT_REFUSED) {
        printf("refused %u\n", engine_refusal(answer));
        return 1;
    }
    size_t length = engine_row_length(answer, CHOSEN);
    printf("%zu bytes, %d rows of %zu\n", engine_length(answer), ROWS, length);
    show(table, length);
    look_up(table, length, 1, 0);
    refusals(inputs, given, engine_length(answer));
    return 0;
}
