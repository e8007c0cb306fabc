/*
 * The proved rule engine, for programs in C. The functions are those of the static library target/staticlib/libcapi.a, which
 * `bash tools/build.sh capi` proves and writes; their contracts stand in crates/capi/src/lib.rt, the bytes of books, inputs, results, code and
 * tables in docs/FORMAT.md. docs/SEALING.md is a page for those who build the library into a device: stack, times, and how each figure was found.
 *
 * Bytes are lent as a pointer and a length. No caller has to check them: whatever they hold, each call ends and answers. With length 0 a
 * pointer may be null. A caller must not lend memory that is shorter than the length says, nor let memory that a call writes to overlap
 * anything else that is lent to it, nor change what is lent while a call runs. No contract can state these.
 *
 * Nothing is kept from one call to the next: there is no heap and no global, so calls may be made from several threads at once, each with
 * memory of its own. The library is for x86-64 with SSE and needs memcpy and memset alone.
 *
 * An answer is one number of 64 bits; the functions at the end take it apart. The contracts say that these recover the refusal, the outcome,
 * the count and the length that were answered: nothing is lost, whatever the bytes. A refusal writes nothing.
 */
#ifndef ENGINE_H
#define ENGINE_H

#include <stddef.h>
#include <stdint.h>

#ifdef __cplusplus
extern "C" {
#endif

#define ENGINE_VERSION "3.0.4"

/*
 * The most bytes of a book that is not refused, of its code and of the results of a scope: memory of such a length is never too short. The code of a
 * book is never more than seven times as long as the book (code_max and code_bound in crates/translation/proofs/Lengths.antt).
 */
#define ENGINE_BOOK_MAX 32768
#define ENGINE_CODE_MAX 201435
#define ENGINE_RESULTS_MAX 192

/*
 * The most variables that may be chosen for a table, and the most bytes of a row and of a table (table_most in
 * crates/tabulation/proofs/Rows.antt). Where k variables are chosen, a table has 2^k rows of one length, so ENGINE_ROW_MAX << k bytes of memory
 * are enough for every scope; ENGINE_TABLE_MAX is less than that for 12, since chosen variables are yes/no, which are short.
 */
#define ENGINE_CHOSEN_MAX 12
#define ENGINE_ROW_MAX 193
#define ENGINE_TABLE_MAX 643072

/* Bytes of stack that a call takes at most, rounded up from the deepest books and code that were found (docs/SEALING.md). */
#define ENGINE_STACK_JUDGE 32768
#define ENGINE_STACK_EVALUATE 327680
#define ENGINE_STACK_COMPILE 262144
#define ENGINE_STACK_RUN 786432
#define ENGINE_STACK_TABULATE 327680

/* Judges a book. Refusal 1 to 12, or 0 and, as the length, the number of scopes. */
uint64_t engine_judge(const uint8_t *book, size_t book_len);

/*
 * Compiles a book into code. Refusal 1 to 12, or 15 where the code is longer than the memory; or 0 and the length of the code, which is
 * written from the first byte on. The bytes after it stay as they were.
 */
uint64_t engine_compile(const uint8_t *book, size_t book_len, uint8_t *code, size_t code_len);

/*
 * Evaluates a scope of a book with a list of inputs. Refusal 1 to 12 (the book), 13 (no such scope), 14 (bad input), 15 (the results are
 * longer than the memory); or 0, the outcome, the count of scopes entered and the length of the results, which are written, from the first
 * byte on, where the outcome is 0 (values). ENGINE_RESULTS_MAX bytes of memory are enough for every scope.
 */
uint64_t engine_evaluate(const uint8_t *book, size_t book_len, size_t scope, const uint8_t *inputs, size_t inputs_len,
                         uint8_t *results, size_t results_len);

/*
 * Runs a scope of code with a list of inputs, judging the code first. Refusal 16 (bad code), 13, 14, 15, or 17 (stuck); or as evaluating.
 * The code that engine_compile wrote is never refused with 16 or 17, and running it answers and writes what evaluating the book does.
 */
uint64_t engine_run(const uint8_t *code, size_t code_len, size_t scope, const uint8_t *inputs, size_t inputs_len, uint8_t *results,
                    size_t results_len);

/*
 * Tabulates a scope of a book: evaluates it for every choice of no and yes for the chosen variables, with a fixed list of inputs for the rest,
 * and writes a row for each, from the first byte on: one byte of outcome, then the results as evaluating writes them, or as many zero bytes
 * where there are no values. `chosen` holds the numbers of yes/no variables, one byte each, at most 12, in any order. The lowest-numbered one
 * changes slowest, no comes before yes: the first row is all no, the last all yes; with none chosen there is one row. Refusal 1 to 12 (the
 * book), 13 (no such scope), 14 (bad input), 18 (bad choice), 15 (the table is longer than the memory); or 0 and the length of the table. The
 * bytes after it stay as they were. The functions for rows at the end find a row and take it apart.
 */
uint64_t engine_tabulate(const uint8_t *book, size_t book_len, size_t scope, const uint8_t *chosen, size_t chosen_len,
                         const uint8_t *inputs, size_t inputs_len, uint8_t *table, size_t table_len);

/* The refusals. */
enum {
    ENGINE_NOT_REFUSED = 0,
    ENGINE_TRUNCATED = 1,          /* a body passes the end of the book */
    ENGINE_UNKNOWN_KIND = 2,       /* a record of a kind that there is not */
    ENGINE_OUT_OF_ORDER = 3,       /* a record out of its order, or before the first scope */
    ENGINE_LIMIT_EXCEEDED = 4,     /* too many bytes, scopes, variables, sub-scopes, nodes or clauses */
    ENGINE_INVALID_BYTE = 5,       /* a type, constant or rule byte outside its values */
    ENGINE_DANGLING_REFERENCE = 6, /* a number that names nothing, or nothing that may be named there */
    ENGINE_SHARED_NODE = 7,        /* a node that is named twice */
    ENGINE_TYPE_MISMATCH = 8,      /* a type that does not fit */
    ENGINE_MIXED_CLAUSES = 9,      /* rule and definition on one target */
    ENGINE_SCOPE_CYCLE = 10,       /* a scope that reaches itself through sub-scopes */
    ENGINE_WEIGHT_EXCEEDED = 11,   /* a scope that would enter more than 4,096 scopes */
    ENGINE_DEPENDENCY_CYCLE = 12,  /* a step that depends on itself */
    ENGINE_NO_SUCH_SCOPE = 13,     /* the scope asked for is absent */
    ENGINE_BAD_INPUT = 14,         /* the list of inputs */
    ENGINE_BUFFER_TOO_SMALL = 15,  /* the memory lent for code, results or table */
    ENGINE_BAD_CODE = 16,          /* code that is not accepted */
    ENGINE_STUCK = 17,             /* code that is accepted and cannot go on: never code that engine_compile wrote */
    ENGINE_BAD_CHOICE = 18         /* the chosen variables: more than 12, or one of them twice, absent, not yes/no, or in the list of inputs */
};

/* The outcomes of an evaluation or a run that is not refused, and of a row. */
enum {
    ENGINE_VALUES = 0,
    ENGINE_EMPTY = 1,
    ENGINE_CONFLICT = 2,
    ENGINE_ABOVE = 3, /* a sum, difference or negation is above 2,147,483,647 */
    ENGINE_BELOW = 4  /* a sum or difference is below -2,147,483,648 */
};

/* The number of the refusal; 0 if nothing is refused. */
static inline unsigned engine_refusal(uint64_t answer)
{
    return (unsigned)(answer >> 56);
}

/* The outcome of an evaluation or a run. A refused answer has 0, too: ask engine_refusal first. */
static inline unsigned engine_outcome(uint64_t answer)
{
    return (unsigned)(answer >> 48 & 0xff);
}

/* Whether an evaluation or a run was not refused and ended in values: then, and only then, results are written. */
static inline int engine_has_values(uint64_t answer)
{
    return engine_refusal(answer) == ENGINE_NOT_REFUSED && engine_outcome(answer) == ENGINE_VALUES;
}

/* The count of scopes that an evaluation or a run entered, at most 4,096. */
static inline unsigned engine_count(uint64_t answer)
{
    return (unsigned)(answer >> 32 & 0xffff);
}

/* The length of the results, at most 192; of the code; of the table; or the number of scopes, at most 32. */
static inline size_t engine_length(uint64_t answer)
{
    return (size_t)(answer & 0xffffffff);
}

/* Writes the input record of a yes/no variable, three bytes, and gives their number. */
static inline size_t engine_put_yes_no(uint8_t *to, uint8_t variable, int yes)
{
    to[0] = 1;
    to[1] = variable;
    to[2] = yes ? 1 : 0;
    return 3;
}

/* Writes the input record of a number variable, six bytes, and gives their number. */
static inline size_t engine_put_number(uint8_t *to, uint8_t variable, int32_t number)
{
    uint32_t bits = (uint32_t)number;
    to[0] = 2;
    to[1] = variable;
    to[2] = (uint8_t)(bits >> 24);
    to[3] = (uint8_t)(bits >> 16);
    to[4] = (uint8_t)(bits >> 8);
    to[5] = (uint8_t)bits;
    return 6;
}

/* A variable of the results: yes/no as 0 or 1, or a number. */
struct engine_value {
    uint8_t variable;
    uint8_t is_number;
    int32_t value;
};

/* Reads the result record at the beginning of some bytes, and gives its length; 0 where there is none. */
static inline size_t engine_read_value(const uint8_t *from, size_t len, struct engine_value *to)
{
    if (len >= 3 && from[0] == 1) {
        to->variable = from[1];
        to->is_number = 0;
        to->value = from[2];
        return 3;
    }
    if (len >= 6 && from[0] == 2) {
        uint32_t bits = (uint32_t)from[2] << 24 | (uint32_t)from[3] << 16 | (uint32_t)from[4] << 8 | from[5];
        to->variable = from[1];
        to->is_number = 1;
        to->value = bits < UINT32_C(0x80000000) ? (int32_t)bits : (int32_t)(bits - UINT32_C(0x80000000)) + INT32_MIN;
        return 6;
    }
    return 0;
}

/* The length of each row of a table, by tabulating's answer and the number of chosen variables; 0 if it was refused. */
static inline size_t engine_row_length(uint64_t answer, size_t chosen_len)
{
    return chosen_len <= ENGINE_CHOSEN_MAX ? engine_length(answer) >> chosen_len : 0;
}

/*
 * The number of the row, from 0, in which the chosen variables, the lowest-numbered first, are no (0) or yes (anything else). Row n begins at
 * byte n times the length of a row: its outcome, and after that byte the results, which engine_read_value reads.
 */
static inline size_t engine_row_number(const uint8_t *yes, size_t chosen_len)
{
    size_t row = 0;
    for (size_t i = 0; i < chosen_len; i++) {
        row = row << 1 | (yes[i] != 0);
    }
    return row;
}

/* Whether a chosen variable is yes in a row: the variable by its place among the chosen, from 0, the lowest-numbered first. */
static inline int engine_row_yes(size_t row, size_t chosen_len, size_t place)
{
    return place < chosen_len && chosen_len <= ENGINE_CHOSEN_MAX && (row >> (chosen_len - 1 - place) & 1) != 0;
}

/* The library wants pointers that are not null, even to no bytes: a call with a null pointer lends this byte, of which length 0 reads nothing. */
static inline const uint8_t *engine_lent(const uint8_t *bytes)
{
    static const uint8_t none[1] = { 0 };
    return bytes != NULL ? bytes : none;
}
static inline uint8_t *engine_lent_to_write(uint8_t *bytes)
{
    static uint8_t none[1];
    return bytes != NULL ? bytes : none;
}
#define engine_judge(book, book_len) engine_judge(engine_lent(book), book_len)
#define engine_compile(book, book_len, code, code_len) \
    engine_compile(engine_lent(book), book_len, engine_lent_to_write(code), code_len)
#define engine_evaluate(book, book_len, scope, inputs, inputs_len, results, results_len) \
    engine_evaluate(engine_lent(book), book_len, scope, engine_lent(inputs), inputs_len, engine_lent_to_write(results), results_len)
#define engine_run(code, code_len, scope, inputs, inputs_len, results, results_len) \
    engine_run(engine_lent(code), code_len, scope, engine_lent(inputs), inputs_len, engine_lent_to_write(results), results_len)
#define engine_tabulate(book, book_len, scope, chosen, chosen_len, inputs, inputs_len, table, table_len) \
    engine_tabulate(engine_lent(book), book_len, scope, engine_lent(chosen), chosen_len, engine_lent(inputs), inputs_len, \
                    engine_lent_to_write(table), table_len)

#ifdef __cplusplus
}
#endif

#endif
