/* How long it takes to read, and to read and check, a sheet of 12 kB. The sheet is the same at every run. */
#include <stdio.h>
#include <string.h>
#include <time.h>

#include "mughlepi.h"

enum { SIZE = 12000, RUNS = 15, CALLS = 100 };

static char sheet[SIZE + 400];
static size_t length;
static uint8_t out[MUGHLEPI_HEAD + MUGHLEPI_FINDING * MUGHLEPI_FINDINGS];
static uint32_t state = 2463534242u;

static uint32_t below(uint32_t n) {
    state ^= state << 13;
    state ^= state >> 17;
    state ^= state << 5;
    return state % n;
}

static void put(const char *text) {
    size_t n = strlen(text);
    memcpy(sheet + length, text, n);
    length += n;
}

#define PICK(table) put(table[below(sizeof table / sizeof *table)])

static const char *const names[] = {"math_PI", "math_SQRT2", "display", "math_abs", "stringify", "undefined", "par", "handicap"};
static const char *const numbers[] = {"1", "18", "72", "0.95", "113.5", "5.4e1", "36", "1200"};
static const char *const strings[] = {"'eagle'", "\"birdie\"", "\"medal \\u0041\"", "'par'", "`stroke`"};
static const char *const words[] = {"true", "false", "null"};
static const char *const operators[] = {" + ", " - ", " * ", " / ", " % ", " < ", " >= ", " === ", " !== ", " && ", " || "};
static const char *const gaps[] = {" ", "\n", "\n    ", " // holes played\n", " /* stableford */ "};

static void operand(int depth) {
    switch (below(depth > 2 ? 8 : 10)) {
    case 0: case 1: case 2: PICK(numbers); break;
    case 3: case 4: PICK(names); break;
    case 5: PICK(strings); break;
    case 6: PICK(words); break;
    case 7: put("-"); PICK(numbers); break;
    case 8: put("("); operand(depth + 1); PICK(operators); operand(depth + 1); put(")"); break;
    default: put("("); operand(depth + 1); put(" ? "); operand(depth + 1); put(" : "); operand(depth + 1); put(")"); break;
    }
}

static void write_sheet(void) {
    while (length < SIZE) {
        operand(0);
        for (uint32_t n = below(4); n > 0; n--) { PICK(operators); operand(0); }
        put(";");
        PICK(gaps);
    }
}

typedef uint32_t call(const uint8_t *, size_t, uint8_t *, size_t);

/* Microseconds for one call, the best of several runs. */
static double time_of(call *f, size_t n) {
    double best = 1e9;
    for (int r = 0; r < RUNS; r++) {
        struct timespec a, b;
        clock_gettime(CLOCK_MONOTONIC, &a);
        for (int k = 0; k < CALLS; k++) f((const uint8_t *)sheet, n, out, sizeof out);
        clock_gettime(CLOCK_MONOTONIC, &b);
        double us = ((double)(b.tv_sec - a.tv_sec) * 1e6 + (double)(b.tv_nsec - a.tv_nsec) * 1e-3) / CALLS;
        if (us < best) best = us;
    }
    return best;
}

static void tell(const char *what, double all, double tables) {
    printf("%-16s %7.1f us  %6.1f MB/s;  without the tables %7.1f us  %6.1f MB/s\n", what, all, (double)length / all, all - tables, (double)length / (all - tables));
}

int main(void) {
    write_sheet();
    if (sheet_check((const uint8_t *)sheet, length, out, sizeof out) != 0) {
        puts("the sheet is refused");
        return 1;
    }
    printf("a sheet of %zu bytes with %u expressions and %u findings\n", length, out[4] | out[5] << 8, out[0] | out[1] << 8);
    double tables_read = time_of(sheet_read, 0), tables_check = time_of(sheet_check, 0);
    tell("read", time_of(sheet_read, length), tables_read);
    tell("read and check", time_of(sheet_check, length), tables_check);
    printf("The tables stand on the stack and are cleared at each call: %.1f us for read, %.1f us for read and check (the empty sheet).\n", tables_read, tables_check);
    return 0;
}
