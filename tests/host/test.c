/* Calls the exported functions over sheets with known answers, with `out` at several lengths, and times the hostile ones. */
#include <stdio.h>
#include <string.h>
#include <time.h>

#include "mughlepi.h"

enum { MOST = 2000100, ROOM = MUGHLEPI_HEAD + MUGHLEPI_FINDING * MUGHLEPI_FINDINGS + 13, UNTOUCHED = 0xa5 };

/* The sheet is head, then `again` so many times, then middle, then `back` so many times, then tail. */
struct try {
    const char *head, *again;
    size_t times;
    const char *middle, *back;
    size_t times_back;
    const char *tail;
    /* the answer; the place, or the counts of findings and expressions; the first findings, as kind and place */
    uint32_t number, first, second;
    uint32_t findings[4][2];
};

#define PLAIN(text) text, "", 0, "", "", 0, ""
#define LONG(head, again, times, tail) head, again, times, "", "", 0, tail

static const struct try tries[] = {
    {PLAIN(""), 0, 0, 0, {{0}}},
    {PLAIN(" // nothing\n/* at all */"), 0, 0, 0, {{0}}},
    {PLAIN("1 + \"a\";"), 0, 1, 3, {{1, 4}}},
    {PLAIN("(true ? 1 : \"a\") + 2;"), 0, 0, 6, {{0}}},
    {PLAIN("\"5\" < 3;"), 0, 1, 3, {{1, 6}}},
    {PLAIN("par;"), 0, 1, 1, {{2, 0}}},
    {PLAIN("!1; par; -true;"), 0, 3, 5, {{1, 1}, {2, 4}, {1, 10}}},
    {PLAIN("math_PI * 2 - \"x\" * null;"), 0, 2, 7, {{1, 14}, {1, 20}}},
    {PLAIN("display + display;"), 0, 0, 3, {{0}}},
    {PLAIN("1 as number + 2;"), 7, 2, 0, {{0}}},
    {PLAIN("(1 + 2"), 7, 6, 0, {{0}}},
    {PLAIN("1;;"), 7, 2, 0, {{0}}},
    {PLAIN("1; & 2"), 3, 3, 0, {{0}}},
    {PLAIN("1; \"abc"), 3, 3, 0, {{0}}},
    {PLAIN("1; 1e291;"), 4, 3, 0, {{0}}},
    {PLAIN("return\n1;"), 5, 7, 0, {{0}}},
    {LONG("1;", " ", 16382, ""), 0, 0, 1, {{0}}},
    {LONG("1;", " ", 16383, ""), 2, 16384, 0, {{0}}},
    {LONG("", "1;", 2048, ""), 0, 0, 2048, {{0}}},
    {LONG("", "1;", 2048, " 1"), 6, 4097, 0, {{0}}},
    {LONG("", "x;", 2048, ""), 0, 2048, 2048, {{2, 0}, {2, 2}, {2, 4}, {2, 6}}},
    {LONG("", "(", 16384, ""), 6, 4096, 0, {{0}}},
    {LONG("", "!", 16384, ""), 6, 4096, 0, {{0}}},
    {"", "(", 1000000, "1", ")", 1000000, ";", 2, 16384, 0, {{0}}},
    {LONG("", "\"", 16384, ""), 6, 8192, 0, {{0}}},
    {LONG("", "'", 16383, ""), 3, 16382, 0, {{0}}},
    {LONG("", "(", 4096, ""), 7, 4096, 0, {{0}}},
    {LONG("", "!", 4094, "1;"), 0, 1, 4095, {{1, 4094}}},
    {"", "(", 2047, "1", ")", 2047, ";", 0, 0, 1, {{0}}},
    {"", "1?", 1023, "1", ":1", 1023, ";", 0, 1023, 3070, {{1, 2044}, {1, 2042}, {1, 2040}, {1, 2038}}},
    {LONG("1", "?1:1", 1023, ";"), 0, 1023, 3070, {{1, 4088}, {1, 4084}, {1, 4080}, {1, 4076}}},
    {LONG("1", "+1", 2047, ";"), 0, 0, 4095, {{0}}},
    {LONG("", "1", 16000, ";"), 4, 0, 0, {{0}}},
    {LONG("", "0", 16000, "1;"), 0, 0, 1, {{0}}},
    {LONG("1e", "9", 16000, ";"), 4, 0, 0, {{0}}},
    {LONG("0e", "9", 16000, ";"), 0, 0, 1, {{0}}},
    {LONG("1", "0", 16000, "e-16000;"), 0, 0, 1, {{0}}},
    {LONG("", "a", 16384, ""), 4, 0, 0, {{0}}},
    {LONG("/*", "/", 16382, ""), 3, 0, 0, {{0}}},
    {LONG("", "/**/", 4096, ""), 0, 0, 0, {{0}}},
    {LONG("", "//\n", 5461, ""), 0, 0, 0, {{0}}},
    {LONG("'", "\\u0041", 255, "';"), 0, 0, 1, {{0}}},
    {LONG("'", "\\u0041", 256, "';"), 4, 0, 0, {{0}}},
    {LONG("return", " ", 16377, "\n"), 7, 0, 0, {{0}}},
    {LONG("true ? 1 : ", "true ? '2' : ", 1000, "3;"), 0, 0, 3004, {{0}}},
    {LONG("1", "&&true", 2040, ";"), 0, 1, 4081, {{1, 0}}},
    {LONG("", "'0123456789abcdef0123456789abcdef';", 248, ""), 0, 0, 248, {{0}}},
    {LONG("", "'0123456789abcdef0123456789abcdef';", 249, ""), 12, 0, 0, {{0}}},
};

static uint8_t sheet[MOST];
static uint8_t out[ROOM];
static int bad;

static size_t put(size_t at, const char *text, size_t times) {
    size_t n = strlen(text);
    for (size_t i = 0; i < times && at + n <= MOST; i++, at += n) memcpy(sheet + at, text, n);
    return at;
}

static size_t spell(const struct try *t) {
    size_t at = put(0, t->head, 1);
    at = put(at, t->again, t->times);
    at = put(at, t->middle, 1);
    at = put(at, t->back, t->times_back);
    return put(at, t->tail, 1);
}

static uint32_t at(size_t i) {
    return out[i] | (uint32_t)out[i + 1] << 8 | (uint32_t)out[i + 2] << 16 | (uint32_t)out[i + 3] << 24;
}

static void expect(size_t i, const char *what, uint32_t is, uint32_t wanted) {
    if (is == wanted) return;
    printf("sheet %zu, %s: %u, expected %u\n", i, what, is, wanted);
    bad = 1;
}

/* Everything from byte `from` on is as it was before the call. */
static void untouched(size_t i, size_t from) {
    for (size_t k = from; k < ROOM; k++)
        if (out[k] != UNTOUCHED) {
            printf("sheet %zu: byte %zu was written\n", i, k);
            bad = 1;
            return;
        }
}

static void check(size_t i, const struct try *t, size_t length, size_t room) {
    memset(out, UNTOUCHED, ROOM);
    uint32_t number = sheet_check(sheet, length, out, room);
    if (room < MUGHLEPI_HEAD) {
        expect(i, "answer without room", number, 1);
        untouched(i, 0);
        return;
    }
    expect(i, "answer", number, t->number);
    if (number != 0) {
        expect(i, "place", at(0), t->first);
        untouched(i, 4);
        return;
    }
    size_t fit = (room - MUGHLEPI_HEAD) / MUGHLEPI_FINDING;
    if (fit > t->first) fit = t->first;
    expect(i, "findings", at(0), t->first);
    expect(i, "expressions", at(4), t->second);
    for (size_t k = 0; k < fit && k < 4 && t->findings[0][0]; k++) {
        expect(i, "kind", at(8 + 8 * k), t->findings[k][0]);
        expect(i, "place of the finding", at(12 + 8 * k), t->findings[k][1]);
    }
    untouched(i, MUGHLEPI_HEAD + MUGHLEPI_FINDING * fit);
}

static void read(size_t i, const struct try *t, size_t length) {
    int refused = t->number >= 2 && t->number <= 7;
    memset(out, UNTOUCHED, ROOM);
    expect(i, "answer of reading", sheet_read(sheet, length, out, ROOM), refused ? t->number : 0);
    if (refused) expect(i, "place of reading", at(0), t->first);
    untouched(i, refused ? 4 : 0);
    memset(out, UNTOUCHED, ROOM);
    expect(i, "answer of reading without room", sheet_read(sheet, length, out, 7), 1);
    untouched(i, 0);
}

/* What the library says of a sheet. */
static void show(const struct try *t, size_t length) {
    uint32_t number = sheet_check(sheet, length, out, ROOM);
    printf("%s  ", t->head);
    if (number != 0) {
        printf("refused (%u) at %u\n", number, at(0));
        return;
    }
    printf("%u findings, %u expressions", at(0), at(4));
    for (size_t k = 0; k < at(0); k++) printf("%s %s at %u", k ? "," : ":", at(8 + 8 * k) == MUGHLEPI_CLASH ? "clash" : "unknown name", at(12 + 8 * k));
    puts("");
}

static double seconds(size_t length) {
    double best = 1e9;
    for (int k = 0; k < 5; k++) {
        struct timespec a, b;
        clock_gettime(CLOCK_MONOTONIC, &a);
        sheet_check(sheet, length, out, ROOM);
        clock_gettime(CLOCK_MONOTONIC, &b);
        double s = (double)(b.tv_sec - a.tv_sec) + (double)(b.tv_nsec - a.tv_nsec) * 1e-9;
        if (s < best) best = s;
    }
    return best;
}

int main(void) {
    static const size_t rooms[] = {0, 7, 8, 15, 16, 31, ROOM};
    size_t count = sizeof tries / sizeof *tries, worst = 0;
    double longest = 0;
    for (size_t i = 0; i < count; i++) {
        size_t length = spell(&tries[i]);
        for (size_t k = 0; k < sizeof rooms / sizeof *rooms; k++) check(i, &tries[i], length, rooms[k]);
        read(i, &tries[i], length);
        if (tries[i].times == 0) show(&tries[i], length);
        double s = seconds(length);
        if (s > longest) longest = s, worst = i;
    }
    printf("%zu sheets; the slowest, sheet %zu, takes %.3f ms\n", count, worst, longest * 1e3);
    if (longest >= 0.050) {
        puts("that is 50 ms or more");
        bad = 1;
    }
    puts(bad ? "failed" : "passed");
    return bad;
}
