/* The stack that each function of the library touches at no level, at 64 levels and on its worst input, as a table.
 *
 * Each call runs in a thread whose stack is painted with one byte; where the paint is gone, the stack was touched.
 * Counted is what lies below the caller's frame. */
#include <pthread.h>
#include <stdio.h>
#include <stdlib.h>
#include <string.h>

#include "rfc733.h"

enum { STACK = 1 << 20, LIMIT = 32768, LEVELS = 64, BY_TABLE_MOST = 4095, PAINT = 0xA5, PATH = 65, FUNCTIONS = 11 };
enum { RECORD = 512, NAME_BYTES = 64, OPENINGS = 64 };

static _Alignas(4096) uint8_t stack[STACK];
static uint8_t message[LIMIT], table[12 * LIMIT];
static uint8_t store[OPENINGS * RECORD];
static size_t length, store_length;
static uint64_t told[4], path[PATH];
static const uint8_t nothing[1];

/* An input: three texts, each so many times, and the answer's number of one function, by document 01. */
struct worst {
    const char *name, *front, *middle, *back;
    size_t fronts, middles, backs;
    int function;
    unsigned number;
};

enum { SPLIT, NAME, SCAN, ADDRESSES, EDITION_822, BY_TABLE, TOUCH, PLAIN, EXPAND, DATE, REPLY };

static const struct worst inputs[] = {
    {"empty", "", "", "", 0, 0, 0, ADDRESSES, 0},
    {"64 levels of `<`", "<", "", ">", 64, 0, 64, ADDRESSES, 0},
    {"64 levels of `a:`", "a:", "", ";", 64, 0, 64, ADDRESSES, 0},
    {"64 levels of `:`", ":", "", ";", 64, 0, 64, ADDRESSES, 0},
    {"64 levels of `:a:`", ":a:", "x at y", "", 64, 1, 0, ADDRESSES, 0},
    {"65 levels of `:a:`", ":a:", "x at y", "", 65, 1, 0, ADDRESSES, 10},
    {"`<`", "<", "", "", LIMIT, 0, 0, ADDRESSES, 10},
    {"`(`", "(", "", "", LIMIT, 0, 0, ADDRESSES, 6},
    {"`\"\",`", "\"\",", "", "", LIMIT / 3, 0, 0, ADDRESSES, 0},
    {"`,`", ",", "", "", LIMIT, 0, 0, ADDRESSES, 0},
    {"long list at level 64 of `<`", "<", "a@b,", ">", 64, 8160, 64, ADDRESSES, 0},
    {"long list at level 64 of `a:`", "a:", "a@b,", ";", 64, 8144, 64, ADDRESSES, 0},
    {"every word at level 64 of `:`", ":", "\"a\"(b)at\"c\"at d,", ";", 64, 1900, 64, ADDRESSES, 0},
    {"long phrase", "a ", "at b", "", 16382, 1, 0, ADDRESSES, 0},
    {"many nodes", "a", "@a", "", 1, 16383, 0, ADDRESSES, 0},
    {"long RFC 822 group", "x:", "y<\"a\".b@[c]>,", ";", 1, 2340, 1, EDITION_822, 0},
    {"long quoted-string", "\"", "\\\"", "\"", 1, 16383, 1, ADDRESSES, 0},
    {"header of one field", "A:", "x", "\r\n", 1, LIMIT - 4, 1, SPLIT, 0},
    {"header of many fields", "a:\r\n", "", "", LIMIT / 4, 0, 0, SPLIT, 0},
    {"long date", " ", "1 Jan 1900 0000 Z", "", LIMIT - 17, 1, 0, DATE, 0},
    {"many parts of a date", "1 ", "", "", LIMIT / 2, 0, 0, DATE, 12},
    {"known name", "Reply-To", "", "", 1, 0, 0, ADDRESSES, 9},
};

enum { INPUTS = sizeof inputs / sizeof *inputs };
/* The inputs without a level and with 64 levels that the table shows. */
enum { EMPTY = 0, TOWER = 1 };

static void put(const char *text, size_t times) {
    size_t size = strlen(text);
    for (; times > 0; times--, length += size) memcpy(message + length, text, size);
}

static void lay(const struct worst *one) {
    length = 0;
    put(one->front, one->fronts);
    put(one->middle, one->middles);
    put(one->back, one->backs);
}

static void run_split(void) { rfc733_split(message, length, table, sizeof table, told, 3); }
static void run_name(void) {
    static uint64_t compared;
    rfc733_known_name(message, length, &compared);
}
static void run_scan(void) { rfc733_scan(message, length, 0, length, told, 3); }
static void run_addresses(void) { rfc733_addresses(message, length, 0, length, 733, table, sizeof table, told, 3); }
static void run_edition_822(void) { rfc733_addresses(message, length, 0, length, 822, table, sizeof table, told, 3); }
static void run_by_table(void) {
    rfc733_addresses_by_table(message, length, 0, length, table, sizeof table, told, 3);
}
static void run_touch(void) { rfc733_touch(message, length, 0, length, length / 2, path, PATH, told, 3); }
static void run_plain(void) { rfc733_plain(message, length, 0, length, table, sizeof table, told, 3); }
static void run_expand(void) {
    rfc733_expand(message, length, 0, length, store, store_length, table, sizeof table, told, 4);
}
static void run_reply(void) { rfc733_reply(message, length, nothing, 0); }
static void run_date(void) {
    static int64_t seconds;
    rfc733_date(message, length, 0, length, told, 3, &seconds);
}

static void (*const functions[FUNCTIONS])(void) = {run_split,    run_name,  run_scan,  run_addresses, run_edition_822,
                                                   run_by_table, run_touch, run_plain, run_expand,    run_date,
                                                   run_reply};
static const char *const names[FUNCTIONS] = {"split", "known_name", "scan",   "addresses", "addresses, 822", "addresses_by_table",
                                             "touch", "plain",      "expand", "date",      "reply"};
static const uint8_t *caller;

static void *call(void *function) {
    caller = __builtin_frame_address(0);
    (*(void (*const *)(void))function)();
    return NULL;
}

/* The bytes below the caller's frame that a call touched. */
static size_t touched(int function) {
    pthread_attr_t attributes;
    pthread_t thread;
    size_t low = 0;
    memset(stack, PAINT, sizeof stack);
    if (pthread_attr_init(&attributes) != 0 || pthread_attr_setstack(&attributes, stack, sizeof stack) != 0 ||
        pthread_create(&thread, &attributes, call, (void *)&functions[function]) != 0 ||
        pthread_join(thread, NULL) != 0) {
        perror("thread");
        exit(2);
    }
    pthread_attr_destroy(&attributes);
    while (stack[low] == PAINT) low++;
    return (size_t)(caller - (stack + low));
}

static void fail(const struct worst *one, const char *what, size_t given, size_t wanted) {
    fprintf(stderr, "%s: %s %zu, wanted %zu\n", one->name, what, given, wanted);
    exit(1);
}

/* Whether the number of an input is the answer of a function. */
static int answers(const struct worst *one, int function) {
    return function == one->function || (function == BY_TABLE && one->function == ADDRESSES);
}

/* The second address reader must touch as much at 64 levels as at 1, and never more than its most. */
static void check_by_table(const struct worst *one, size_t bytes) {
    struct worst shallow = *one;
    size_t at_one;
    if (bytes > BY_TABLE_MOST) fail(one, "stack by table", bytes, BY_TABLE_MOST);
    if (one->fronts != LEVELS) return;
    shallow.fronts = 1;
    shallow.backs /= LEVELS;
    lay(&shallow);
    at_one = touched(BY_TABLE);
    if (bytes != at_one) fail(one, "stack by table", bytes, at_one);
}

/* What each function touches on each input. */
static size_t bytes[FUNCTIONS][INPUTS];

static void measure(size_t input) {
    const struct worst *one = &inputs[input];
    lay(one);
    for (int i = 0; i < FUNCTIONS; i++) {
        bytes[i][input] = touched(i);
        if (answers(one, i) && told[0] != one->number) fail(one, "answer", told[0], one->number);
    }
    check_by_table(one, bytes[BY_TABLE][input]);
}

static void show(int function) {
    size_t worst = 0;
    for (size_t i = 1; i < INPUTS; i++) {
        if (bytes[function][i] > bytes[function][worst]) worst = i;
    }
    printf("| %s | %zu | %zu | %zu | %s |\n", names[function], bytes[function][EMPTY], bytes[function][TOWER],
           bytes[function][worst], inputs[worst].name);
}

/* How many stored lists are opened in each other. */
static const size_t nestings[] = {1, OPENINGS};

/* Lays what stands after so many openings: the Include of the next list, or at last a list at the levels. */
static void lay_after(size_t opened, size_t openings, size_t levels) {
    char include[NAME_BYTES];
    length = 0;
    if (opened < openings) {
        snprintf(include, sizeof include, ":Include: a at %zu", opened);
        put(include, 1);
        return;
    }
    put(":", levels);
    put("\"a\"(b)at\"c\"at d", 1);
    put(";", levels);
}

/* What expand touches where so many lists are opened in each other, the last of them with so many levels. */
static size_t nested(size_t openings, size_t levels) {
    size_t most;
    store_length = openings * RECORD;
    for (size_t i = 0; i < openings; i++) {
        uint8_t *record = store + i * RECORD;
        memset(record, 0, NAME_BYTES);
        memset(record + NAME_BYTES, ' ', RECORD - NAME_BYTES);
        snprintf((char *)record, NAME_BYTES, "a at %zu", i);
        lay_after(i + 1, openings, levels);
        memcpy(record + NAME_BYTES, message, length);
    }
    lay_after(0, openings, levels);
    most = touched(EXPAND);
    if (told[0] != 0 || told[3] != openings) {
        fprintf(stderr, "%zu openings: answer %u, openings %u\n", openings, (unsigned)told[0], (unsigned)told[3]);
        exit(1);
    }
    return most;
}

int main(void) {
    for (size_t i = 0; i < INPUTS; i++) measure(i);
    puts("| function | no level | 64 levels | most | on |\n|---|--:|--:|--:|---|");
    for (int i = 0; i < FUNCTIONS; i++) show(i);
    for (size_t i = 0; i < sizeof nestings / sizeof *nestings; i++) {
        size_t flat = nested(nestings[i], 0), deep = nested(nestings[i], LEVELS);
        printf("| expand, %zu stored in each other | %zu | %zu | %zu | 64 levels in the last |\n", nestings[i], flat, deep, deep);
    }
    return 0;
}
