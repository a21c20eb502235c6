/* The tests, each under its name. The last line is 'N passed, M failed'. */
#include "compare.h"
#include "damage.h"
#include "on_columns.h"
#include "on_tables.h"
#include "on_texts.h"
#include "tables.h"
#include <signal.h>
#include <stdio.h>
#include <stdlib.h>
#include <string.h>

/* A test asks about many tables, or makes its calls of one function itself. */
struct test {
    const char *name;
    void (*tables)(void (*ask)(void));
    void (*ask)(void);
    void (*calls)(enum function f);
    enum function function;
};

#define TABLES(name, tables, ask) {name, tables, ask, NULL, FUNCTIONS}
#define ON_TABLES(name, ask) \
    TABLES(name ", all small tables", all_small_tables, ask), TABLES(name ", drawn tables", drawn_tables, ask), \
        TABLES(name ", structured tables", structured_tables, ask), TABLES(name ", largest tables", largest_tables, ask)
#define CALLS(name, calls, function) {name, NULL, NULL, calls, function}
#define DAMAGED(name, function) \
    CALLS(name ", damaged", damaged_calls, function), CALLS(name ", around the limits", calls_past_the_limits, function)
#define REFUSED(name, function) DAMAGED(name, function), CALLS(name ", refused in every way", calls_refused_in_every_way, function)
#define ON_COLUMNS(name, function) \
    CALLS(name ", all small columns", all_small_columns, function), CALLS(name ", drawn columns", drawn_columns, function), \
        CALLS(name ", largest columns", largest_columns, function)
#define ON_TEXTS(name, function) \
    CALLS(name ", odd spellings", odd_spellings, function), CALLS(name ", bytes changed", bytes_changed, function), \
        CALLS(name ", long lines", long_lines, function), CALLS(name ", words changed", words_changed, function), \
        CALLS(name ", size lines", size_lines, function), CALLS(name ", every room", every_room, function), \
        CALLS(name ", largest texts", largest_texts, function)

/* Sets of numbers: 0 to k, k alone, and those of kinds. */
#define UP_TO(k) ((UINT32_C(2) << (k)) - 1)
#define NO(k) (UINT32_C(1) << (k))
#define OF_KINDS (NO(21) | NO(22))

/* Each function gave every number that it names and no other, and every check failed somewhere. */
static void every_number(enum function all) {
    static const uint32_t named[FUNCTIONS] = {
        [CHECK_TABLE] = UP_TO(4) | OF_KINDS,
        [SEARCH] = UP_TO(6) | OF_KINDS,
        [TRIM] = UP_TO(6) | OF_KINDS,
        [DECOMPOSE] = UP_TO(8) | OF_KINDS,
        [LABEL_TABLE] = UP_TO(6) | OF_KINDS,
        [PATH] = UP_TO(4) | OF_KINDS | NO(6) | NO(9) | NO(11) | NO(12),
        [WRITE_CERTIFICATE] = UP_TO(6) | OF_KINDS | NO(10),
        [CHECK_CERTIFICATE] = UP_TO(5) | OF_KINDS,
        [SUMMARY] = UP_TO(1) | NO(5) | NO(9),
        [READ_TEXT] = UP_TO(1) | NO(3) | NO(5) | NO(13) | NO(14) | NO(15),
        [WRITE_LABELS] = UP_TO(1) | NO(12),
        [LABEL_TEXT] = UP_TO(1) | NO(3) | NO(12) | NO(13) | NO(14) | NO(15),
    };
    uint32_t given, all_checks = UP_TO(5);
    for (enum function f = 0; f < all; f++) {
        given = numbers_given(f);
        agree(name_of(f), &given, &named[f], sizeof given);
    }
    given = checks_failed();
    agree("checks", &given, &all_checks, sizeof given);
}

static const struct test tests[] = {
    TABLES("definitions in two ways, all small tables", all_small_tables, ask_definitions),
    TABLES("definitions in two ways, drawn tables", drawn_tables, ask_definitions),
    TABLES("definitions in two ways, structured tables", structured_tables, ask_definitions),
    ON_TABLES("check_table", ask_check_table), REFUSED("check_table", CHECK_TABLE),
    ON_TABLES("search", ask_search), REFUSED("search", SEARCH),
    ON_TABLES("trim", ask_trim), REFUSED("trim", TRIM),
    ON_TABLES("decompose", ask_decompose), REFUSED("decompose", DECOMPOSE),
    ON_TABLES("label", ask_label), REFUSED("label", LABEL_TABLE),
    TABLES("label, deep tables", deep_tables, ask_label_frugal),
    TABLES("label, as decompose gives it", drawn_tables, ask_label_as_decompose),
    ON_TABLES("path", ask_path), REFUSED("path", PATH),
    ON_TABLES("write_certificate", ask_write_certificate), REFUSED("write_certificate", WRITE_CERTIFICATE),
    ON_TABLES("check_certificate", ask_check_certificate), REFUSED("check_certificate", CHECK_CERTIFICATE),
    TABLES("a drawn mask, against counted edges alone", some_drawn_tables, ask_counted_alone),
    TABLES("mask 255, against kinds of zeros", some_drawn_tables, ask_full_mask),
    TABLES("mask 0, against no edge", some_drawn_tables, ask_empty_mask),
    ON_COLUMNS("summary", SUMMARY), DAMAGED("summary", SUMMARY),
    ON_COLUMNS("write_labels", WRITE_LABELS),
    ON_TEXTS("read_text", READ_TEXT),
    ON_TEXTS("label_text", LABEL_TEXT),
    CALLS("every number was given", every_number, FUNCTIONS),
};

enum { TESTS = sizeof tests / sizeof *tests };
static int passed, failed;
static const struct test *current;

static void end(void) {
    printf("%d passed, %d failed\n", passed, failed);
    fflush(NULL);
}

/* A guard page was touched, or something like it: that ends the tests. */
static void stopped(int number) {
    printf("  stopped by signal %d\n", number);
    say_call();
    printf("%s: FAILED\n", current->name);
    failed = TESTS - passed;
    end();
    _Exit(1);
}

static void run(const struct test *t) {
    current = t;
    restart_draws();
    begin_calls();
    if (t->calls) {
        t->calls(t->function);
    } else {
        t->tables(t->ask);
    }
    bool good = all_agreed() && calls_made() > 0;
    printf("%s: %lu calls%s\n", t->name, calls_made(), good ? "" : ", FAILED");
    fflush(NULL);
    passed += good;
    failed += !good;
}

int main(int words, char **word) {
    if (!open_memory()) return 1;
    signal(SIGSEGV, stopped);
    signal(SIGBUS, stopped);
    signal(SIGFPE, stopped);
    for (size_t i = 0; i < TESTS; i++) {
        if (words < 2 || strncmp(tests[i].name, word[1], strlen(word[1])) == 0) run(&tests[i]);
    }
    end();
    return failed > 0 || passed == 0;
}
