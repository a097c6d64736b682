#include "check.h"

#include <stdarg.h>
#include <stdio.h>
#include <stdlib.h>
#include <string.h>

enum { MOST_PRINTED = 5, MOST_NUMBER = 40, MOST_LONG = 20 };

static unsigned long checks, differences, passed, failed, answers[ENTRIES][MOST_NUMBER + 1];
static char where[200];

bool stop_at_first;
const char *only_groups = "";

static struct group {
    const char *name;
    void (*group)(void);
} now, kept[MOST_LONG];
static unsigned kept_groups;

static void end_group(void)
{
    bool holds = checks > 0 && differences == 0;
    if (checks == 0) printf("  %s: nothing was checked\n", now.name);
    printf("%s: %s (%lu checks, %lu differences)\n", holds ? "passed" : "FAILED", now.name, checks, differences);
    fflush(stdout);
    if (holds)
        passed++;
    else
        failed++;
    if (failed && stop_at_first) exit(close_checks());
}

void run_group(const char *name, void (*group)(void))
{
    if (!strstr(name, only_groups)) return;
    checks = differences = 0;
    where[0] = 0;
    now = (struct group){name, group};
    group();
    end_group();
}

void run_last(const char *name, void (*group)(void))
{
    if (kept_groups == MOST_LONG) {
        fputs("too many long groups\n", stderr);
        exit(2);
    }
    kept[kept_groups++] = (struct group){name, group};
}

void run_kept(void)
{
    for (unsigned i = 0; i < kept_groups; i++) run_group(kept[i].name, kept[i].group);
}

void at_case(const char *format, ...)
{
    va_list words;
    va_start(words, format);
    vsnprintf(where, sizeof where, format, words);
    va_end(words);
}

bool expect(bool holds, const char *format, ...)
{
    checks++;
    if (holds || ++differences > MOST_PRINTED) return holds;
    va_list words;
    va_start(words, format);
    printf("  %s: ", where);
    vprintf(format, words);
    putchar('\n');
    va_end(words);
    if (stop_at_first) end_group();
    return false;
}

void note_answer(enum entry entry, uint16_t answer) { answers[entry][answer < MOST_NUMBER ? answer : MOST_NUMBER]++; }

static bool was_called(const unsigned long numbers[])
{
    for (unsigned number = 0; number <= MOST_NUMBER; number++)
        if (numbers[number]) return true;
    return false;
}

static void print_answers(const char *name, const unsigned long numbers[])
{
    if (!was_called(numbers)) return;
    printf("%s answered:", name);
    for (unsigned number = 0; number <= MOST_NUMBER; number++) {
        if (!numbers[number]) continue;
        if (number == 0)
            printf(" accepted %lu", numbers[number]);
        else
            printf(" | %u%s %lu", number, number == MOST_NUMBER ? " or more" : "", numbers[number]);
    }
    putchar('\n');
}

int close_checks(void)
{
    static const char *const names[ENTRIES] = {"reader", "step", "run", "writer", "desk", "tables of messages",
                                               "book", "late", "withdrawn", "trial", "store", "fresh forecast",
                                               "forecast step"};
    for (unsigned entry = 0; entry < ENTRIES; entry++) print_answers(names[entry], answers[entry]);
    if (passed + failed == 0) {
        printf("FAILED: no group's name has the text \"%s\"\n", only_groups);
        failed++;
    }
    printf("%lu passed, %lu failed\n", passed, failed);
    return failed ? 1 : 0;
}
