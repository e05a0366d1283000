/* The flush plan of plan.txt, presolved from C: what the gradient forces, what may go either way, and the rest. */
#include <stdio.h>
#include <string.h>

#include "ombradiec_field.h"

enum { GROUPS = 9, PAIRS = 6 };

static const char *const names[GROUPS] = {"sales-list", "sales-pages", "sales-index", "prices", "log",
                                          "counters",   "receipts",    "photos",      "menu"};
static const double c[GROUPS] = {6, 4, 3, -3, -2.5, -0.5, -0.5, -0.5, 0.5};
static const uint16_t rows[PAIRS] = {0, 1, 3, 4, 6, 3};
static const uint16_t cols[PAIRS] = {2, 2, 4, 5, 7, 8};
static const double q[PAIRS] = {-2, -2, 2, 2, 2, -2};
static const struct ombradiec_field field = {c, GROUPS, rows, cols, q, PAIRS};

static double floats[OMBRADIEC_FLOATS(GROUPS, PAIRS)];
static uint32_t words[OMBRADIEC_WORDS(GROUPS, PAIRS)];
static const struct ombradiec_scratch scratch = {
    floats, OMBRADIEC_FLOATS(GROUPS, PAIRS), words, OMBRADIEC_WORDS(GROUPS, PAIRS), NULL, 0};

static int refused(const char *call, ombradiec_answer answer)
{
    int number = OMBRADIEC_REFUSAL(answer);
    if (number != OMBRADIEC_DONE)
        printf("%s refused %d: %s\n", call, number, ombradiec_refusal_text(number));
    return number != OMBRADIEC_DONE;
}

/* the groups whose value is new */
static void print_new(const uint8_t *before, const uint8_t *after)
{
    for (int i = 0; i < GROUPS; i++)
        if (before[i] == OMBRADIEC_FREE && after[i] != OMBRADIEC_FREE)
            printf("  %s: %s window\n", names[i], after[i] ? "second" : "first");
}

int main(void)
{
    uint8_t given[GROUPS], forced[GROUPS], plan[GROUPS];
    uint16_t anchors[GROUPS];
    memset(given, OMBRADIEC_FREE, GROUPS);
    given[8] = 1; /* the menu is always late */

    memcpy(forced, given, GROUPS);
    ombradiec_answer answer = ombradiec_closure_of(&field, forced, &scratch);
    if (refused("closure", answer))
        return 1;
    printf("forced in every best plan, grade %s:\n", OMBRADIEC_EXACT(answer) ? "exact" : "inexact");
    print_new(given, forced);

    answer = ombradiec_anchors_of(&field, forced, 2, anchors, &scratch);
    if (refused("anchors", answer))
        return 1;
    printf("in either window, each in some best plan:\n");
    for (size_t k = 0; k < OMBRADIEC_COUNT(answer); k++)
        printf("  %s\n", names[anchors[k]]);

    memcpy(plan, given, GROUPS);
    answer = ombradiec_preprocess_of(&field, plan, &scratch);
    if (refused("preprocess", answer))
        return 1;
    printf("the rest, in one best plan:\n");
    print_new(forced, plan);
    return 0;
}
