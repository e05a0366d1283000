/* Every call by ombradiec_field.h, held to its exported function: the answers and the lists are the same. */
#include <stdio.h>
#include <string.h>

#include "ombradiec_field.h"

/* A chain of 13 with some chords, of which the closure forces one variable and the probes one more; a pair that may be turned
 * over; and a variable of no effect. */
enum { N = 16, M = 16, ROOM = OMBRADIEC_FOUND(N) };
static const double c[N] = {0, -1, 3, 0, -2, 1, 2, -4, -2, -3, 0, -1, -3, -0.5, -0.5, 0};
static const uint16_t rows[M] = {0, 1, 2, 1, 3, 4, 0, 5, 6, 7, 8, 9, 10, 3, 11, 13};
static const uint16_t cols[M] = {1, 2, 3, 4, 4, 5, 6, 6, 7, 8, 9, 10, 11, 12, 12, 14};
static const double q[M] = {2, -4, -4, -2, 4, -6, 6, 2, -4, 2, 2, 6, -4, 4, 2, 2};
static const struct ombradiec_field field = {c, N, rows, cols, q, M};
#define FIELD c, N, rows, M, cols, M, q, M

enum { FLOATS = OMBRADIEC_FLOATS(N, M), WORDS = OMBRADIEC_WORDS(N, ROOM), LONGS = OMBRADIEC_REACH_WORDS(N) };
static double floats[FLOATS];
static uint32_t words[WORDS];
static uint64_t longs[LONGS];
static const struct ombradiec_scratch scratch = {floats, FLOATS, words, WORDS, longs, LONGS};
#define SCRATCH floats, FLOATS, words, WORDS

static uint8_t given[N], left[N], right[N];
static uint16_t list[3 * ROOM], other[3 * ROOM];
static int different;

/* whether two answers are the same, and two stretches of memory */
static void hold(const char *call, ombradiec_answer answer, ombradiec_answer exported, const void *a, const void *b, size_t size)
{
    int same = answer == exported && memcmp(a, b, size) == 0;
    different |= !same;
    printf("%s: %s, count %u, %s\n", call, ombradiec_refusal_text(OMBRADIEC_REFUSAL(answer)),
           OMBRADIEC_AS(unsigned, OMBRADIEC_COUNT(answer)), same ? "same" : "DIFFERENT");
}

static void print_values(const uint8_t *values)
{
    printf("  values ");
    for (int i = 0; i < N; i++)
        printf("%d", values[i]);
    printf("\n");
}

/* both value lists as given, and both other lists as no call leaves them */
static void reset(void)
{
    memcpy(left, given, N);
    memcpy(right, given, N);
    memset(list, 0xff, sizeof(list));
    memset(other, 0xff, sizeof(other));
}

static void values_into_start(void)
{
    reset();
    ombradiec_answer answer = ombradiec_closure_of(&field, left, &scratch);
    hold("closure", answer, ombradiec_closure(FIELD, right, N, SCRATCH), left, right, N);
    print_values(left);
    reset();
    answer = ombradiec_components_of(&field, left, &scratch);
    hold("components", answer, ombradiec_components(FIELD, right, N, SCRATCH), left, right, N);
    print_values(left);
    reset();
    answer = ombradiec_preprocess_of(&field, left, &scratch);
    hold("preprocess", answer, ombradiec_preprocess(FIELD, right, N, SCRATCH), left, right, N);
    print_values(left);
    reset();
    answer = ombradiec_heavy_of(&field, left, &scratch);
    hold("heavy", answer, ombradiec_heavy(FIELD, right, N, SCRATCH), left, right, N);
    print_values(left);
}

static void lists_of_variables(void)
{
    double bound = 0, other_bound = 0;
    reset();
    ombradiec_answer answer = ombradiec_no_effect_of(&field, list, &scratch);
    hold("no_effect", answer, ombradiec_no_effect(FIELD, other, N, words, WORDS), list, other, sizeof(list));
    reset();
    answer = ombradiec_anchors_of(&field, given, 2, list, &scratch);
    hold("anchors", answer, ombradiec_anchors(FIELD, given, N, 2, other, N, SCRATCH), list, other, sizeof(list));
    for (size_t variable = 0; variable < N; variable++) {
        reset();
        answer = ombradiec_reason_of(&field, given, variable, list, &bound, &scratch);
        ombradiec_answer exported = ombradiec_reason(FIELD, given, N, variable, other, N, &other_bound, SCRATCH);
        if (OMBRADIEC_REFUSAL(answer) == OMBRADIEC_DONE)
            hold("reason", answer, exported, list, other, sizeof(list));
        else
            different |= answer != exported;
    }
    printf("  bound %.0f, %s\n", bound, bound == other_bound ? "same" : "DIFFERENT");
}

static void constraints(void)
{
    reset();
    ombradiec_answer answer = ombradiec_pairs_of(&field, given, 100, list, ROOM, &scratch);
    hold("pairs", answer, ombradiec_pairs(FIELD, given, N, 100, other, 3 * ROOM, SCRATCH), list, other, sizeof(list));
    reset();
    answer = ombradiec_probe_one_of(&field, given, 3, 1, left, &scratch);
    hold("probe_one", answer, ombradiec_probe_one(FIELD, given, N, 3, 1, right, N, SCRATCH), left, right, N);
    reset();
    answer = ombradiec_cold_probe_one_of(&field, given, 3, 1, left, &scratch);
    hold("cold_probe_one", answer, ombradiec_cold_probe_one(FIELD, given, N, 3, 1, right, N, SCRATCH), left, right, N);
    reset();
    answer = ombradiec_probe_of(&field, given, left, list, ROOM, &scratch);
    hold("probe", answer, ombradiec_probe(FIELD, given, N, right, N, other, 3 * ROOM, SCRATCH), list, other, sizeof(list));
    different |= memcmp(left, right, N) != 0;
    print_values(left);
    reset();
    answer = ombradiec_cold_probe_of(&field, given, left, list, ROOM, &scratch);
    hold("cold_probe", answer, ombradiec_cold_probe(FIELD, given, N, right, N, other, 3 * ROOM, SCRATCH), list, other,
         sizeof(list));
    different |= memcmp(left, right, N) != 0;
    reset();
    answer = ombradiec_probe_limited_of(&field, given, 3, left, list, ROOM, &scratch);
    hold("probe_limited", answer, ombradiec_probe_limited(FIELD, given, N, 3, right, N, other, 3 * ROOM, SCRATCH), list,
         other, sizeof(list));
    different |= memcmp(left, right, N) != 0;
    reset();
    answer = ombradiec_cold_probe_limited_of(&field, given, 3, left, list, ROOM, &scratch);
    hold("cold_probe_limited", answer,
         ombradiec_cold_probe_limited(FIELD, given, N, 3, right, N, other, 3 * ROOM, SCRATCH), list, other, sizeof(list));
    different |= memcmp(left, right, N) != 0;

    /* what pairs finds, propagated from one value and asked as a whole */
    reset();
    size_t count = OMBRADIEC_COUNT(ombradiec_pairs_of(&field, given, 100, list, ROOM, &scratch));
    left[list[0]] = right[list[0]] = 1;
    answer = ombradiec_propagate_of(N, list, count, left, &scratch);
    hold("propagate", answer, ombradiec_propagate(right, N, list, 3 * count, words, WORDS), left, right, N);
    print_values(left);
    uint16_t counts[2 * N], other_counts[2 * N];
    answer = ombradiec_allow_of(N, list, count, left, counts, &scratch);
    hold("allow", answer,
         ombradiec_allow(N, list, 3 * count, right, N, other_counts, 2 * N, longs, LONGS, words, WORDS), counts, other_counts,
         sizeof(counts));
    print_values(left);
    different |= memcmp(left, right, N) != 0;
}

static void changed_fields(void)
{
    /* a diagonal, an entry twice and one out of order */
    enum { ENTRIES = 4 };
    double c1[3] = {1, 2, 3}, c2[3] = {1, 2, 3}, q1[ENTRIES] = {8, 2, 4, 6}, q2[ENTRIES] = {8, 2, 4, 6}, one = 0, two = 0;
    uint16_t r1[ENTRIES] = {1, 0, 0, 1}, r2[ENTRIES] = {1, 0, 0, 1}, k1[ENTRIES] = {2, 1, 0, 2}, k2[ENTRIES] = {2, 1, 0, 2};
    struct ombradiec_own_field own = {c1, 3, r1, k1, q1, ENTRIES};
    reset();
    ombradiec_answer answer = ombradiec_mend_of(&own, list, &scratch);
    hold("mend", answer, ombradiec_mend(c2, 3, r2, ENTRIES, k2, ENTRIES, q2, ENTRIES, other, 3 * ENTRIES, SCRATCH), list,
         other, sizeof(list));
    printf("  entries left %u\n", OMBRADIEC_AS(unsigned, own.entries));
    answer = ombradiec_shift_of(&own);
    hold("shift", answer, ombradiec_shift(c2, 3, r2, 3, k2, 3, q2, 3), c1, c2, sizeof(c1));
    printf("  entries left %u\n", OMBRADIEC_AS(unsigned, own.entries));
    const uint8_t some[3] = {OMBRADIEC_FREE, OMBRADIEC_FREE, 1};
    answer = ombradiec_sub_problem_of(&own, some, list, &one, &scratch);
    hold("sub_problem", answer, ombradiec_sub_problem(c2, 3, r2, 2, k2, 2, q2, 2, some, 3, other, 3, &two, SCRATCH), c1, c2,
         sizeof(c1));
    different |= one != two || memcmp(list, other, sizeof(list)) != 0;
    struct ombradiec_field smaller = ombradiec_read(&own);
    printf("  variables left %u, entries %u, weights %g %g, entry %d %d %g, constant %g\n",
           OMBRADIEC_AS(unsigned, smaller.variables), OMBRADIEC_AS(unsigned, smaller.entries), smaller.c[0], smaller.c[1],
           smaller.rows[0], smaller.cols[0], smaller.q[0], one);
}

static void records(void)
{
    double bounds[2 * N], other_bounds[2 * N];
    uint32_t strict = 0;
    reset();
    struct ombradiec_record record = {left, bounds, 0};
    ombradiec_answer answer = ombradiec_keep_of(&field, &record, &scratch);
    hold("keep", answer, ombradiec_keep(FIELD, right, N, other_bounds, 2 * N, &strict, SCRATCH), bounds, other_bounds,
         sizeof(bounds));
    printf("  strict %u %u\n", record.strict, strict);
    answer = ombradiec_pin_of(&field, &record, 9, 0);
    hold("pin", answer, ombradiec_pin(FIELD, right, N, other_bounds, 2 * N, &strict, 9, 0), bounds, other_bounds,
         sizeof(bounds));
    printf("  strict %u %u\n", record.strict, strict);
    uint8_t closed[N], other_closed[N];
    answer = ombradiec_close_of(&field, &record, closed, &scratch);
    hold("close", answer, ombradiec_close(FIELD, right, N, other_bounds, 2 * N, other_closed, N, SCRATCH), closed,
         other_closed, N);
    print_values(closed);
    answer = ombradiec_release_of(&field, &record, 9);
    hold("release", answer, ombradiec_release(FIELD, right, N, other_bounds, 2 * N, &strict, 9), bounds, other_bounds,
         sizeof(bounds));
    different |= memcmp(left, right, N) != 0 || record.strict != strict;
}

static void length(const char *what, size_t elements)
{
    printf("  %s %u\n", what, OMBRADIEC_AS(unsigned, elements));
}

static void lengths(void)
{
    printf("lengths for 16 variables and 5 entries or constraints, 3 candidates and a limit of 100, and the greatest:\n");
    length("floats", OMBRADIEC_FLOATS(16, 5));
    length("words", OMBRADIEC_WORDS(16, 5));
    length("longs", OMBRADIEC_REACH_WORDS(16));
    length("values", OMBRADIEC_VALUES(16));
    length("bounds", OMBRADIEC_BOUNDS(16));
    length("counts", OMBRADIEC_COUNTS(16));
    length("list", OMBRADIEC_LIST(16));
    length("report", OMBRADIEC_REPORT(5));
    length("records", OMBRADIEC_RECORDS(5));
    length("found", OMBRADIEC_FOUND(16));
    length("found of nothing", OMBRADIEC_FOUND(0));
    length("found by candidates", OMBRADIEC_FOUND_LIMITED(16, 3));
    length("found by more than all", OMBRADIEC_FOUND_LIMITED(16, 300));
    length("found by pairs", OMBRADIEC_FOUND_PAIRS(16, 100));
    length("found by all pairs", OMBRADIEC_FOUND_PAIRS(16, OMBRADIEC_MOST_PAIRS));
    length("found by pairs of the largest field", OMBRADIEC_FOUND_PAIRS(OMBRADIEC_MOST_VARIABLES, 1000000));
    length("most floats", OMBRADIEC_MOST_FLOATS);
    length("most words", OMBRADIEC_MOST_WORDS);
    length("most found", OMBRADIEC_MOST_FOUND);
}

int main(void)
{
    memset(given, OMBRADIEC_FREE, N);
    values_into_start();
    lists_of_variables();
    constraints();
    changed_fields();
    records();

    /* a field without entries may have null lists, and one without variables is done too */
    const struct ombradiec_field bare = {c, 2, NULL, NULL, NULL, 0}, none = {NULL, 0, NULL, NULL, NULL, 0};
    reset();
    ombradiec_answer answer = ombradiec_closure_of(&bare, left, &scratch);
    hold("closure without entries", answer, ombradiec_closure(c, 2, rows, 0, cols, 0, q, 0, right, 2, SCRATCH), left, right, N);
    answer = ombradiec_closure_of(&none, left, &scratch);
    hold("closure of nothing", answer, ombradiec_closure(c, 0, rows, 0, cols, 0, q, 0, right, 0, SCRATCH), left, right, N);
    answer = ombradiec_propagate_of(N, NULL, 0, left, &scratch);
    hold("propagate nothing", answer, ombradiec_propagate(right, N, rows, 0, words, WORDS), left, right, N);
    lengths();
    return different;
}
