/* Every call once by its exported function, on small fields that are easily worked by hand, and some refusals. */
#include <stdio.h>
#include <string.h>

#include "ombradiec.h"

#define LENGTH(a) (sizeof(a) / sizeof((a)[0]))
/* an array as a slice */
#define SLICE(a) (a), LENGTH(a)
/* two variables, and one entry between them */
#define FIELD c, 2, rows, 1, cols, 1, q, 1
#define SCRATCH SLICE(floats), SLICE(words)

static const uint16_t rows[1] = {0}, cols[1] = {1};
static double floats[OMBRADIEC_FLOATS(2, 1)];
static uint32_t words[OMBRADIEC_WORDS(2, 2)];

static void print(const char *call, ombradiec_answer answer, const char *list, size_t a, size_t b)
{
    printf("%s: refusal %d, exact %d, count %zu, pairs %zu, %s %zu %zu\n", call, OMBRADIEC_REFUSAL(answer),
           OMBRADIEC_EXACT(answer), OMBRADIEC_COUNT(answer), OMBRADIEC_PAIRS(answer), list, a, b);
}

int main(void)
{
    double c[2] = {-5, -1}, q[1] = {4}, bound = 0;
    uint8_t start[2] = {2, 2}, free_both[2] = {2, 2}, values[2] = {9, 9};
    uint16_t list[2] = {7, 7}, constraints[3] = {7, 7, 7};
    ombradiec_answer answer;

    answer = ombradiec_closure(FIELD, SLICE(start), SCRATCH);
    print("closure", answer, "values", start[0], start[1]);

    q[0] = 2, start[0] = start[1] = 2;
    answer = ombradiec_closure(FIELD, SLICE(start), SCRATCH);
    print("closure", answer, "values", start[0], start[1]);

    c[0] = c[1] = -0.5, q[0] = 2, start[0] = start[1] = 2;
    answer = ombradiec_components(FIELD, SLICE(start), SCRATCH);
    print("components", answer, "values", start[0], start[1]);

    start[0] = start[1] = 2;
    answer = ombradiec_preprocess(FIELD, SLICE(start), SCRATCH);
    print("preprocess", answer, "values", start[0], start[1]);

    start[0] = start[1] = 2;
    answer = ombradiec_heavy(FIELD, SLICE(start), SCRATCH);
    print("heavy", answer, "values", start[0], start[1]);

    answer = ombradiec_anchors(FIELD, SLICE(free_both), 2, SLICE(list), SCRATCH);
    print("anchors", answer, "list", list[0], list[1]);

    c[0] = c[1] = -1, q[0] = 6;
    answer = ombradiec_pairs(FIELD, SLICE(free_both), OMBRADIEC_MOST_PAIRS, SLICE(constraints), SCRATCH);
    print("pairs", answer, "ends", constraints[0], constraints[1]);
    printf("  forbids 11 alone %d\n", constraints[2] == OMBRADIEC_FORBIDS_11);

    c[0] = -5, q[0] = 4;
    for (size_t variable = 0; variable < 3; variable++) {
        answer = ombradiec_reason(FIELD, SLICE(free_both), variable, SLICE(list), &bound, SCRATCH);
        printf("reason: refusal %d, count %zu, list %d %d, ground %d, unit %d, bound %.0f\n", OMBRADIEC_REFUSAL(answer),
               OMBRADIEC_COUNT(answer), list[0], list[1], OMBRADIEC_GROUND(answer), OMBRADIEC_UNIT(answer), bound);
    }

    c[0] = -1;
    answer = ombradiec_probe_one(FIELD, SLICE(free_both), 0, 1, SLICE(values), SCRATCH);
    print("probe_one", answer, "values", values[0], values[1]);
    answer = ombradiec_probe_one(FIELD, SLICE(free_both), 0, 2, SLICE(values), SCRATCH);
    print("probe_one", answer, "values", values[0], values[1]);
    answer = ombradiec_cold_probe_one(FIELD, SLICE(free_both), 0, 1, SLICE(values), SCRATCH);
    print("cold_probe_one", answer, "values", values[0], values[1]);

    answer = ombradiec_probe(FIELD, SLICE(free_both), SLICE(values), SLICE(constraints), SCRATCH);
    print("probe", answer, "ends", constraints[0], constraints[1]);
    printf("  set %d, values %d %d\n", constraints[2], values[0], values[1]);
    answer = ombradiec_probe_limited(FIELD, SLICE(free_both), 0, SLICE(values), SLICE(constraints), SCRATCH);
    print("probe_limited", answer, "values", values[0], values[1]);
    answer = ombradiec_cold_probe(FIELD, SLICE(free_both), SLICE(values), SLICE(constraints), SCRATCH);
    print("cold_probe", answer, "ends", constraints[0], constraints[1]);
    printf("  set %d, values %d %d\n", constraints[2], values[0], values[1]);
    answer = ombradiec_cold_probe_limited(FIELD, SLICE(free_both), 0, SLICE(values), SLICE(constraints), SCRATCH);
    print("cold_probe_limited", answer, "values", values[0], values[1]);

    const double none[2] = {0, -0.0};
    answer = ombradiec_no_effect(none, 2, rows, 0, cols, 0, q, 0, SLICE(list), SLICE(words));
    print("no_effect", answer, "list", list[0], list[1]);
    answer = ombradiec_no_effect(none, 2, rows, 0, cols, 0, q, 0, list, 1, SLICE(words));
    print("no_effect", answer, "list", list[0], list[1]);
    answer = ombradiec_no_effect(none, 2, rows, 0, cols, 0, q, 0, SLICE(list), words, OMBRADIEC_WORDS(2, 0) - 1);
    print("no_effect", answer, "list", list[0], list[1]);

    double shifted[2] = {1, 0}, quad[2] = {4, 2};
    uint16_t some_rows[2] = {0, 0}, some_cols[2] = {0, 1};
    answer = ombradiec_shift(SLICE(shifted), SLICE(some_rows), SLICE(some_cols), SLICE(quad));
    print("shift", answer, "first entry", some_rows[0], some_cols[0]);
    printf("  c %g, q %g\n", shifted[0], quad[0]);
    /* the place past the new end is unchanged, so both lists in full have the entry twice */
    answer = ombradiec_shift(SLICE(shifted), SLICE(some_rows), SLICE(some_cols), SLICE(quad));
    printf("shift: refusal %d at entry %zu\n", OMBRADIEC_REFUSAL(answer), OMBRADIEC_POSITION(answer));

    double smaller[2] = {-5, -1}, pair[1] = {4}, constant = 9;
    uint16_t row[1] = {0}, col[1] = {1}, map[1] = {7};
    start[0] = 1, start[1] = 2;
    answer = ombradiec_sub_problem(SLICE(smaller), SLICE(row), SLICE(col), SLICE(pair), SLICE(start), SLICE(map), &constant,
                                   SCRATCH);
    print("sub_problem", answer, "left, map", OMBRADIEC_LEFT(answer), map[0]);
    printf("  c %g %g, entry %d %d %g, constant %g\n", smaller[0], smaller[1], row[0], col[0], pair[0], constant);
    /* nothing is given, and the map has one place for two free variables */
    answer = ombradiec_sub_problem(SLICE(smaller), SLICE(row), SLICE(col), SLICE(pair), SLICE(free_both), SLICE(map),
                                   &constant, SCRATCH);
    print("sub_problem", answer, "left, map", OMBRADIEC_LEFT(answer), map[0]);
    printf("  c %g %g, constant %g\n", smaller[0], smaller[1], constant);

    /* out of order, a repeat, and an entry of a variable that is not there */
    double some[4] = {1, 2, 0.5, 3}, more_floats[OMBRADIEC_FLOATS(2, 4)];
    uint32_t more_words[OMBRADIEC_WORDS(2, 4)];
    uint16_t their_rows[4] = {0, 1, 0, 7}, their_cols[4] = {1, 0, 1, 0}, report[12] = {0};
    answer = ombradiec_mend(c, 2, SLICE(their_rows), SLICE(their_cols), SLICE(some), SLICE(report),
                            SLICE(more_floats), SLICE(more_words));
    print("mend", answer, "changes, first kind", OMBRADIEC_CHANGES(answer), report[1]);
    printf("  %d %d %g, %d %d %g, %d %d %g\n", their_rows[0], their_cols[0], some[0], their_rows[1], their_cols[1], some[1],
           their_rows[2], their_cols[2], some[2]);
    printf("  %d %d %d, %d %d %d, %d %d %d, %d %d %d\n", report[0], report[1], report[2], report[3], report[4], report[5],
           report[6], report[7], report[8], report[9], report[10], report[11]);
    uint16_t good_row[1] = {0}, good_col[1] = {1};
    double good[1] = {4};
    answer = ombradiec_mend(c, 2, SLICE(good_row), SLICE(good_col), SLICE(good), SLICE(report), SCRATCH);
    print("mend", answer, "changes, first kind", OMBRADIEC_CHANGES(answer), report[1]);

    /* x0 equals x1, and exactly one of them is 1 */
    const uint16_t both[6] = {0, 1, OMBRADIEC_FORBIDS_01 | OMBRADIEC_FORBIDS_10,
                              0, 1, OMBRADIEC_FORBIDS_00 | OMBRADIEC_FORBIDS_11};
    start[0] = start[1] = 2;
    answer = ombradiec_propagate(SLICE(start), SLICE(both), SLICE(words));
    print("propagate", answer, "values", start[0], start[1]);
    start[0] = 1;
    answer = ombradiec_propagate(SLICE(start), SLICE(both), SLICE(words));
    print("propagate", answer, "values", start[0], start[1]);
    answer = ombradiec_propagate(SLICE(start), both, 3, SLICE(words));
    print("propagate", answer, "values", start[0], start[1]);

    uint8_t assignment[2];
    uint16_t counts[4];
    static uint64_t longs[OMBRADIEC_REACH_WORDS(2)];
    for (size_t length = 3; length <= 6; length += 3) {
        answer = ombradiec_allow(2, both, length, SLICE(assignment), SLICE(counts), SLICE(longs), SLICE(words));
        printf("allow: refusal %d, allows %d, named %zu, assignment %d %d, counts %d %d %d %d\n",
               OMBRADIEC_REFUSAL(answer), OMBRADIEC_ALLOWS(answer), OMBRADIEC_NAMED(answer), assignment[0],
               assignment[1], counts[0], counts[1], counts[2], counts[3]);
    }

    /* nothing is decided; with x1 at 1 the row of x0 is strict, and x0 is 0 */
    double bounds[4];
    uint32_t strict = 0;
    c[0] = -1, c[1] = -5, q[0] = 10, start[0] = start[1] = 2;
    answer = ombradiec_keep(FIELD, SLICE(start), SLICE(bounds), &strict, SCRATCH);
    print("keep", answer, "strict, value", strict, start[1]);
    printf("  bounds %g to %g, %g to %g\n", bounds[0], bounds[2], bounds[1], bounds[3]);
    answer = ombradiec_pin(FIELD, SLICE(start), SLICE(bounds), &strict, 1, 1);
    print("pin", answer, "strict, value", strict, start[1]);
    printf("  bounds %g to %g, %g to %g\n", bounds[0], bounds[2], bounds[1], bounds[3]);
    answer = ombradiec_close(FIELD, SLICE(start), SLICE(bounds), SLICE(values), SCRATCH);
    print("close", answer, "values", values[0], values[1]);
    answer = ombradiec_release(FIELD, SLICE(start), SLICE(bounds), &strict, 1);
    print("release", answer, "strict, value", strict, start[1]);
    answer = ombradiec_release(FIELD, SLICE(start), SLICE(bounds), &strict, 1);
    print("release", answer, "strict, value", strict, start[1]);
    return 0;
}
