/* Ombradiec: a presolver for quadratic 0/1 problems.
 *
 * Link crates/ombradiec/out/libombradiec.a, which `tools/archive` makes, into an x86-64 Linux program, or
 * target/native/libombradiec.a, which `tools/native ombradiec` makes, into one for Arm; docs/LINKING.md has the lines. Of
 * the C library it needs memset and memcpy, and nothing else. ombradiec_field.h has the same calls with fewer arguments.
 *
 * A slice is a pointer and a length in elements. A slice that a call writes to overlaps no other slice of the call.
 * The pointer of an empty slice is aligned and not null. Floats are computed as C starts: rounded to nearest, and
 * subnormal numbers kept. A call asks nothing else: it tests its arguments. It allocates nothing, keeps nothing and
 * calls nothing back, so calls on different memory may run at the same time.
 *
 * A field is n linear weights `c` and m entries: `rows`, `cols` and `q`, of one length, rising strictly by column,
 * then row. It stands for the objective: the sum of c[i] x[i], and half the sum of q[k] x[rows[k]] x[cols[k]].
 * Start values are n bytes: 0, 1, or OMBRADIEC_FREE. `f` and `u` are scratch, of at least OMBRADIEC_FLOATS(n, m)
 * and OMBRADIEC_WORDS(n, m) elements; what they hold does not matter.
 *
 * What each call promises, for every input, is proved: see README.md. What stands here in C, the macros and
 * ombradiec_refusal_text, is shown by runs.
 */
#ifndef OMBRADIEC_H
#define OMBRADIEC_H

/* the version of the library, of this header and of the crate in rust/ */
#define OMBRADIEC_VERSION "0.3.0"

#include <stddef.h>
#include <stdint.h>

#ifdef __cplusplus
extern "C" {
#endif

/* a value as one of another type */
#ifdef __cplusplus
#define OMBRADIEC_AS(type, value) (static_cast<type>(value))
#else
#define OMBRADIEC_AS(type, value) ((type)(value))
#endif

/* What a call answers, in one number: bits 0 to 7 the refusal, 8 to 15 the grade, 16 to 43 the count, 44 to 63 the pairs
 * examined, of reason 4 times the unit and the ground, of sub_problem the variables left, of mend the changes. A refusal
 * has neither a grade nor counts; of ROW, COLUMN, REPEAT and ORDER the count's bits hold the position of the first entry at
 * fault. */
typedef uint64_t ombradiec_answer;

/* 0, or the refusal */
#define OMBRADIEC_REFUSAL(answer) OMBRADIEC_AS(int, (answer) & 0xff)
/* 1 if the field is exact, so that no sum rounds; 0 if it is not */
#define OMBRADIEC_EXACT(answer) OMBRADIEC_AS(int, (answer) >> 8 & 0xff)
/* the items in the answer list; of shift, sub_problem and mend the new number of entries; of closure and close the free
 * variables with a flat row */
#define OMBRADIEC_COUNT(answer) OMBRADIEC_AS(size_t, (answer) >> 16 & 0xfffffff)
/* of ROW, COLUMN, REPEAT and ORDER: the position of the first entry at fault, from 0, in the lists given */
#define OMBRADIEC_POSITION(answer) OMBRADIEC_COUNT(answer)
/* of pairs: the pairs examined */
#define OMBRADIEC_PAIRS(answer) OMBRADIEC_AS(size_t, (answer) >> 44)
/* of reason: the ground, and k of the unit 2^(k - 20), from 0 to 40 */
#define OMBRADIEC_GROUND(answer) OMBRADIEC_AS(int, (answer) >> 44 & 3)
#define OMBRADIEC_UNIT(answer) OMBRADIEC_AS(int, (answer) >> 46)
/* of sub_problem: the variables left, which are also the items of the map */
#define OMBRADIEC_LEFT(answer) OMBRADIEC_PAIRS(answer)
/* of mend: the changes, which are the items of the report */
#define OMBRADIEC_CHANGES(answer) OMBRADIEC_PAIRS(answer)
/* of allow: 1 for yes, 0 for no; of a no the lowest variable each of whose values implies the other */
#define OMBRADIEC_ALLOWS(answer) OMBRADIEC_EXACT(answer)
#define OMBRADIEC_NAMED(answer) OMBRADIEC_COUNT(answer)

/* The refusals, tested in this order. Those up to SCRATCH change nothing lent; past it all of the scratch ends as zeros.
 * INEXACT and UNFORCED are reason's, and leave its list and its bound; INEXACT is keep's too, and leaves the record.
 * SUM is mend's, and changes nothing lent.
 * ROW to ORDER are one test: at the first entry at fault the row is tested before the column, and both before its place.
 * 3, which stood for the four, is not given any more. */
#define OMBRADIEC_DONE 0
#define OMBRADIEC_VARIABLES 1 /* more than 4,096 variables, of allow more than 1,024 */
#define OMBRADIEC_LISTS 2     /* the entry lists differ in length, or have more than 32,768 entries */
#define OMBRADIEC_ROW 14      /* the row of an entry is not below n */
#define OMBRADIEC_COLUMN 15   /* the column of an entry is not below n */
#define OMBRADIEC_REPEAT 16   /* an entry has the same place as the entry before */
#define OMBRADIEC_ORDER 17    /* an entry stands before the entry before: entries rise by column, then row */
#define OMBRADIEC_DIAGONAL 4  /* an entry has its row equal to its column */
#define OMBRADIEC_WEIGHTS 5   /* a weight is not finite */
#define OMBRADIEC_SUM 18      /* the weights at one place have a sum that is not finite */
#define OMBRADIEC_START 6     /* the start values are not n long, or a byte is above 2; a record's bounds are not 2n long */
#define OMBRADIEC_ARGUMENT 7  /* a variable, a value or a constraint is not as the call asks */
#define OMBRADIEC_SCRATCH 8   /* a scratch is too short */
#define OMBRADIEC_INEXACT 12  /* the field is inexact */
#define OMBRADIEC_UNFORCED 13 /* the variable is not below n, or is free at the end */
#define OMBRADIEC_ROOM 9      /* an answer list does not fit; each is all zeros then, so both lists of a probe */
#define OMBRADIEC_CLASH 10    /* the constraints clash */

/* the words of a refusal, as tools/refusals has them */
static inline const char *ombradiec_refusal_text(int number)
{
    switch (number) {
    case OMBRADIEC_DONE:
        return "done";
    case OMBRADIEC_VARIABLES:
        return "there are more than 4,096 variables";
    case OMBRADIEC_LISTS:
        return "the entry lists differ in length, or have more than 32,768 entries";
    case OMBRADIEC_DIAGONAL:
        return "an entry is on the diagonal: its row is its column";
    case OMBRADIEC_WEIGHTS:
        return "a weight is not finite";
    case OMBRADIEC_START:
        return "the start values are not one 0, 1 or 2 for each variable";
    case OMBRADIEC_ARGUMENT:
        return "a probed variable, a probed value or a constraint is not as the call asks";
    case OMBRADIEC_SCRATCH:
        return "a scratch is too short";
    case OMBRADIEC_ROOM:
        return "an answer list does not fit";
    case OMBRADIEC_CLASH:
        return "the constraints clash";
    case OMBRADIEC_INEXACT:
        return "the field is inexact";
    case OMBRADIEC_UNFORCED:
        return "the variable is none of the field, or is free at the end";
    case OMBRADIEC_ROW:
        return "an entry's row is not a variable";
    case OMBRADIEC_COLUMN:
        return "an entry's column is not a variable";
    case OMBRADIEC_REPEAT:
        return "an entry has the same place as the entry before";
    case OMBRADIEC_ORDER:
        return "an entry is out of order: entries rise by column, then row";
    case OMBRADIEC_SUM:
        return "the weights at one place have a sum that is not finite";
    default:
        return "no refusal has this number";
    }
}

/* a start value, or a probe value, that is not given */
#define OMBRADIEC_FREE 2

/* the limits of a field, of a pair walk and of propagation */
#define OMBRADIEC_MOST_VARIABLES 4096
#define OMBRADIEC_MOST_ENTRIES 32768
#define OMBRADIEC_MOST_PAIRS 250000
#define OMBRADIEC_MOST_CONSTRAINTS 65536
/* the limit of variables of allow */
#define OMBRADIEC_MOST_REACHED 1024

/* the least scratch for n variables and m entries, in elements; of propagate and allow m is the number of records */
#define OMBRADIEC_FLOATS(n, m) (8 * OMBRADIEC_AS(size_t, n) + 4 * OMBRADIEC_AS(size_t, m) + 16)
#define OMBRADIEC_WORDS(n, m) (16 * OMBRADIEC_AS(size_t, n) + 8 * OMBRADIEC_AS(size_t, m) + 16)
/* the least u64 scratch of allow for n variables, in elements */
#define OMBRADIEC_REACH_WORDS(n) (128 * OMBRADIEC_AS(size_t, n))
/* enough for every field, and of words for propagate and allow too */
#define OMBRADIEC_MOST_FLOATS OMBRADIEC_FLOATS(OMBRADIEC_MOST_VARIABLES, OMBRADIEC_MOST_ENTRIES)
#define OMBRADIEC_MOST_WORDS OMBRADIEC_WORDS(OMBRADIEC_MOST_VARIABLES, OMBRADIEC_MOST_CONSTRAINTS)

/* The lengths of the lists that a call gives, in elements, for n variables and m entries. */
/* exactly: the start values, the values of the probes and of a record, and the list of close; the assignment of allow */
#define OMBRADIEC_VALUES(n) OMBRADIEC_AS(size_t, n)
/* exactly: the bounds of a record; the counts of allow */
#define OMBRADIEC_BOUNDS(n) (2 * OMBRADIEC_AS(size_t, n))
#define OMBRADIEC_COUNTS(n) (2 * OMBRADIEC_AS(size_t, n))
/* at most: the list of no_effect, of anchors and of reason, and the map of sub_problem */
#define OMBRADIEC_LIST(n) OMBRADIEC_AS(size_t, n)
/* at most: the report of mend */
#define OMBRADIEC_REPORT(m) (3 * OMBRADIEC_AS(size_t, m))
/* a list of so many constraints */
#define OMBRADIEC_RECORDS(count) (3 * OMBRADIEC_AS(size_t, count))
/* the greatest count of constraints, one for a pair of variables: of probe, also cold; of probe_limited, where each has a
 * candidate for an end; and of pairs */
#define OMBRADIEC_FOUND(n) (OMBRADIEC_AS(size_t, n) * (OMBRADIEC_AS(size_t, n) - 1) / 2)
#define OMBRADIEC_FOUND_LIMITED(n, candidates) \
    (OMBRADIEC_AS(size_t, candidates) < OMBRADIEC_AS(size_t, n) \
         ? OMBRADIEC_FOUND(n) - OMBRADIEC_FOUND(OMBRADIEC_AS(size_t, n) - OMBRADIEC_AS(size_t, candidates)) \
         : OMBRADIEC_FOUND(n))
#define OMBRADIEC_FOUND_PAIRS(n, limit) \
    OMBRADIEC_LESSER(OMBRADIEC_LESSER(OMBRADIEC_AS(size_t, limit), OMBRADIEC_MOST_PAIRS), OMBRADIEC_FOUND(n))
#define OMBRADIEC_LESSER(a, b) ((a) < (b) ? (a) : (b))
/* the same for every field: 8,386,560, in a list of 25,159,680 elements */
#define OMBRADIEC_MOST_FOUND OMBRADIEC_FOUND(OMBRADIEC_MOST_VARIABLES)

/* A constraint is a record of three numbers in a list: the lower variable, the higher variable, and the set of the pairs
 * of values that they may not have, the lower variable's value first: a sum of some of the four bits below. An answer
 * list has one record for one pair of variables, and rises by the lower variable, then the higher.
 *
 * Up to version 0.1 the third number was the code of a kind, and a list could hold several constraints of one pair. The
 * names of the kinds are gone, so that a source written for them does not compile; a program that was built with the old
 * header reads and gives other constraints than it means, and must be built anew. */
#define OMBRADIEC_FORBIDS_00 1 /* not 0, 0: at least one is 1 */
#define OMBRADIEC_FORBIDS_01 2 /* not 0, 1: the lower variable is not below the higher one */
#define OMBRADIEC_FORBIDS_10 4 /* not 1, 0: the lower variable is not above the higher one */
#define OMBRADIEC_FORBIDS_11 8 /* not 1, 1: no more than one is 1 */

/* Puts every value that the gradient forces into `start`; on an exact field every best completion has them. Counts the
 * free variables whose row is flat at the end, with both bounds 0: given the values so far, either value costs nothing. */
ombradiec_answer ombradiec_closure(const double *c, size_t c_len, const uint16_t *rows, size_t rows_len,
                                   const uint16_t *cols, size_t cols_len, const double *q, size_t q_len,
                                   uint8_t *start, size_t start_len, double *f, size_t f_len, uint32_t *u,
                                   size_t u_len);

/* Puts the values of all components of at most 10 free variables into `start`; on an exact field some best completion
 * has them. */
ombradiec_answer ombradiec_components(const double *c, size_t c_len, const uint16_t *rows, size_t rows_len,
                                      const uint16_t *cols, size_t cols_len, const double *q, size_t q_len,
                                      uint8_t *start, size_t start_len, double *f, size_t f_len, uint32_t *u,
                                      size_t u_len);

/* Puts the closure, the small components, and 0 for a free variable of no effect into `start`; on an exact field some
 * best completion has them. */
ombradiec_answer ombradiec_preprocess(const double *c, size_t c_len, const uint16_t *rows, size_t rows_len,
                                      const uint16_t *cols, size_t cols_len, const double *q, size_t q_len,
                                      uint8_t *start, size_t start_len, double *f, size_t f_len, uint32_t *u,
                                      size_t u_len);

/* Puts what preprocess and the probes find, round after round until nothing is added, into `start`; on an exact field some
 * best completion has the values. */
ombradiec_answer ombradiec_heavy(const double *c, size_t c_len, const uint16_t *rows, size_t rows_len,
                                 const uint16_t *cols, size_t cols_len, const double *q, size_t q_len,
                                 uint8_t *start, size_t start_len, double *f, size_t f_len, uint32_t *u, size_t u_len);

/* Counts the variables with no entry and c = 0, and puts them at the front of `list`, rising; a diagonal is allowed. */
ombradiec_answer ombradiec_no_effect(const double *c, size_t c_len, const uint16_t *rows, size_t rows_len,
                                     const uint16_t *cols, size_t cols_len, const double *q, size_t q_len,
                                     uint16_t *list, size_t list_len, uint32_t *u, size_t u_len);

/* Adds half of each diagonal entry to its c, closes the other entries up in place, and counts them. */
ombradiec_answer ombradiec_shift(double *c, size_t c_len, uint16_t *rows, size_t rows_len, uint16_t *cols,
                                 size_t cols_len, double *q, size_t q_len);

/* Leaves the field without the variables that `start` gives: the free ones renumbered in order, their entries in order, and
 * in each c what the given variables add; places past the new ends are zero. `map` gets the old number of each new variable,
 * rising, and `constant`, on OMBRADIEC_DONE alone, what the objective of the given variables comes to. A diagonal is allowed.
 * The grade is that of the field as it was given; that of the field that is left may be another. On OMBRADIEC_ROOM, where
 * `map` is shorter than the free variables, the field is unchanged. On an exact field the objective of a completion is that
 * of its free values in the field left, plus the constant, and best completions correspond one to one. */
ombradiec_answer ombradiec_sub_problem(double *c, size_t c_len, uint16_t *rows, size_t rows_len, uint16_t *cols,
                                       size_t cols_len, double *q, size_t q_len, const uint8_t *start,
                                       size_t start_len, uint16_t *map, size_t map_len, double *constant, double *f,
                                       size_t f_len, uint32_t *u, size_t u_len);

/* Mends an entry list: drops the entries with an end not below n, puts the others in order, by column, then row, and adds
 * those at one place in the order given, from the first weight on. Rows, columns and order are not tested; entries on the
 * diagonal stay. The new number of entries is the count; places past it are zero, and the grade is that of the mended field.
 * `report` gets three numbers for each change, by rising position: the position in the lists given, a kind, and the
 * position in the mended lists, or OMBRADIEC_NOWHERE; up to three numbers an entry. A good list comes back unchanged, with
 * no change. On OMBRADIEC_ROOM the entries are unchanged. Both scratches are as the number of entries given asks. */
#define OMBRADIEC_DROPPED 0 /* an end is not below n */
#define OMBRADIEC_MOVED 1   /* the first at its place, and at another position than before */
#define OMBRADIEC_JOINED 2  /* added to an earlier entry at its place */
#define OMBRADIEC_NOWHERE 65535
ombradiec_answer ombradiec_mend(const double *c, size_t c_len, uint16_t *rows, size_t rows_len, uint16_t *cols,
                                size_t cols_len, double *q, size_t q_len, uint16_t *report, size_t report_len,
                                double *f, size_t f_len, uint32_t *u, size_t u_len);

/* Counts the anchors of the components of at least `least` variables, and puts them at the front of `list`; a diagonal is
 * allowed. On an exact field all listed anchors may be set at once, each to 0 or 1: some best completion has them, and
 * obeys every value and record that closure, probe and probe_limited, also cold, and pairs find from the same start
 * values. The values of components, preprocess and heavy are not among these (c=(-0.5,-0.5), (0,1) 2: they are 1,0, and
 * with 0 at the anchor 0 the one best completion is 0,1): set anchors before, or run this call from the values that
 * preprocess left. On an inexact field nothing of it is promised: on c=(-1,2^61,-2,-0.25,-0.5,-0.5), (0,1) -2^61, (0,2)
 * 1, (0,3) 2, (4,5) 2 the anchor is 4, the closure gives x0 = 0, and every best completion has x0 = 1. */
ombradiec_answer ombradiec_anchors(const double *c, size_t c_len, const uint16_t *rows, size_t rows_len,
                                   const uint16_t *cols, size_t cols_len, const double *q, size_t q_len,
                                   const uint8_t *start, size_t start_len, size_t least, uint16_t *list,
                                   size_t list_len, double *f, size_t f_len, uint32_t *u, size_t u_len);

/* Examines the first `limit` free pairs, at most 250,000, and puts the records of those that give any at the front of
 * `constraints`; the count is of records, three numbers each; on an exact field every best completion obeys them. */
ombradiec_answer ombradiec_pairs(const double *c, size_t c_len, const uint16_t *rows, size_t rows_len,
                                 const uint16_t *cols, size_t cols_len, const double *q, size_t q_len,
                                 const uint8_t *start, size_t start_len, size_t limit, uint16_t *constraints,
                                 size_t constraints_len, double *f, size_t f_len, uint32_t *u, size_t u_len);

/* Puts what the closure finds with `variable` at `value` into `values`, which is n long, without the start values:
 * OMBRADIEC_FREE where it finds nothing. */
ombradiec_answer ombradiec_probe_one(const double *c, size_t c_len, const uint16_t *rows, size_t rows_len,
                                     const uint16_t *cols, size_t cols_len, const double *q, size_t q_len,
                                     const uint8_t *start, size_t start_len, size_t variable, uint8_t value,
                                     uint8_t *values, size_t values_len, double *f, size_t f_len, uint32_t *u,
                                     size_t u_len);

/* The same with rows made afresh, as a second opinion on ombradiec_probe_one, which makes its rows another way: on every field
 * and on every refusal the answers are equal. */
ombradiec_answer ombradiec_cold_probe_one(const double *c, size_t c_len, const uint16_t *rows, size_t rows_len,
                                          const uint16_t *cols, size_t cols_len, const double *q, size_t q_len,
                                          const uint8_t *start, size_t start_len, size_t variable, uint8_t value,
                                          uint8_t *values, size_t values_len, double *f, size_t f_len, uint32_t *u,
                                          size_t u_len);

/* The grounds of a value: given with the start values; a lower bound above 0, so that 1 would cost more, which makes it 0;
 * an upper bound below 0, which makes it 1. */
#define OMBRADIEC_GIVEN 0
#define OMBRADIEC_LOWER 1
#define OMBRADIEC_UPPER 2

/* Says why `variable` has its value in the closure, which is not written: the ground; in `bound` the bound, a whole number of
 * half units, 0 for a given variable; and at the front of `list` the neighbours whose values it counts as fixed, rising,
 * and their count. With these values alone, and all else free, the bound is strict; each of them is given, or was forced
 * earlier. The list may hold neighbours that the bound could do without. Only exact fields have reasons. */
ombradiec_answer ombradiec_reason(const double *c, size_t c_len, const uint16_t *rows, size_t rows_len,
                                  const uint16_t *cols, size_t cols_len, const double *q, size_t q_len,
                                  const uint8_t *start, size_t start_len, size_t variable, uint16_t *list,
                                  size_t list_len, double *bound, double *f, size_t f_len, uint32_t *u, size_t u_len);

/* Puts what both probes of every free variable find into `values`, which is n long, and at the front of `constraints`,
 * merged by pair, and counts the records; on an exact field every best completion obeys both. */
ombradiec_answer ombradiec_probe(const double *c, size_t c_len, const uint16_t *rows, size_t rows_len,
                                 const uint16_t *cols, size_t cols_len, const double *q, size_t q_len,
                                 const uint8_t *start, size_t start_len,
                                 uint8_t *values, size_t values_len, uint16_t *constraints,
                                 size_t constraints_len, double *f, size_t f_len, uint32_t *u, size_t u_len);

/* The same with rows made afresh for every probe, as a second opinion: equal answers, in the time of 2k closures for k free
 * variables. */
ombradiec_answer ombradiec_cold_probe(const double *c, size_t c_len, const uint16_t *rows, size_t rows_len,
                                      const uint16_t *cols, size_t cols_len, const double *q, size_t q_len,
                                      const uint8_t *start, size_t start_len,
                                      uint8_t *values, size_t values_len, uint16_t *constraints,
                                      size_t constraints_len, double *f, size_t f_len, uint32_t *u, size_t u_len);

/* The same of up to `candidates` free variables, those of the greatest sum of |q| over entries with both ends free. */
ombradiec_answer ombradiec_probe_limited(const double *c, size_t c_len, const uint16_t *rows, size_t rows_len,
                                         const uint16_t *cols, size_t cols_len, const double *q, size_t q_len,
                                         const uint8_t *start, size_t start_len, size_t candidates,
                                         uint8_t *values, size_t values_len, uint16_t *constraints,
                                         size_t constraints_len, double *f, size_t f_len, uint32_t *u, size_t u_len);

/* The same with rows made afresh for every probe. */
ombradiec_answer ombradiec_cold_probe_limited(const double *c, size_t c_len, const uint16_t *rows, size_t rows_len,
                                              const uint16_t *cols, size_t cols_len, const double *q, size_t q_len,
                                              const uint8_t *start, size_t start_len, size_t candidates,
                                              uint8_t *values, size_t values_len, uint16_t *constraints,
                                              size_t constraints_len, double *f, size_t f_len, uint32_t *u, size_t u_len);

/* Puts every value that the constraints imply into `start`, or answers OMBRADIEC_CLASH; there is no field and no grade.
 * The records need be neither sorted nor merged; one with all four bits clashes once either variable has a value. */
ombradiec_answer ombradiec_propagate(uint8_t *start, size_t start_len, const uint16_t *constraints,
                                     size_t constraints_len, uint32_t *u, size_t u_len);

/* The rows kept between edits, of an exact field alone: another is OMBRADIEC_INEXACT, once the scratch has passed. `bounds` has
 * 2n places: the lower bound of variable i at i and its upper bound at n + i, 0 for a variable that has a value; `strict`
 * counts the free variables whose lower bound is above 0 or whose upper bound is below 0. `values`, `bounds` and `strict` are
 * the record: keep them together, with the same field. Bounds of another length are OMBRADIEC_START. */
ombradiec_answer ombradiec_keep(const double *c, size_t c_len, const uint16_t *rows, size_t rows_len,
                                const uint16_t *cols, size_t cols_len, const double *q, size_t q_len,
                                const uint8_t *values, size_t values_len, double *bounds, size_t bounds_len,
                                uint32_t *strict, double *f, size_t f_len, uint32_t *u, size_t u_len);

/* Gives a free variable of the record a value, 0 or 1; no scratch, no grade, and nothing is forced. After any operations the
 * bounds and the number are those that ombradiec_keep would leave at the values that stand then, and only the rows of
 * neighbours and of the variable itself change. OMBRADIEC_ARGUMENT, which changes nothing, where the variable is not below n or
 * not free, or the value is above 1. */
ombradiec_answer ombradiec_pin(const double *c, size_t c_len, const uint16_t *rows, size_t rows_len,
                               const uint16_t *cols, size_t cols_len, const double *q, size_t q_len, uint8_t *values,
                               size_t values_len, double *bounds, size_t bounds_len, uint32_t *strict,
                               size_t variable, uint8_t value);

/* Frees a variable of the record that has a value, pinned or given; else as ombradiec_pin. */
ombradiec_answer ombradiec_release(const double *c, size_t c_len, const uint16_t *rows, size_t rows_len,
                                   const uint16_t *cols, size_t cols_len, const double *q, size_t q_len,
                                   uint8_t *values, size_t values_len, double *bounds, size_t bounds_len,
                                   uint32_t *strict, size_t variable);

/* Puts the closure of the record's values, from its bounds, into `list`, which is n long, with the values that were given, and
 * counts the flat rows as ombradiec_closure does; the record is unchanged. */
ombradiec_answer ombradiec_close(const double *c, size_t c_len, const uint16_t *rows, size_t rows_len,
                                 const uint16_t *cols, size_t cols_len, const double *q, size_t q_len,
                                 const uint8_t *values, size_t values_len, const double *bounds, size_t bounds_len,
                                 uint8_t *list, size_t list_len, double *f, size_t f_len, uint32_t *u, size_t u_len);

/* Says whether some assignment of 0 and 1 to the variables meets every constraint, with nothing given. On yes the first
 * `variables` places of `assignment` hold the least one: each variable, in rising order, is 0 wherever some assignment with
 * the earlier choices still allows it. On no they hold 2. `counts` gets for value v of variable i, at 2 i + v, how many
 * values of variables follow from it, itself included. `w`, of at least OMBRADIEC_REACH_WORDS(variables) elements, and `u`
 * are scratch. The time grows with the square of the variables. */
ombradiec_answer ombradiec_allow(size_t variables, const uint16_t *constraints, size_t constraints_len,
                                 uint8_t *assignment, size_t assignment_len, uint16_t *counts, size_t counts_len,
                                 uint64_t *w, size_t w_len, uint32_t *u, size_t u_len);

#ifdef __cplusplus
}
#endif

#endif
