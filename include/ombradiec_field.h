/* Ombradiec's calls with a field, a scratch and a record as one argument each.
 *
 * A function here whose name ends in `_of` is the call of ombradiec.h without that end, and answers what that answers.
 * The lengths that a call asks are taken from the field: start values, values and the list of close are n bytes; the
 * list of no_effect, anchors and reason, and the map of sub_problem, have room for n numbers; the report of mend has
 * room for three numbers an entry; bounds are 2n. Where a list of constraints is asked, its room is told in
 * constraints, of three numbers each: OMBRADIEC_FOUND and its likes say how much is enough. What ombradiec.h says of
 * overlapping memory holds here too.
 */
#ifndef OMBRADIEC_FIELD_H
#define OMBRADIEC_FIELD_H

#include "ombradiec.h"

#ifdef __cplusplus
extern "C" {
#endif

/* A field; a list without elements may be null. */
struct ombradiec_field {
    const double *c;  /* the linear weights, n of them */
    size_t variables; /* n */
    const uint16_t *rows, *cols;
    const double *q;
    size_t entries; /* m, the elements of rows, of cols and of q */
};

/* A field that a call may change; no list is null. */
struct ombradiec_own_field {
    double *c;
    size_t variables;
    uint16_t *rows, *cols;
    double *q;
    size_t entries;
};

/* Scratch: of the floats at least OMBRADIEC_FLOATS(n, m), of the words OMBRADIEC_WORDS(n, m), and for allow alone of the
 * longs OMBRADIEC_REACH_WORDS(n); it may be larger, and serve many fields. */
struct ombradiec_scratch {
    double *f;
    size_t floats;
    uint32_t *u;
    size_t words;
    uint64_t *w;
    size_t longs;
};

/* A record of the rows of a field: n values, 2n bounds, and how many rows are strict. */
struct ombradiec_record {
    uint8_t *values;
    double *bounds;
    uint32_t strict;
};

/* what stands for a null pointer, which a call does not take */
static inline const uint16_t *ombradiec_numbers(const uint16_t *list)
{
    static const uint16_t none = 0;
    return list ? list : &none;
}
static inline const double *ombradiec_weights(const double *list)
{
    static const double none = 0;
    return list ? list : &none;
}

/* the arguments that a field, a field of one's own and a scratch stand for */
#define OMBRADIEC_OF_FIELD(field) \
    ombradiec_weights((field)->c), (field)->variables, ombradiec_numbers((field)->rows), (field)->entries, \
        ombradiec_numbers((field)->cols), (field)->entries, ombradiec_weights((field)->q), (field)->entries
#define OMBRADIEC_OF_OWN(field) \
    (field)->c, (field)->variables, (field)->rows, (field)->entries, (field)->cols, (field)->entries, (field)->q, \
        (field)->entries
#define OMBRADIEC_OF_SCRATCH(scratch) (scratch)->f, (scratch)->floats, (scratch)->u, (scratch)->words

/* A field of one's own, to be read. */
static inline struct ombradiec_field ombradiec_read(const struct ombradiec_own_field *own)
{
    struct ombradiec_field field;
    field.c = own->c;
    field.variables = own->variables;
    field.rows = own->rows;
    field.cols = own->cols;
    field.q = own->q;
    field.entries = own->entries;
    return field;
}

/* ---- values into the start values */

static inline ombradiec_answer ombradiec_closure_of(const struct ombradiec_field *field, uint8_t *start,
                                                    const struct ombradiec_scratch *scratch)
{
    return ombradiec_closure(OMBRADIEC_OF_FIELD(field), start, field->variables, OMBRADIEC_OF_SCRATCH(scratch));
}

static inline ombradiec_answer ombradiec_components_of(const struct ombradiec_field *field, uint8_t *start,
                                                       const struct ombradiec_scratch *scratch)
{
    return ombradiec_components(OMBRADIEC_OF_FIELD(field), start, field->variables, OMBRADIEC_OF_SCRATCH(scratch));
}

static inline ombradiec_answer ombradiec_preprocess_of(const struct ombradiec_field *field, uint8_t *start,
                                                       const struct ombradiec_scratch *scratch)
{
    return ombradiec_preprocess(OMBRADIEC_OF_FIELD(field), start, field->variables, OMBRADIEC_OF_SCRATCH(scratch));
}

static inline ombradiec_answer ombradiec_heavy_of(const struct ombradiec_field *field, uint8_t *start,
                                                  const struct ombradiec_scratch *scratch)
{
    return ombradiec_heavy(OMBRADIEC_OF_FIELD(field), start, field->variables, OMBRADIEC_OF_SCRATCH(scratch));
}

/* ---- lists of variables */

static inline ombradiec_answer ombradiec_no_effect_of(const struct ombradiec_field *field, uint16_t *list,
                                                      const struct ombradiec_scratch *scratch)
{
    return ombradiec_no_effect(OMBRADIEC_OF_FIELD(field), list, field->variables, scratch->u, scratch->words);
}

static inline ombradiec_answer ombradiec_anchors_of(const struct ombradiec_field *field, const uint8_t *start,
                                                    size_t least, uint16_t *list,
                                                    const struct ombradiec_scratch *scratch)
{
    return ombradiec_anchors(OMBRADIEC_OF_FIELD(field), start, field->variables, least, list, field->variables,
                             OMBRADIEC_OF_SCRATCH(scratch));
}

static inline ombradiec_answer ombradiec_reason_of(const struct ombradiec_field *field, const uint8_t *start,
                                                   size_t variable, uint16_t *list, double *bound,
                                                   const struct ombradiec_scratch *scratch)
{
    return ombradiec_reason(OMBRADIEC_OF_FIELD(field), start, field->variables, variable, list, field->variables, bound,
                            OMBRADIEC_OF_SCRATCH(scratch));
}

/* ---- calls that change the field; on OMBRADIEC_DONE its variables and entries are those that are left */

static inline ombradiec_answer ombradiec_shift_of(struct ombradiec_own_field *field)
{
    ombradiec_answer answer = ombradiec_shift(OMBRADIEC_OF_OWN(field));
    if (OMBRADIEC_REFUSAL(answer) == OMBRADIEC_DONE)
        field->entries = OMBRADIEC_COUNT(answer);
    return answer;
}

static inline ombradiec_answer ombradiec_sub_problem_of(struct ombradiec_own_field *field, const uint8_t *start,
                                                        uint16_t *map, double *constant,
                                                        const struct ombradiec_scratch *scratch)
{
    ombradiec_answer answer = ombradiec_sub_problem(OMBRADIEC_OF_OWN(field), start, field->variables, map,
                                                    field->variables, constant, OMBRADIEC_OF_SCRATCH(scratch));
    if (OMBRADIEC_REFUSAL(answer) == OMBRADIEC_DONE) {
        field->variables = OMBRADIEC_LEFT(answer);
        field->entries = OMBRADIEC_COUNT(answer);
    }
    return answer;
}

static inline ombradiec_answer ombradiec_mend_of(struct ombradiec_own_field *field, uint16_t *report,
                                                 const struct ombradiec_scratch *scratch)
{
    ombradiec_answer answer = ombradiec_mend(OMBRADIEC_OF_OWN(field), report, OMBRADIEC_REPORT(field->entries),
                                             OMBRADIEC_OF_SCRATCH(scratch));
    if (OMBRADIEC_REFUSAL(answer) == OMBRADIEC_DONE)
        field->entries = OMBRADIEC_COUNT(answer);
    return answer;
}

/* ---- constraints and probes */

static inline ombradiec_answer ombradiec_pairs_of(const struct ombradiec_field *field, const uint8_t *start,
                                                  size_t limit, uint16_t *constraints, size_t room,
                                                  const struct ombradiec_scratch *scratch)
{
    return ombradiec_pairs(OMBRADIEC_OF_FIELD(field), start, field->variables, limit, constraints,
                           OMBRADIEC_RECORDS(room), OMBRADIEC_OF_SCRATCH(scratch));
}

static inline ombradiec_answer ombradiec_probe_one_of(const struct ombradiec_field *field, const uint8_t *start,
                                                      size_t variable, uint8_t value, uint8_t *values,
                                                      const struct ombradiec_scratch *scratch)
{
    return ombradiec_probe_one(OMBRADIEC_OF_FIELD(field), start, field->variables, variable, value, values,
                               field->variables, OMBRADIEC_OF_SCRATCH(scratch));
}

static inline ombradiec_answer ombradiec_cold_probe_one_of(const struct ombradiec_field *field, const uint8_t *start,
                                                           size_t variable, uint8_t value, uint8_t *values,
                                                           const struct ombradiec_scratch *scratch)
{
    return ombradiec_cold_probe_one(OMBRADIEC_OF_FIELD(field), start, field->variables, variable, value, values,
                                    field->variables, OMBRADIEC_OF_SCRATCH(scratch));
}

static inline ombradiec_answer ombradiec_probe_of(const struct ombradiec_field *field, const uint8_t *start,
                                                  uint8_t *values, uint16_t *constraints, size_t room,
                                                  const struct ombradiec_scratch *scratch)
{
    return ombradiec_probe(OMBRADIEC_OF_FIELD(field), start, field->variables, values, field->variables, constraints,
                           OMBRADIEC_RECORDS(room), OMBRADIEC_OF_SCRATCH(scratch));
}

static inline ombradiec_answer ombradiec_cold_probe_of(const struct ombradiec_field *field, const uint8_t *start,
                                                       uint8_t *values, uint16_t *constraints, size_t room,
                                                       const struct ombradiec_scratch *scratch)
{
    return ombradiec_cold_probe(OMBRADIEC_OF_FIELD(field), start, field->variables, values, field->variables,
                                constraints, OMBRADIEC_RECORDS(room), OMBRADIEC_OF_SCRATCH(scratch));
}

static inline ombradiec_answer ombradiec_probe_limited_of(const struct ombradiec_field *field, const uint8_t *start,
                                                          size_t candidates, uint8_t *values, uint16_t *constraints,
                                                          size_t room, const struct ombradiec_scratch *scratch)
{
    return ombradiec_probe_limited(OMBRADIEC_OF_FIELD(field), start, field->variables, candidates, values,
                                   field->variables, constraints, OMBRADIEC_RECORDS(room),
                                   OMBRADIEC_OF_SCRATCH(scratch));
}

static inline ombradiec_answer ombradiec_cold_probe_limited_of(const struct ombradiec_field *field,
                                                               const uint8_t *start, size_t candidates,
                                                               uint8_t *values, uint16_t *constraints, size_t room,
                                                               const struct ombradiec_scratch *scratch)
{
    return ombradiec_cold_probe_limited(OMBRADIEC_OF_FIELD(field), start, field->variables, candidates, values,
                                        field->variables, constraints, OMBRADIEC_RECORDS(room),
                                        OMBRADIEC_OF_SCRATCH(scratch));
}

/* ---- a record */

static inline ombradiec_answer ombradiec_keep_of(const struct ombradiec_field *field, struct ombradiec_record *record,
                                                 const struct ombradiec_scratch *scratch)
{
    return ombradiec_keep(OMBRADIEC_OF_FIELD(field), record->values, field->variables, record->bounds,
                          OMBRADIEC_BOUNDS(field->variables), &record->strict, OMBRADIEC_OF_SCRATCH(scratch));
}

static inline ombradiec_answer ombradiec_pin_of(const struct ombradiec_field *field, struct ombradiec_record *record,
                                                size_t variable, uint8_t value)
{
    return ombradiec_pin(OMBRADIEC_OF_FIELD(field), record->values, field->variables, record->bounds,
                         OMBRADIEC_BOUNDS(field->variables), &record->strict, variable, value);
}

static inline ombradiec_answer ombradiec_release_of(const struct ombradiec_field *field,
                                                    struct ombradiec_record *record, size_t variable)
{
    return ombradiec_release(OMBRADIEC_OF_FIELD(field), record->values, field->variables, record->bounds,
                             OMBRADIEC_BOUNDS(field->variables), &record->strict, variable);
}

static inline ombradiec_answer ombradiec_close_of(const struct ombradiec_field *field,
                                                  const struct ombradiec_record *record, uint8_t *list,
                                                  const struct ombradiec_scratch *scratch)
{
    return ombradiec_close(OMBRADIEC_OF_FIELD(field), record->values, field->variables, record->bounds,
                           OMBRADIEC_BOUNDS(field->variables), list, field->variables, OMBRADIEC_OF_SCRATCH(scratch));
}

/* ---- constraints without a field: `count` of them, on `variables` variables */

static inline ombradiec_answer ombradiec_propagate_of(size_t variables, const uint16_t *constraints, size_t count,
                                                      uint8_t *start, const struct ombradiec_scratch *scratch)
{
    return ombradiec_propagate(start, variables, ombradiec_numbers(constraints), OMBRADIEC_RECORDS(count), scratch->u,
                               scratch->words);
}

static inline ombradiec_answer ombradiec_allow_of(size_t variables, const uint16_t *constraints, size_t count,
                                                  uint8_t *assignment, uint16_t *counts,
                                                  const struct ombradiec_scratch *scratch)
{
    return ombradiec_allow(variables, ombradiec_numbers(constraints), OMBRADIEC_RECORDS(count), assignment, variables,
                           counts, OMBRADIEC_COUNTS(variables), scratch->w, scratch->longs, scratch->u, scratch->words);
}

#ifdef __cplusplus
}
#endif

#endif
