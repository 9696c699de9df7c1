/* Theta sketches in PostgreSQL: the type, the aggregates and the functions that theta_sketch--VERSION.sql declares.
 *
 * A value of the type is an image of one ordered sketch under the default seed, in the form that the library writes: what is read, from
 * text, bytes or a network, is checked and written anew. A transition state lives in the context of its aggregate, with all that the
 * library allocates for it (heap.h). A backend has one thread, and each state is used by one call at a time. */
#include "calls.h"
#include "libpq/pqformat.h"
#include "utils/builtins.h"

PG_MODULE_MAGIC;

#define TYPE "theta_sketch"
#define OF_KIND(name) theta_sketch_##name
#define SKETCH(name) kc_compact##name
#define DIFFERENCE kc_difference
#define READ read_image
#define UNION(name) union_##name
#define MEET(name) meet_##name
#include "each_kind.inc"

FUNCTION(theta_sketch_get_estimate_and_bounds) {
    uint32_t deviations = deviations_of(fcinfo, TYPE);
    kc_state state = argument_state(fcinfo);
    return bounds_array(&state, deviations, TYPE, true);
}

FUNCTION(theta_sketch_to_string) {
    char text[DESCRIPTION_ROOM];
    kc_state state = argument_state(fcinfo);
    PG_RETURN_TEXT_P(cstring_to_text_with_len(text, describe_state(&state, text)));
}

/* ---- Keys ---- */

FUNCTION(theta_sketch_add_bytes) {
    check_keys(fcinfo, TYPE);
    if (PG_ARGISNULL(1)) return unchanged(fcinfo);
    UnionState *state = state_for_row(fcinfo, 2, DEFAULT_LG_K);
    bytea *key = PG_GETARG_BYTEA_PP(1);
    want(TYPE, union_add_bytes(&state->group, VARDATA_ANY(key), VARSIZE_ANY_EXHDR(key)));
    PG_RETURN_POINTER(state);
}

#define ADD(of, bits) \
    FUNCTION(theta_sketch_add_##of) { \
        if (PG_ARGISNULL(1)) return unchanged(fcinfo); \
        UnionState *state = state_for_row(fcinfo, 2, DEFAULT_LG_K); \
        want(TYPE, union_add_number(&state->group, bits)); \
        PG_RETURN_POINTER(state); \
    }
FOR_TYPES_OF_NUMBERS(ADD)

FUNCTION(theta_sketch_add_text) {
    if (PG_ARGISNULL(1)) return unchanged(fcinfo);
    UnionState *state = state_for_row(fcinfo, 2, DEFAULT_LG_K);
    const char *key = text_key(fcinfo, TYPE);
    want(TYPE, union_add_bytes(&state->group, key, strlen(key)));
    PG_RETURN_POINTER(state);
}

FUNCTION(theta_sketch_insert_text) {
    union_group group = {.lg_k = 0};
    kc_compact sketch = {0};
    if (PG_ARGISNULL(1)) return unchanged(fcinfo);
    const char *key = text_key(fcinfo, TYPE);
    begin_add(fcinfo, 2, &group, &sketch);
    want(TYPE, union_add_bytes(&group, key, strlen(key)));
    return end_add(fcinfo, &group, &sketch);
}

FUNCTION(theta_sketch_insert_bytes) {
    union_group group = {.lg_k = 0};
    kc_compact sketch = {0};
    check_keys(fcinfo, TYPE);
    if (PG_ARGISNULL(1)) return unchanged(fcinfo);
    bytea *key = PG_GETARG_BYTEA_PP(1);
    begin_add(fcinfo, 2, &group, &sketch);
    want(TYPE, union_add_bytes(&group, VARDATA_ANY(key), VARSIZE_ANY_EXHDR(key)));
    return end_add(fcinfo, &group, &sketch);
}

#define INSERT(of, bits) \
    FUNCTION(theta_sketch_insert_##of) { \
        union_group group = {.lg_k = 0}; \
        kc_compact sketch = {0}; \
        if (PG_ARGISNULL(1)) return unchanged(fcinfo); \
        begin_add(fcinfo, 2, &group, &sketch); \
        want(TYPE, union_add_number(&group, bits)); \
        return end_add(fcinfo, &group, &sketch); \
    }
FOR_TYPES_OF_NUMBERS(INSERT)

FUNCTION(theta_sketch_final_estimate) {
    kc_compact sketch = {0};
    result_of(fcinfo, &sketch);
    kc_state state = state_of(&sketch);
    kc_compact_free(&sketch);
    PG_RETURN_FLOAT8(kc_estimate(&state));
}
