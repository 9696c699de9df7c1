/* Tuple sketches in PostgreSQL: for each key the sum, the least or the greatest of its values. See theta_sketch.c. */
#include "calls.h"
#include "libpq/pqformat.h"
#include "utils/builtins.h"

#define TYPE "tuple_sketch"
#define OF_KIND(name) tuple_sketch_##name
#define SKETCH(name) kc_compact_sums##name
#define DIFFERENCE kc_sums_difference
#define READ read_sums
#define UNION(name) sums_##name
#define MEET(name) sums_meet_##name
#include "each_kind.inc"

FUNCTION(tuple_sketch_get_bounds) {
    uint32_t deviations = deviations_of(fcinfo, TYPE);
    kc_state state = argument_state(fcinfo);
    return bounds_array(&state, deviations, TYPE, false);
}

/* The state and the total of the sketch of the first argument. */
static kc_state argument_total(FunctionCallInfo fcinfo, kc_wide *total) {
    kc_compact_sums sketch = {0};
    theta_sketch_heap = CurrentMemoryContext;
    read_argument(fcinfo, 0, &sketch);
    kc_state state = state_of(&sketch);
    want(TYPE, kc_compact_sums_total(&sketch, total));
    kc_compact_sums_free(&sketch);
    return state;
}

/* The total of the retained sums over the share of the hashes that theta retains. */
FUNCTION(tuple_sketch_get_total) {
    kc_wide total = {0, 0};
    kc_state state = argument_total(fcinfo, &total);
    PG_RETURN_FLOAT8(kc_total(&total, state.theta));
}

FUNCTION(tuple_sketch_to_string) {
    char text[DESCRIPTION_ROOM];
    kc_wide total = {0, 0};
    kc_state state = argument_total(fcinfo, &total);
    PG_RETURN_TEXT_P(cstring_to_text_with_len(text, describe_sums(&state, &total, text)));
}

/* ---- Keys and their values ---- */

FUNCTION(tuple_sketch_add_bytes) {
    check_keys(fcinfo, TYPE);
    if (PG_ARGISNULL(1) || PG_ARGISNULL(2)) return unchanged(fcinfo);
    UnionState *state = state_for_row(fcinfo, 3, DEFAULT_LG_K);
    bytea *key = PG_GETARG_BYTEA_PP(1);
    want(TYPE, sums_add_bytes(&state->group, VARDATA_ANY(key), VARSIZE_ANY_EXHDR(key), value_at(fcinfo, TYPE, 2)));
    PG_RETURN_POINTER(state);
}

#define ADD(of, bits) \
    FUNCTION(tuple_sketch_add_##of) { \
        if (PG_ARGISNULL(1) || PG_ARGISNULL(2)) return unchanged(fcinfo); \
        UnionState *state = state_for_row(fcinfo, 3, DEFAULT_LG_K); \
        want(TYPE, sums_add_number(&state->group, bits, value_at(fcinfo, TYPE, 2))); \
        PG_RETURN_POINTER(state); \
    }
FOR_TYPES_OF_NUMBERS(ADD)

FUNCTION(tuple_sketch_add_text) {
    if (PG_ARGISNULL(1) || PG_ARGISNULL(2)) return unchanged(fcinfo);
    UnionState *state = state_for_row(fcinfo, 3, DEFAULT_LG_K);
    const char *key = text_key(fcinfo, TYPE);
    want(TYPE, sums_add_bytes(&state->group, key, strlen(key), value_at(fcinfo, TYPE, 2)));
    PG_RETURN_POINTER(state);
}

FUNCTION(tuple_sketch_insert_text) {
    sums_group group = {.lg_k = 0};
    kc_compact_sums sketch = {0};
    if (PG_ARGISNULL(1) || PG_ARGISNULL(2)) return unchanged(fcinfo);
    const char *key = text_key(fcinfo, TYPE);
    uint64_t value = value_at(fcinfo, TYPE, 2);
    begin_add(fcinfo, 3, &group, &sketch);
    want(TYPE, sums_add_bytes(&group, key, strlen(key), value));
    return end_add(fcinfo, &group, &sketch);
}

FUNCTION(tuple_sketch_insert_bytes) {
    sums_group group = {.lg_k = 0};
    kc_compact_sums sketch = {0};
    check_keys(fcinfo, TYPE);
    if (PG_ARGISNULL(1) || PG_ARGISNULL(2)) return unchanged(fcinfo);
    bytea *key = PG_GETARG_BYTEA_PP(1);
    uint64_t value = value_at(fcinfo, TYPE, 2);
    begin_add(fcinfo, 3, &group, &sketch);
    want(TYPE, sums_add_bytes(&group, VARDATA_ANY(key), VARSIZE_ANY_EXHDR(key), value));
    return end_add(fcinfo, &group, &sketch);
}

#define INSERT(of, bits) \
    FUNCTION(tuple_sketch_insert_##of) { \
        sums_group group = {.lg_k = 0}; \
        kc_compact_sums sketch = {0}; \
        if (PG_ARGISNULL(1) || PG_ARGISNULL(2)) return unchanged(fcinfo); \
        uint64_t value = value_at(fcinfo, TYPE, 2); \
        begin_add(fcinfo, 3, &group, &sketch); \
        want(TYPE, sums_add_number(&group, bits, value)); \
        return end_add(fcinfo, &group, &sketch); \
    }
FOR_TYPES_OF_NUMBERS(INSERT)
