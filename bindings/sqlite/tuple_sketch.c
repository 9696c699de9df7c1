/* Tuple sketches in SQLite: for each key the sum, the least or the greatest of its values. */
#include "calls.h"
#include "tuple_sketch.h"
SQLITE_EXTENSION_INIT3

#define OF_KIND(name) sums_##name
#define SKETCH(name) kc_compact_sums##name
#define DIFFERENCE kc_sums_difference
#define READ read_sums
#define UNION(name) sums_##name
#define MEET(name) sums_meet_##name
#include "each_kind.inc"

/* Adds a value at a key to a group, and returns whether the call goes on. */
static int add_value(context *call, sums_group *group, value *key, value *added) {
    const void *bytes;
    size_t length;
    sqlite3_int64 n = sqlite3_value_int64(added);
    if (sqlite3_value_type(added) != SQLITE_INTEGER || n < 0) {
        refuse(call, "a value is an integer from 0 to 9223372036854775807");
        return 0;
    }
    switch (sqlite3_value_type(key)) {
    case SQLITE_INTEGER: return passed(call, sums_add_number(group, (uint64_t)sqlite3_value_int64(key), (uint64_t)n));
    case SQLITE_FLOAT: refuse_key(call); return 0;
    default: return bytes_of(call, key, &bytes, &length) && passed(call, sums_add_bytes(group, bytes, length, (uint64_t)n));
    }
}

void sums_build_step(context *call, int count, value **arguments) {
    sums_group *group = state_of(call, sizeof *group);
    if (group == NULL || is_null(arguments[0]) || is_null(arguments[1])) return;
    if (!take_mode(call, count, arguments, 3, group->lg_k == 0, &group->mode)) return;
    if (take_lg_k(call, count, arguments, 2, DEFAULT_LG_K, &group->lg_k)) add_value(call, group, arguments[0], arguments[1]);
}

void sums_add(context *call, int count, value **arguments) {
    sums_group group = {.lg_k = 0};
    kc_compact_sums sketch = {0};
    if (is_null(arguments[1]) || is_null(arguments[2])) sqlite3_result_value(call, arguments[0]);
    else if (begin_add(call, count, arguments, 3, &group, &sketch) && add_value(call, &group, arguments[1], arguments[2]))
        end_add(call, arguments[0], &group, &sketch);
    kc_compact_sums_free(&sketch);
    sums_free(&group);
}

/* The state and the total of an argument's sketch; of NULL there are none. */
static int take_total(context *call, value *v, kc_state *state, kc_wide *total) {
    kc_compact_sums sketch = {0};
    if (is_null(v)) return 0;
    int is_taken = take_sketch(call, v, &sketch) && passed(call, kc_compact_sums_state(&sketch, state)) &&
                   passed(call, kc_compact_sums_total(&sketch, total));
    kc_compact_sums_free(&sketch);
    return is_taken;
}

/* The total of the retained sums over the share of the hashes that theta retains. */
void sums_get_total(context *call, int count, value **arguments) {
    kc_state state;
    kc_wide total;
    (void)count;
    if (take_total(call, arguments[0], &state, &total)) sqlite3_result_double(call, kc_total(&total, state.theta));
}

void sums_to_text(context *call, int count, value **arguments) {
    char text[DESCRIPTION_ROOM] = "";
    kc_state state;
    kc_wide total;
    (void)count;
    if (take_total(call, arguments[0], &state, &total))
        sqlite3_result_text(call, text, describe_sums(&state, &total, text), SQLITE_TRANSIENT);
}
