/* Theta sketches in SQLite, and the registration of all functions. docs/use/SQL.md lists the functions.
 *
 * A key is a text or a blob, by its bytes, or an integer, by the eight bytes of its 64 bits. NULLs are passed over. An image is a blob of
 * one sketch under the default seed. SQLite calls one function of a connection at a time, and each aggregate has a state of its own, so no
 * object is used by two threads. */
#include <sqlite3ext.h>
SQLITE_EXTENSION_INIT1
#include "calls.h"
#include "tuple_sketch.h"

#define OF_KIND(name) theta_##name
#define SKETCH(name) kc_compact##name
#define DIFFERENCE kc_difference
#define READ read_image
#define UNION(name) union_##name
#define MEET(name) meet_##name
#include "each_kind.inc"

/* Adds a key to a group, and returns whether the call goes on. */
static int add_key(context *call, union_group *group, value *key) {
    const void *bytes;
    size_t length;
    switch (sqlite3_value_type(key)) {
    case SQLITE_INTEGER: return passed(call, union_add_number(group, (uint64_t)sqlite3_value_int64(key)));
    case SQLITE_FLOAT: refuse_key(call); return 0;
    default: return bytes_of(call, key, &bytes, &length) && passed(call, union_add_bytes(group, bytes, length));
    }
}

static void build_step(context *call, int count, value **arguments) {
    union_group *group = state_of(call, sizeof *group);
    if (group == NULL || is_null(arguments[0]) || !take_lg_k(call, count, arguments, 1, DEFAULT_LG_K, &group->lg_k)) return;
    add_key(call, group, arguments[0]);
}

static void add(context *call, int count, value **arguments) {
    union_group group = {.lg_k = 0};
    kc_compact sketch = {0};
    if (is_null(arguments[1])) sqlite3_result_value(call, arguments[0]);
    else if (begin_add(call, count, arguments, 2, &group, &sketch) && add_key(call, &group, arguments[1]))
        end_add(call, arguments[0], &group, &sketch);
    kc_compact_free(&sketch);
    union_free(&group);
}

static void put_distinct(context *call, int is_last) {
    kc_compact sketch = {0};
    kc_state state;
    kc_status status = result_of(call, is_last, &sketch);
    if (status == KC_OK) status = kc_compact_state(&sketch, &state);
    if (passed(call, status)) put_estimate(call, &state);
    kc_compact_free(&sketch);
}

static void distinct_value(context *call) { put_distinct(call, 0); }
static void distinct_final(context *call) { put_distinct(call, 1); }

static void to_text(context *call, int count, value **arguments) {
    char text[DESCRIPTION_ROOM] = "";
    kc_state state;
    (void)count;
    if (take_state(call, arguments[0], &state)) sqlite3_result_text(call, text, describe_state(&state, text), SQLITE_TRANSIENT);
}

/* ---- Registration ---- */

typedef void step(context *, int, value **);
typedef void end(context *);

static const struct { const char *name; int arguments; step *add; end *final, *current; } aggregates[] = {
    {"theta_sketch_build", 1, build_step, theta_union_final, theta_union_value},
    {"theta_sketch_build", 2, build_step, theta_union_final, theta_union_value},
    {"theta_sketch_distinct", 1, build_step, distinct_final, distinct_value},
    {"theta_sketch_distinct", 2, build_step, distinct_final, distinct_value},
    {"theta_sketch_union", 1, theta_union_step, theta_union_final, theta_union_value},
    {"theta_sketch_union", 2, theta_union_step, theta_union_final, theta_union_value},
    {"theta_sketch_intersection", 1, theta_meet_step, theta_meet_final, theta_meet_value},
    {"tuple_sketch_build", 2, sums_build_step, sums_union_final, sums_union_value},
    {"tuple_sketch_build", 3, sums_build_step, sums_union_final, sums_union_value},
    {"tuple_sketch_build", 4, sums_build_step, sums_union_final, sums_union_value},
    {"tuple_sketch_union", 1, sums_union_step, sums_union_final, sums_union_value},
    {"tuple_sketch_union", 2, sums_union_step, sums_union_final, sums_union_value},
    {"tuple_sketch_union", 3, sums_union_step, sums_union_final, sums_union_value},
    {"tuple_sketch_intersection", 1, sums_meet_step, sums_meet_final, sums_meet_value},
    {"tuple_sketch_intersection", 2, sums_meet_step, sums_meet_final, sums_meet_value},
};

/* From SQLite 3.45 on a function says that its result has a subtype; earlier ones ignore this. */
#ifndef SQLITE_RESULT_SUBTYPE
#define SQLITE_RESULT_SUBTYPE 0x001000000
#endif

static const struct { const char *name; int arguments, flags; step *call; } functions[] = {
    {"theta_sketch_add", 2, 0, add},
    {"theta_sketch_add", 3, 0, add},
    {"theta_sketch_a_not_b", 2, 0, theta_a_not_b},
    {"theta_sketch_get_estimate", 1, 0, theta_get_estimate},
    {"theta_sketch_get_bounds", 1, SQLITE_RESULT_SUBTYPE, theta_get_bounds},
    {"theta_sketch_get_bounds", 2, SQLITE_RESULT_SUBTYPE, theta_get_bounds},
    {"theta_sketch_to_text", 1, 0, to_text},
    {"tuple_sketch_add", 3, 0, sums_add},
    {"tuple_sketch_add", 4, 0, sums_add},
    {"tuple_sketch_add", 5, 0, sums_add},
    {"tuple_sketch_a_not_b", 2, 0, sums_a_not_b},
    {"tuple_sketch_get_estimate", 1, 0, sums_get_estimate},
    {"tuple_sketch_get_bounds", 1, SQLITE_RESULT_SUBTYPE, sums_get_bounds},
    {"tuple_sketch_get_bounds", 2, SQLITE_RESULT_SUBTYPE, sums_get_bounds},
    {"tuple_sketch_get_total", 1, 0, sums_get_total},
    {"tuple_sketch_to_text", 1, 0, sums_to_text},
};

#define COUNT(table) (sizeof(table) / sizeof *(table))

/* SQLite finds this name by that of the file, without its signs. */
__attribute__((visibility("default"))) int sqlite3_thetasketch_init(sqlite3 *db, char **message, const sqlite3_api_routines *api) {
    const int flags = SQLITE_UTF8 | SQLITE_DETERMINISTIC | SQLITE_INNOCUOUS;
    int status = SQLITE_OK;
    (void)message;
    SQLITE_EXTENSION_INIT2(api);
    for (size_t i = 0; i < COUNT(aggregates) && status == SQLITE_OK; i++)
        status = sqlite3_create_window_function(db, aggregates[i].name, aggregates[i].arguments, flags, (void *)aggregates[i].name, aggregates[i].add,
                                                aggregates[i].final, aggregates[i].current, refuse_inverse, NULL);
    for (size_t i = 0; i < COUNT(functions) && status == SQLITE_OK; i++)
        status = sqlite3_create_function_v2(db, functions[i].name, functions[i].arguments, flags | functions[i].flags, (void *)functions[i].name,
                                            functions[i].call, NULL, NULL, NULL);
    return status;
}
