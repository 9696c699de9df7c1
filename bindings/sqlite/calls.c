/* See calls.h. */
#include "calls.h"
SQLITE_EXTENSION_INIT3

/* ---- Messages ---- */

void refuse(context *call, const char *reason) {
    char *message = sqlite3_mprintf("%s: %s", (const char *)sqlite3_user_data(call), reason);
    if (message != NULL) sqlite3_result_error(call, message, -1);
    else sqlite3_result_error_nomem(call);
    sqlite3_free(message);
}

void refuse_key(context *call) { refuse(call, "a key is a text, a blob or an integer; cast the REAL to one of them"); }

int passed(context *call, kc_status status) {
    if (status == KC_OK) return 1;
    if (status == KC_OUT_OF_MEMORY) sqlite3_result_error_nomem(call);
    else if (status == KC_POLICY) refuse(call, "the sum of a key would be 2^64 or more");
    else if (status == KC_FAILED) refuse(call, "memory was refused in an earlier row");
    else refuse(call, "the library refused a call");
    return 0;
}

int was_read(context *call, kc_status status, const char *flaw) {
    if (status != KC_INVALID_DATA) return passed(call, status);
    char *reason = sqlite3_mprintf("the blob %s", flaw);
    refuse(call, reason != NULL ? reason : "the blob is no sketch");
    sqlite3_free(reason);
    return 0;
}

void refuse_inverse(context *call, int count, value **arguments) {
    (void)count, (void)arguments;
    refuse(call, "a sketch can't forget a row; begin the frame at UNBOUNDED PRECEDING");
}

/* ---- Arguments ---- */

void *state_of(context *call, int size) {
    void *state = sqlite3_aggregate_context(call, size);
    if (state == NULL) sqlite3_result_error_nomem(call);
    return state;
}

int is_null(value *v) { return sqlite3_value_type(v) == SQLITE_NULL; }

int bytes_of(context *call, value *v, const void **bytes, size_t *count) {
    *bytes = sqlite3_value_type(v) == SQLITE_TEXT ? (const void *)sqlite3_value_text(v) : sqlite3_value_blob(v);
    *count = (size_t)sqlite3_value_bytes(v);
    if (*bytes != NULL || *count == 0) return 1;
    sqlite3_result_error_nomem(call);
    return 0;
}

int image_bytes(context *call, value *v, const void **bytes, size_t *count) {
    if (sqlite3_value_type(v) == SQLITE_BLOB) return bytes_of(call, v, bytes, count);
    refuse(call, "a sketch is a blob");
    return 0;
}

/* The integer of an argument; if it is missing, the default, and if it is no integer, 0. */
static sqlite3_int64 integer_of(int count, value **arguments, int place, sqlite3_int64 missing) {
    if (count <= place) return missing;
    return sqlite3_value_type(arguments[place]) == SQLITE_INTEGER ? sqlite3_value_int64(arguments[place]) : 0;
}

int take_lg_k(context *call, int count, value **arguments, int place, uint8_t missing, uint8_t *lg_k) {
    sqlite3_int64 n = integer_of(count, arguments, place, missing);
    int is_in_range = count <= place || (LEAST_LG_K <= n && n <= GREATEST_LG_K);
    if (!is_in_range) refuse(call, "lg_k is not a whole number from 4 to 26");
    else if (*lg_k == 0) *lg_k = (uint8_t)n;
    else if (*lg_k != n) refuse(call, "lg_k differs between the rows of a group; pass a constant");
    return is_in_range && *lg_k == n;
}

int take_mode(context *call, int count, value **arguments, int place, int is_first, uint8_t *mode) {
    const void *word = "";
    size_t length = 0;
    uint8_t found = KC_SUM;
    if (count > place) {
        int is_text = sqlite3_value_type(arguments[place]) == SQLITE_TEXT;
        if (is_text && !bytes_of(call, arguments[place], &word, &length)) return 0;
        if (!mode_of(word, length, &found)) {
            refuse(call, "mode is not " MODES);
            return 0;
        }
    }
    if (is_first) *mode = found;
    else if (*mode != found) refuse(call, "mode differs between the rows of a group; pass a constant");
    return *mode == found;
}

int take_deviations(context *call, int count, value **arguments, uint32_t *deviations) {
    sqlite3_int64 n = integer_of(count, arguments, 1, 2);
    int is_in_range = 1 <= n && n <= 3;
    if (!is_in_range) refuse(call, "the number of standard deviations is not 1, 2 or 3");
    *deviations = (uint32_t)n;
    return is_in_range;
}

/* ---- Results ---- */

void put_estimate(context *call, const kc_state *state) { sqlite3_result_double(call, kc_estimate(state)); }

void put_bounds(context *call, const kc_state *state, uint32_t deviations) {
    char text[DESCRIPTION_ROOM];
    kc_wide lower, upper;
    if (!passed(call, kc_count_bounds(state->retained, state->theta, deviations, &lower, &upper))) return;
    sqlite3_result_text(call, text, describe_bounds(lower, upper, text), SQLITE_TRANSIENT);
    sqlite3_result_subtype(call, 'J'); /* JSON, to SQLite's functions of JSON */
}
