/* See groups.h. */
#include "groups.h"
#include <stdio.h>
#include <string.h>

/* ---- Modes ---- */

static const struct { const char *word; uint8_t mode; } modes[] = {{"sum", KC_SUM}, {"min", KC_MIN}, {"max", KC_MAX}};
enum { COUNT_OF_MODES = sizeof modes / sizeof *modes };

int mode_of(const char *word, size_t length, uint8_t *mode) {
    for (int i = 0; i < COUNT_OF_MODES; i++) {
        if (strlen(modes[i].word) != length || memcmp(modes[i].word, word, length) != 0) continue;
        *mode = modes[i].mode;
        return 1;
    }
    return 0;
}

const char *word_of(uint8_t mode) {
    for (int i = 0; i < COUNT_OF_MODES; i++)
        if (modes[i].mode == mode) return modes[i].word;
    return "";
}

/* ---- Unions ---- */

/* What kc_sums_new takes as the resize factor. */
enum { RESIZE_FACTOR = 8 };

uint8_t lg_k_for(uint64_t retained) {
    uint8_t lg_k = DEFAULT_LG_K;
    while (lg_k < GREATEST_LG_K && retained > (uint64_t)1 << lg_k) lg_k++;
    return lg_k;
}

/* The empty sketch of each kind. */
static kc_status empty_result(kc_compact *out) {
    kc_theta none = {0};
    kc_status status = kc_theta_new(&none, LEAST_LG_K, KC_DEFAULT_SEED);
    if (status == KC_OK) status = kc_theta_compact(&none, out);
    kc_theta_free(&none);
    return status;
}

static kc_status empty_sums(kc_compact_sums *out) {
    kc_sums none = {0};
    kc_status status = kc_sums_new(&none, LEAST_LG_K, KC_DEFAULT_SEED);
    if (status == KC_OK) status = kc_sums_compact(&none, out);
    kc_sums_free(&none);
    return status;
}

#define UNION(name) union_##name
#define ROWS(name) kc_theta##name
#define SKETCH(name) kc_compact##name
#define OPERATOR(name) kc_union##name
#define NEW_ROWS(rows, lg_k, mode) ((void)(mode), kc_theta_new(rows, lg_k, KC_DEFAULT_SEED))
#define NEW_OPERATOR(part, lg_k, mode) ((void)(mode), kc_union_new(part, lg_k, KC_DEFAULT_SEED))
#define EMPTY empty_result
#include "union.inc"

kc_status union_add_bytes(union_group *group, const void *bytes, size_t count) {
    kc_status status = union_begin(group);
    return status != KC_OK ? status : kc_theta_update_bytes(&group->rows, bytes, count);
}

kc_status union_add_number(union_group *group, uint64_t number) {
    kc_status status = union_begin(group);
    return status != KC_OK ? status : kc_theta_update_u64(&group->rows, number);
}

#define UNION(name) sums_##name
#define ROWS(name) kc_sums##name
#define SKETCH(name) kc_compact_sums##name
#define OPERATOR(name) kc_sums_union##name
#define NEW_ROWS(rows, lg_k, mode) kc_sums_new_by_mode(rows, lg_k, KC_DEFAULT_SEED, RESIZE_FACTOR, KC_MAX_THETA, mode)
#define NEW_OPERATOR(part, lg_k, mode) kc_sums_union_new_by_mode(part, lg_k, KC_DEFAULT_SEED, RESIZE_FACTOR, KC_MAX_THETA, mode)
#define EMPTY empty_sums
#include "union.inc"

kc_status sums_add_bytes(sums_group *group, const void *bytes, size_t count, uint64_t value) {
    kc_status status = sums_begin(group);
    return status != KC_OK ? status : kc_sums_add_bytes(&group->rows, bytes, count, value);
}

kc_status sums_add_number(sums_group *group, uint64_t number, uint64_t value) {
    kc_status status = sums_begin(group);
    return status != KC_OK ? status : kc_sums_add_u64(&group->rows, number, value);
}

/* ---- Intersections ---- */

#define MEET(name) meet_##name
#define SKETCH(name) kc_compact##name
#define INTERSECTION(name) kc_intersection##name
#define NEW_INTERSECTION(part, mode) ((void)(mode), kc_intersection_new(part, KC_DEFAULT_SEED))
#define EMPTY empty_result
#include "meet.inc"

#define MEET(name) sums_meet_##name
#define SKETCH(name) kc_compact_sums##name
#define INTERSECTION(name) kc_sums_intersection##name
#define NEW_INTERSECTION(part, mode) kc_sums_intersection_new_by_mode(part, KC_DEFAULT_SEED, mode)
#define EMPTY empty_sums
#include "meet.inc"

/* ---- A key for a sketch ---- */

/* Whether a sketch may stay as it is: it is neither empty nor cut. */
static int may_hold(const kc_state *state, uint8_t lg_k) { return !state->empty && state->retained <= (uint64_t)1 << lg_k; }

kc_status union_holds(union_group *group, kc_compact *sketch, int *holds) {
    kc_compact key = {0}, rest = {0};
    kc_state state;
    *holds = 0;
    kc_status status = kc_compact_state(sketch, &state);
    if (status != KC_OK || !may_hold(&state, group->lg_k)) return status;
    status = kc_theta_compact(&group->rows, &key);
    if (status == KC_OK) status = kc_difference(&key, sketch, KC_DEFAULT_SEED, &rest);
    if (status == KC_OK) status = kc_compact_state(&rest, &state);
    *holds = status == KC_OK && state.retained == 0;
    kc_compact_free(&key);
    kc_compact_free(&rest);
    return status;
}

kc_status sums_holds(sums_group *group, kc_compact_sums *sketch, int *holds) {
    kc_compact_sums key = {0}, rest = {0}, both = {0};
    kc_sums_intersection meet = {0};
    kc_state state, shared;
    *holds = 0;
    kc_status status = kc_compact_sums_state(sketch, &state);
    if (status != KC_OK || !may_hold(&state, group->lg_k)) return status;
    status = kc_sums_compact(&group->rows, &key);
    if (status == KC_OK) status = kc_sums_difference(&key, sketch, KC_DEFAULT_SEED, &rest);
    if (status == KC_OK) status = kc_compact_sums_state(&rest, &state);
    if (status == KC_OK && state.retained == 0) {
        status = kc_sums_intersection_new_by_mode(&meet, KC_DEFAULT_SEED, group->mode);
        if (status == KC_OK) status = kc_sums_intersection_add_compact(&meet, &key);
        if (status == KC_OK) status = kc_sums_intersection_add_compact(&meet, sketch);
        if (status == KC_OK) status = kc_sums_intersection_result(&meet, &both);
        if (status == KC_OK) status = kc_compact_sums_state(&both, &shared);
        *holds = status == KC_OK && shared.retained == 0;
    }
    kc_compact_sums_free(&key);
    kc_compact_sums_free(&rest);
    kc_compact_sums_free(&both);
    kc_sums_intersection_free(&meet);
    return status;
}

/* ---- Images ---- */

/* What a flaw means, and what to do. */
static const char *flaw_of(const kc_finding *it, int is_of_sums) {
    switch (it->flaw) {
    case KC_FLAW_HEXADECIMAL: return "is a text of hexadecimal digits: pass the bytes that they stand for";
    case KC_FLAW_SHORT: return "is too short for a sketch: pass a whole image";
    case KC_FLAW_FAMILY:
        if (is_of_sums && it->found == 3) return "is that of a theta sketch: pass one of sums";
        if (!is_of_sums && it->found == 9) return "is that of a tuple sketch: pass one of a theta sketch";
        return "is that of another kind of sketch: pass a compact one";
    case KC_FLAW_VERSION: return it->found == 4 ? "is compressed: write it uncompressed" : "is of a version that is not read: write it in version 3";
    case KC_FLAW_BIG_ENDIAN: return "is in big-endian order: write it in little-endian order";
    case KC_FLAW_SEED: return "is under another seed than 9001: make it under that one";
    case KC_FLAW_CUT: return "is cut short: copy or make it again";
    case KC_FLAW_LONGER: return "is longer than one sketch: pass one image alone";
    default: return "is damaged (its preamble, sketch type, theta or hashes are not valid): copy or make it again";
    }
}

kc_status read_image(const void *image, size_t count, kc_compact *out, const char **flaw) {
    kc_finding found;
    kc_status status = kc_compact_read_whole(out, image, count, KC_DEFAULT_SEED, &found);
    if (status == KC_INVALID_DATA) *flaw = flaw_of(&found, 0);
    return status;
}

kc_status read_sums(const void *image, size_t count, kc_compact_sums *out, const char **flaw) {
    kc_finding found;
    kc_status status = kc_compact_sums_read_whole(out, image, count, KC_DEFAULT_SEED, &found);
    if (status == KC_INVALID_DATA) *flaw = flaw_of(&found, 1);
    return status;
}

/* ---- Texts ---- */

double number_of(kc_wide n) { return (double)n.high * 18446744073709551616.0 + (double)n.low; }

/* Writes a number of 128 bits as text with a final 0 byte, in at most 40 bytes, and returns the length. */
static int write_wide(kc_wide n, char *text) {
    uint64_t length = 0;
    kc_wide_text(&n, text, 39, &length);
    text[length] = 0;
    return (int)length;
}

int describe_state(const kc_state *state, char *text) {
    kc_wide count, lower, upper;
    if (kc_estimate_rounded(state->retained, state->theta, &count) != KC_OK) return -1;
    if (kc_count_bounds(state->retained, state->theta, 2, &lower, &upper) != KC_OK) return -1;
    int at = write_wide(count, text);
    if (state->theta == KC_MAX_THETA) at += sprintf(text + at, " exact");
    else {
        at += sprintf(text + at, " estimated, from ");
        at += write_wide(lower, text + at);
        at += sprintf(text + at, " to ");
        at += write_wide(upper, text + at);
    }
    return at + sprintf(text + at, ", retained %llu, theta %llu", (unsigned long long)state->retained, (unsigned long long)state->theta);
}

int describe_sums(const kc_state *state, const kc_wide *total, char *text) {
    kc_wide rounded;
    int at = describe_state(state, text);
    if (at < 0 || kc_total_rounded(total, state->theta, &rounded) != KC_OK) return -1;
    at += sprintf(text + at, ", total ");
    return at + write_wide(rounded, text + at);
}

int describe_bounds(kc_wide lower, kc_wide upper, char *text) {
    int at = sprintf(text, "[");
    at += write_wide(lower, text + at);
    at += sprintf(text + at, ",");
    at += write_wide(upper, text + at);
    return at + sprintf(text + at, "]");
}
