/* Programs of calls that bytes spell, for libFuzzer, or by chance if STANDALONE is defined: fuzz [PROGRAMS [SEED]], default 1000 from seed 1, of 4096 bytes each.
 *
 * A byte chooses a call, and those after it its handles and arguments; each input lies in a buffer of its own length. Whatever the bytes
 * are, a status is one that the call may return, what is refused makes no object, a sketch has a state that a sketch may have, and its
 * image is read as the same sketch, but not without its last byte. A fault ends the process. */
#include "kaftanclay.h"
#include <stdio.h>
#include <stdlib.h>
#include <string.h>

#define MUST(condition) do { if (!(condition)) fault(#condition, __LINE__); } while (0)

static void fault(const char *text, int line) {
    fprintf(stderr, "fuzz.c:%d: %s\n", line, text);
    abort();
}

/* ---- The bytes ---- */

static const unsigned char *at;
static size_t left;

static unsigned byte(void) { return left > 0 ? (left--, *at++) : 0; }

static uint64_t number(void) {
    uint64_t n = 0;
    for (unsigned bytes = byte() % 9; bytes > 0; bytes--) n = n << 8 | byte();
    return n;
}

typedef struct {
    unsigned char *bytes;
    size_t count;
} Buffer;

static Buffer buffer(size_t count) {
    Buffer out = {malloc(count), count};
    MUST(out.bytes != NULL || count == 0);
    return out;
}

static Buffer some_bytes(void) {
    Buffer out = buffer(byte() % 64);
    for (size_t i = 0; i < out.count; i++) out.bytes[i] = (unsigned char)byte();
    return out;
}

/* Damages a copy of an image: some bytes change, are cut off or added. */
static Buffer damaged(Buffer image) {
    size_t cut = byte(), more = byte() % 4;
    size_t kept = cut % 8 == 0 ? image.count - cut / 8 % (image.count + 1) : image.count;
    Buffer out = buffer(kept + (cut % 4 == 0 ? more : 0));
    if (kept > 0) memcpy(out.bytes, image.bytes, kept);
    memset(out.bytes + kept, 1, out.count - kept);
    for (unsigned changes = byte() % 4; changes > 0 && out.count > 0; changes--) {
        size_t place = byte() % 2 == 0 ? byte() % 32 : (size_t)number();
        out.bytes[place % out.count] = (unsigned char)byte();
    }
    return out;
}

/* ---- Objects ---- */

enum { SLOTS = 3 };
static kc_theta thetas[SLOTS];
static kc_compact compacts[SLOTS];
static kc_text texts[SLOTS];
static kc_batch batches[SLOTS];
static kc_union unions[SLOTS];
static kc_intersection meets[SLOTS];
static kc_sums sums[SLOTS];
static kc_compact_sums compact_sums[SLOTS];
static kc_sums_union sums_unions[SLOTS];
static kc_sums_intersection sums_meets[SLOTS];

static unsigned slot(void) { return byte() % SLOTS; }
static uint64_t seed(void) { return byte() % 8 == 0 ? 7 : KC_DEFAULT_SEED; }
/* 4 to 11, or one that is refused: at 26 a tuple sketch that starts with all its slots takes 3 GiB, more than libFuzzer allows. */
static uint32_t lg_k(void) {
    unsigned n = byte();
    if (n < 250) return 4 + n % 8;
    uint32_t any = (uint32_t)number();
    return any < 4 || any > 26 ? any : 4 + any % 8;
}

/* A status of a call that reads no bytes, of one that reads an image, and of one that makes an object. */
static kc_status called(kc_status status) {
    MUST(status == KC_OK || status == KC_INVALID_ARGUMENT || status == KC_POLICY || status == KC_FAILED);
    return status;
}
static kc_status read_as(kc_status status) {
    if (status != KC_INVALID_DATA) called(status);
    return status;
}
#define MAKES(handle, call) do { \
        void *before = (handle)->object; \
        kc_status status = read_as(call); \
        MUST(status == KC_OK ? before == NULL && (handle)->object != NULL : (handle)->object == before); \
    } while (0)

static void check_state(const kc_state *state) {
    kc_wide lower, upper, rounded, whole;
    uint64_t decimals, length;
    char text[64];
    MUST(state->retained < UINT64_C(1) << 32 && 1 <= state->theta && state->theta <= KC_MAX_THETA && state->empty <= 1);
    MUST(!state->empty || state->retained == 0);
    MUST(kc_estimate_rounded(state->retained, state->theta, &rounded) == KC_OK);
    MUST(kc_estimate_decimal(state->retained, state->theta, 3, &whole, &decimals) == KC_OK && decimals < 1000);
    MUST(kc_count_bounds(state->retained, state->theta, 1 + byte() % 3, &lower, &upper) == KC_OK);
    MUST(lower.high < upper.high || (lower.high == upper.high && lower.low <= upper.low));
    MUST(state->theta < KC_MAX_THETA || (lower.low == state->retained && upper.low == state->retained && upper.high == 0));
    MUST(kc_estimate_text(state, byte() % 20, text, sizeof text, &length) == KC_OK && length <= 49);
}

/* The image of a sketch, which is read again; null without an object. And a damaged one, which is read if its state is. */
#define IMAGE_OF(name, kind, compact) \
    static Buffer image_of_##name(const kind *sketch) { \
        uint64_t length = 0; \
        kc_state state, again; \
        compact copy = {0}, shorter = {0}; \
        Buffer none = {NULL, 0}; \
        kc_status status = name##_image(sketch, NULL, 0, &length); \
        MUST(status == (sketch->object != NULL ? KC_TOO_SMALL : KC_INVALID_ARGUMENT)); \
        if (status != KC_TOO_SMALL) return none; \
        Buffer out = buffer(length), less = buffer(length - 1); \
        MUST(name##_image(sketch, less.bytes, less.count, &length) == KC_TOO_SMALL && length == out.count); \
        MUST(name##_image(sketch, out.bytes, out.count, &length) == KC_OK && length == out.count); \
        MUST(name##_state(sketch, &state) == KC_OK); \
        check_state(&state); \
        memcpy(less.bytes, out.bytes, less.count); \
        for (uint64_t of = 0; copy.object == NULL; of = of == 0 ? KC_DEFAULT_SEED : 7) \
            if (compact##_read(&copy, out.bytes, out.count, of) != KC_OK) MUST(of != 7 && copy.object == NULL); \
        MUST(compact##_read(&shorter, less.bytes, less.count, KC_DEFAULT_SEED) == KC_INVALID_DATA && shorter.object == NULL); \
        MUST(compact##_state(&copy, &again) == KC_OK && memcmp(&state, &again, sizeof state) == 0); \
        MUST(compact##_image(&copy, less.bytes, less.count, &length) == KC_TOO_SMALL && length == out.count); \
        Buffer same = buffer(out.count); \
        MUST(compact##_image(&copy, same.bytes, same.count, &length) == KC_OK && memcmp(same.bytes, out.bytes, out.count) == 0); \
        compact##_free(&copy); \
        free(same.bytes); \
        free(less.bytes); \
        return out; \
    }
IMAGE_OF(kc_theta, kc_theta, kc_compact)
IMAGE_OF(kc_compact, kc_compact, kc_compact)
IMAGE_OF(kc_sums, kc_sums, kc_compact_sums)
IMAGE_OF(kc_compact_sums, kc_compact_sums, kc_compact_sums)

static Buffer an_image(void) {
    Buffer image, out;
    switch (byte() % 6) {
    case 0: return some_bytes();
    case 1: image = image_of_kc_theta(&thetas[slot()]); break;
    case 2: image = image_of_kc_sums(&sums[slot()]); break;
    case 3: image = image_of_kc_compact_sums(&compact_sums[slot()]); break;
    default: image = image_of_kc_compact(&compacts[slot()]); break;
    }
    if (byte() % 2 == 0) return image;
    out = damaged(image);
    free(image.bytes);
    return out;
}

/* ---- Calls ---- */

static void update_theta(kc_theta *sketch) {
    Buffer keys = some_bytes();
    uint64_t hashes[16], ends[4];
    size_t count = byte() % 16;
    for (size_t i = 0; i < count; i++) hashes[i] = byte() % 2 == 0 ? byte() : number() & KC_MAX_THETA;
    for (size_t i = 0; i < 4; i++) ends[i] = keys.count * (i + 1) / 4 + (byte() == 0);
    switch (byte() % 5) {
    case 0: called(kc_theta_update_bytes(sketch, keys.bytes, keys.count)); break;
    case 1: called(kc_theta_update_hashes(sketch, hashes, count)); break;
    case 2: called(kc_theta_update_strings(sketch, keys.bytes, keys.count, ends, 4)); break;
    case 3: called(kc_theta_update_text(sketch, &texts[slot()], keys.bytes, keys.count)); break;
    case 4:
        for (uint64_t first = number() % 4096, i = 0, some = 8 * byte(); i < some; i++) called(kc_theta_update_u64(sketch, first + i));
        break;
    }
    free(keys.bytes);
}

static void update_sums(kc_sums *sketch) {
    Buffer keys = some_bytes();
    uint64_t hashes[8], values[8], ends[4], added = 9, value = number();
    size_t count = byte() % 8;
    for (size_t i = 0; i < 8; i++) hashes[i] = byte() % 2 == 0 ? byte() : number() & KC_MAX_THETA;
    for (size_t i = 0; i < 8; i++) values[i] = number();
    for (size_t i = 0; i < 4; i++) ends[i] = keys.count * (i + 1) / 4;
    switch (byte() % 4) {
    case 0: called(kc_sums_add_bytes(sketch, keys.bytes, keys.count, value)); break;
    case 1: if (called(kc_sums_add_hashes(sketch, hashes, count, values, count, &added)) == KC_OK) MUST(added == count); break;
    case 2: if (called(kc_sums_add_strings(sketch, keys.bytes, keys.count, ends, 4, values, 4, &added)) == KC_OK) MUST(added == 4); break;
    case 3:
        for (uint64_t first = number() % 4096, i = 0, some = 8 * byte(); i < some; i++) called(kc_sums_add_u64(sketch, first + i, value >> 32));
        break;
    }
    free(keys.bytes);
}

static void call_theta(void) {
    unsigned i = slot(), j = slot();
    switch (byte() % 10) {
    case 0: MAKES(&thetas[i], kc_theta_new(&thetas[i], lg_k(), seed())); break;
    case 1: MAKES(&thetas[i], kc_theta_new_with(&thetas[i], lg_k(), seed(), 1u << byte() % 4, number() & KC_MAX_THETA)); break;
    case 2: if (i != j) MAKES(&thetas[j], kc_theta_clone(&thetas[i], &thetas[j])); break;
    case 3: MUST(kc_theta_free(&thetas[i]) == KC_OK && thetas[i].object == NULL); break;
    case 4: called(kc_theta_trim(&thetas[i])); break;
    case 5: if (byte() % 8 == 0) called(kc_theta_reset(&thetas[i])); break;
    case 6: MAKES(&compacts[j], kc_theta_compact(&thetas[i], &compacts[j])); break;
    case 7: if (byte() % 2 == 0) MAKES(&texts[i], kc_text_new(&texts[i], seed())); else called(kc_theta_end_text(&thetas[i], &texts[j])); break;
    default: update_theta(&thetas[i]); break;
    }
}

static void call_sums(void) {
    unsigned i = slot(), j = slot();
    kc_wide total, rounded;
    kc_state state;
    switch (byte() % 9) {
    case 0: MAKES(&sums[i], kc_sums_new(&sums[i], lg_k(), seed())); break;
    case 1: MAKES(&sums[i], kc_sums_new_by_mode(&sums[i], lg_k(), seed(), 1u << byte() % 4, number() & KC_MAX_THETA, byte() % 4)); break;
    case 2: if (i != j) MAKES(&sums[j], kc_sums_clone(&sums[i], &sums[j])); break;
    case 3: MUST(kc_sums_free(&sums[i]) == KC_OK && sums[i].object == NULL); break;
    case 4: called(kc_sums_trim(&sums[i])); break;
    case 5: if (byte() % 8 == 0) called(kc_sums_reset(&sums[i])); break;
    case 6: MAKES(&compact_sums[j], kc_sums_compact(&sums[i], &compact_sums[j])); break;
    case 7:
        if (called(kc_sums_total(&sums[i], &total)) == KC_OK && kc_sums_state(&sums[i], &state) == KC_OK)
            MUST(kc_total_rounded(&total, state.theta, &rounded) == KC_OK);
        break;
    default: update_sums(&sums[i]); break;
    }
}

#define CALL_OPERATORS(name, theta_, compact_, union_, meet_, rows, forms, us, ms, difference_) \
    static void name(void) { \
        unsigned i = slot(), j = slot(), k = slot(); \
        Buffer image = {NULL, 0}; \
        switch (byte() % 18) { \
        case 0: MAKES(&us[i], union_##_new(&us[i], lg_k(), seed())); break; \
        case 1: case 2: called(union_##_add(&us[i], &rows[j])); break; \
        case 3: case 4: called(union_##_add_compact(&us[i], &forms[j])); break; \
        case 5: image = an_image(), read_as(union_##_add_image(&us[i], image.bytes, image.count)); break; \
        case 6: case 7: MAKES(&forms[j], union_##_result(&us[i], &forms[j])); break; \
        case 8: if (byte() % 4 == 0) called(union_##_reset(&us[i])); break; \
        case 9: called(union_##_lower_lg_k(&us[i], lg_k())); break; \
        case 10: MAKES(&ms[i], meet_##_new(&ms[i], seed())); break; \
        case 11: called(meet_##_add(&ms[i], &rows[j])); break; \
        case 12: called(meet_##_add_compact(&ms[i], &forms[j])); break; \
        case 13: image = an_image(), read_as(meet_##_add_image(&ms[i], image.bytes, image.count)); break; \
        case 14: MAKES(&forms[j], meet_##_result(&ms[i], &forms[j])); break; \
        case 15: if (k != i && k != j) MAKES(&forms[k], difference_(&forms[i], &forms[j], seed(), &forms[k])); break; \
        case 16: if (byte() % 2 == 0) MUST(union_##_free(&us[i]) == KC_OK); else MUST(meet_##_free(&ms[i]) == KC_OK); break; \
        default: MUST(compact_##_free(&forms[i]) == KC_OK && forms[i].object == NULL); break; \
        } \
        free(image.bytes); \
    }
CALL_OPERATORS(call_operators, kc_theta, kc_compact, kc_union, kc_intersection, thetas, compacts, unions, meets, kc_difference)
CALL_OPERATORS(call_sums_operators, kc_sums, kc_compact_sums, kc_sums_union, kc_sums_intersection, sums, compact_sums, sums_unions, sums_meets,
               kc_sums_difference)

static void call_batch(void) {
    unsigned i = slot(), j = slot();
    Buffer image = {NULL, 0};
    switch (byte() % 7) {
    case 0: MAKES(&batches[i], kc_batch_new(&batches[i], seed())); break;
    case 1: called(kc_batch_add(&batches[i], &thetas[j])); break;
    case 2: called(kc_batch_add_compact(&batches[i], &compacts[j])); break;
    case 3: image = an_image(), read_as(kc_batch_add_image(&batches[i], image.bytes, image.count)); break;
    case 4: called(kc_batch_reset(&batches[i])); break;
    case 5: called(kc_union_add_batch(&unions[j], &batches[i])); break;
    default: if (byte() % 4 == 0) MUST(kc_batch_free(&batches[i]) == KC_OK); break;
    }
    free(image.bytes);
}

/* The image of a tuple sketch whose summaries have one byte, of the keys of another: its head is that of the keys. */
static void call_tuples(const kc_compact *keys, uint64_t of) {
    kc_state state, said;
    kc_finding found = {0, 0, 0};
    kc_compact again = {0}, foreign = {0};
    uint64_t length = 0, count = 0, start = 0;
    uint32_t ordered = 9, is_ordered = 9;
    if (kc_compact_state(keys, &state) != KC_OK) return;
    Buffer image = buffer(24 + 9 * (size_t)state.retained), hashes = buffer(8 * (size_t)state.retained);
    uint64_t *listed = (uint64_t *)(void *)hashes.bytes;
    MUST(kc_compact_hashes(keys, listed, (size_t)state.retained, &count) == KC_OK && count == state.retained && kc_compact_is_ordered(keys, &is_ordered) == KC_OK);
    MUST(kc_compact_tuple_preamble(keys, image.bytes, 7, &length) == KC_TOO_SMALL && kc_compact_tuple_preamble(keys, image.bytes, 24, &length) == KC_OK && length <= 24);
    for (size_t i = 0; i < count; i++) memcpy(image.bytes + length + 9 * i, listed + i, 8), image.bytes[length + 9 * i + 8] = (unsigned char)i;
    image.count = (size_t)length + 9 * count;
    kc_status status = kc_tuple_head(image.bytes, image.count, of, &said, &ordered, &start, &found);
    MUST(status == KC_OK ? memcmp(&said, &state, sizeof said) == 0 && ordered == is_ordered && start == length : status == KC_INVALID_DATA && found.flaw == KC_FLAW_SEED);
    if (status == KC_OK) {
        status = kc_compact_of_hashes(&again, &said, ordered, listed, count, of);
        MUST(status == KC_OK && kc_compact_state(&again, &said) == KC_OK && memcmp(&said, &state, sizeof said) == 0);
        if (count > 1) MUST(kc_compact_of_hashes(&foreign, &said, ordered, listed, count - 1, of) == KC_INVALID_DATA && foreign.object == NULL);
    }
    kc_compact_free(&again);
    free(image.bytes);
    free(hashes.bytes);
}

/* Any state, order and hashes: what is made of them has them. */
static void call_hashes(void) {
    kc_state state = {byte() % 5, byte() % 2 == 0 ? KC_MAX_THETA : number(), byte() % 8 == 0}, said;
    uint64_t hashes[4], listed[4], count = 0;
    uint32_t ordered = byte() % 3, is_ordered = 9;
    size_t some = byte() % 8 == 0 ? byte() % 5 : (size_t)state.retained % 5;
    kc_compact made = {0};
    for (size_t i = 0; i < 4; i++) hashes[i] = byte() % 2 == 0 ? byte() : number() & KC_MAX_THETA;
    if (some > 4) some = 4;
    if (read_as(kc_compact_of_hashes(&made, &state, ordered, hashes, some, seed())) != KC_OK) {
        MUST(made.object == NULL);
        return;
    }
    MUST(kc_compact_state(&made, &said) == KC_OK && memcmp(&said, &state, sizeof said) == 0 && kc_compact_is_ordered(&made, &is_ordered) == KC_OK && is_ordered == ordered);
    MUST(kc_compact_hashes(&made, listed, 4, &count) == KC_OK && count == some && (some == 0 || memcmp(listed, hashes, 8 * some) == 0));
    check_state(&said);
    kc_compact_free(&made);
}

/* One status for one image, whichever call reads it; bytes behind it don't matter but to a call that reads it whole. */
static void call_images(void) {
    Buffer first = an_image(), second = an_image(), out = buffer(byte());
    unsigned i = slot();
    uint64_t of = seed(), length = 0;
    kc_state state;
    kc_compact form = {0};
    kc_status status = kc_image_state(first.bytes, first.count, of, &state);
    MUST(read_as(kc_compact_read(&form, first.bytes, first.count, of)) == status);
    if (status == KC_OK) check_state(&state), call_tuples(&form, of);
    kc_compact_free(&form);
    kc_finding found = {0, 0, 0}, flaw = {0, 0, 0};
    kc_status whole = read_as(kc_compact_read_whole(&form, first.bytes, first.count, of, &found));
    MUST(kc_image_flaw(first.bytes, first.count, of, &flaw) == KC_OK && (whole == KC_OK) == (status == KC_OK && flaw.length == first.count));
    MUST(whole == KC_OK ? found.flaw == 0 : form.object == NULL && memcmp(&found, &flaw, sizeof flaw) == 0);
    kc_compact_free(&form);
    kc_compact_sums sums_form = {0};
    found = (kc_finding){0, 0, 0};
    whole = read_as(kc_compact_sums_read_whole(&sums_form, first.bytes, first.count, of, &found));
    MUST(kc_sums_image_flaw(first.bytes, first.count, of, &flaw) == KC_OK && (whole == KC_OK ? found.flaw == 0 && flaw.length == first.count : memcmp(&found, &flaw, sizeof flaw) == 0));
    MUST((whole == KC_OK) == (sums_form.object != NULL));
    uint64_t start = 0;
    uint32_t ordered = 9;
    if (read_as(kc_tuple_head(first.bytes, first.count, of, &state, &ordered, &start, &found)) == KC_OK) {
        check_state(&state);
        MUST(ordered <= 1 && start + 8 * state.retained <= first.count);
    } else MUST(whole != KC_OK);
    kc_compact_sums_free(&sums_form);
    status = kc_images_intersect(first.bytes, first.count, second.bytes, second.count, of, out.bytes, out.count, &length);
    if (status != KC_TOO_SMALL) read_as(status);
    status = kc_images_difference(first.bytes, first.count, second.bytes, second.count, of, out.bytes, out.count, &length);
    if (status != KC_TOO_SMALL) read_as(status);
    if (byte() % 2 == 0) MAKES(&compacts[i], kc_compact_read(&compacts[i], first.bytes, first.count, of));
    else MAKES(&compact_sums[i], kc_compact_sums_read(&compact_sums[i], first.bytes, first.count, of));
    free(first.bytes);
    free(second.bytes);
    free(out.bytes);
}

/* Numbers that no sketch has. */
static void call_estimates(void) {
    kc_state state = {number(), number(), number()};
    kc_wide wide = {number(), number()}, out, more;
    uint64_t length = 0, decimals;
    char text[64];
    unsigned places = byte() % 24;
    called(kc_estimate_decimal(state.retained, state.theta, places, &out, &decimals));
    called(kc_estimate_text(&state, places, text, sizeof text, &length));
    called(kc_estimate_rounded(state.retained, state.theta, &out));
    called(kc_count_bounds(state.retained, state.theta, byte() % 5, &out, &more));
    called(kc_total_decimal(&wide, state.theta, places, &out, &decimals));
    called(kc_total_text(&wide, state.theta, places, text, sizeof text, &length));
    called(kc_total_rounded(&wide, state.theta, &out));
    MUST(kc_wide_text(&wide, text, sizeof text, &length) == KC_OK && length <= 39);
    MUST(kc_status_text((kc_status)state.retained) != NULL);
}

static void free_all(void) {
    for (unsigned i = 0; i < SLOTS; i++) {
        kc_theta_free(&thetas[i]), kc_compact_free(&compacts[i]), kc_text_free(&texts[i]), kc_batch_free(&batches[i]), kc_union_free(&unions[i]);
        kc_intersection_free(&meets[i]), kc_sums_free(&sums[i]), kc_compact_sums_free(&compact_sums[i]), kc_sums_union_free(&sums_unions[i]);
        kc_sums_intersection_free(&sums_meets[i]);
    }
}

int LLVMFuzzerTestOneInput(const unsigned char *bytes, size_t count);
int LLVMFuzzerTestOneInput(const unsigned char *bytes, size_t count) {
    at = bytes, left = count;
    for (unsigned i = 0; i < SLOTS; i++) {
        MAKES(&thetas[i], kc_theta_new(&thetas[i], 4 + i, KC_DEFAULT_SEED));
        MAKES(&sums[i], kc_sums_new(&sums[i], 4 + i, KC_DEFAULT_SEED));
        if (i > 0) MAKES(&unions[i], kc_union_new(&unions[i], 4 + i, KC_DEFAULT_SEED));
        if (i > 0) MAKES(&sums_unions[i], kc_sums_union_new_by_mode(&sums_unions[i], 4 + i, KC_DEFAULT_SEED, 8, KC_MAX_THETA, i % 3));
    }
    while (left > 0) {
        switch (byte() % 13) {
        case 0: case 1: case 2: call_theta(); break;
        case 3: case 4: call_sums(); break;
        case 5: case 6: call_operators(); break;
        case 7: case 8: call_sums_operators(); break;
        case 9: call_batch(); break;
        case 10: call_images(); break;
        case 11: call_hashes(); break;
        default: call_estimates(); break;
        }
    }
    free_all();
    return 0;
}

#ifdef STANDALONE
/* Bytes by chance, always the same ones (splitmix64). */
int main(int count, char **arguments) {
    unsigned long programs = count > 1 ? strtoul(arguments[1], NULL, 10) : 1000;
    uint64_t state = count > 2 ? strtoull(arguments[2], NULL, 10) : 1;
    if (programs == 0) programs = 200;
    for (unsigned long n = 0; n < programs; n++) {
        Buffer bytes = buffer(4096);
        for (size_t i = 0; i < bytes.count; i++) {
            uint64_t x = state += UINT64_C(0x9e3779b97f4a7c15);
            x = (x ^ x >> 30) * UINT64_C(0xbf58476d1ce4e5b9);
            x = (x ^ x >> 27) * UINT64_C(0x94d049bb133111eb);
            bytes.bytes[i] = (unsigned char)((x ^ x >> 31) >> 24);
        }
        LLVMFuzzerTestOneInput(bytes.bytes, bytes.count);
        free(bytes.bytes);
    }
    printf("fuzz: %lu programs\n", programs);
    return 0;
}
#endif
