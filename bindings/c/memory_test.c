/* Each request for memory is refused in turn: the statuses say so, what is refused changes nothing, and nothing leaks (under
 * valgrind). `memory_test short` takes fewer updates. */
#include "kaftanclay.h"
#include <stdio.h>
#include <stdlib.h>
#include <string.h>

void *__real_malloc(size_t);
void *__real_realloc(void *, size_t);
static long left;
static int armed, refused, refused_now;

static int refuses(void) { return armed && left >= 0 && left-- == 0 && (refused = refused_now = 1); }
void *__wrap_malloc(size_t n) { return refuses() ? NULL : __real_malloc(n); }
void *__wrap_realloc(void *p, size_t n) { return refuses() ? NULL : __real_realloc(p, n); }

static int faults;
static long checks, request;
#define WANT(c) do { checks++; if (!(c)) { printf("memory_test.c:%d, request %ld: %s\n", __LINE__, request, #c); faults++; } } while (0)
#define IS(status) ((status) == KC_OK || (status) == KC_OUT_OF_MEMORY)
#define MAKES(status, handle) (IS(status) && ((status) == KC_OK) == ((handle).object != NULL))
#define SEED KC_DEFAULT_SEED
#define LG_K 10
#define MOST 20000
#define BYTES (1 << 16)

static uint64_t updates;
static unsigned char image[BYTES], sums_image[BYTES], out[BYTES], first[BYTES], second[BYTES];
static uint64_t image_length, sums_length;
/* The hashes of the numbers from 0 on, and those of their digits, which lie one after another in `text`. */
static uint64_t of_numbers[MOST], of_strings[MOST], ends[MOST];
static char text[MOST * 5];

/* The calls that request memory, and how many were refused it. */
static struct { const char *name; long refusals; } called[96];

/* The status of a call: that of memory exactly if a request was refused. */
static kc_status counted(const char *name, kc_status status) {
    int n = 0;
    while (called[n].name != NULL && strcmp(called[n].name, name) != 0) n++;
    called[n].name = name;
    called[n].refusals += refused_now;
    WANT((status == KC_OUT_OF_MEMORY) == refused_now);
    refused_now = 0;
    return status;
}
#define CALL(name, ...) counted(#name, kc_##name(__VA_ARGS__))

static int same(const kc_state *a, const kc_state *b) { return memcmp(a, b, sizeof *a) == 0; }
static int is_image(uint64_t length, const unsigned char *wanted, uint64_t wanted_length) {
    return length == wanted_length && memcmp(first, wanted, length) == 0;
}

/* What follows reads without a refusal. */
#define UNREFUSED(...) do { int was = armed; armed = 0; __VA_ARGS__; armed = was; } while (0)

/* Whether a sketch is that of some first hashes of a list, at least `least` and at most `most` of them. */
static int has_first(kc_theta *sketch, const uint64_t *hashes, uint64_t least, uint64_t most) {
    kc_theta other = {0};
    kc_state wanted, at;
    uint64_t length = 0, other_length = 0;
    int found = 0;
    UNREFUSED(
        WANT(kc_theta_state(sketch, &wanted) == KC_OK && kc_theta_image(sketch, first, BYTES, &length) == KC_OK && kc_theta_new(&other, LG_K, SEED) == KC_OK);
        for (uint64_t n = 0; n <= most && !found; n++) {
            if (n > 0) WANT(kc_theta_update_hash(&other, hashes[n - 1]) == KC_OK);
            found = n >= least && kc_theta_state(&other, &at) == KC_OK && same(&at, &wanted)
                && kc_theta_image(&other, second, BYTES, &other_length) == KC_OK && is_image(length, second, other_length);
        }
        kc_theta_free(&other));
    return found;
}

static kc_status update(kc_theta *s, int kind, uint64_t n) {
    if (kind == 0) return CALL(theta_update_u64, s, n);
    if (kind == 1) return CALL(theta_update_hash, s, of_numbers[n]);
    if (kind == 2) return CALL(theta_update_bytes, s, &n, sizeof n);
    kc_state after = {7, 7, 7};
    kc_status status = CALL(theta_insert_hash, s, of_numbers[n], &after);
    WANT(status == KC_OK ? after.empty == 0 : after.retained == 7 && after.theta == 7 && after.empty == 7);
    return status;
}

/* One update of a kind after another, and a trim. */
static void updates_of_kind(int kind) {
    kc_theta s = {0};
    kc_state before, after;
    uint64_t length = 0, other_length = 0;
    kc_status status = CALL(theta_new_with, &s, LG_K, SEED, 2, KC_MAX_THETA);
    WANT(MAKES(status, s));
    if (s.object == NULL) return;
    for (uint64_t n = 0; n < updates; n++) {
        WANT(kc_theta_state(&s, &before) == KC_OK);
        for (int repeats = 0; repeats < 2; repeats++) {
            status = update(&s, kind, n);
            WANT(IS(status) && kc_theta_state(&s, &after) == KC_OK && (status == KC_OK || same(&before, &after)));
            if (status == KC_OK) break;
            WANT(repeats == 0 && has_first(&s, of_numbers, n, n));
        }
    }
    UNREFUSED(WANT(has_first(&s, of_numbers, updates, updates) && kc_theta_state(&s, &before) == KC_OK && kc_theta_image(&s, second, BYTES, &other_length) == KC_OK));
    status = CALL(theta_trim, &s);
    WANT(IS(status) && kc_theta_state(&s, &after) == KC_OK && before.retained > 1 << LG_K);
    UNREFUSED(WANT(kc_theta_image(&s, first, BYTES, &length) == KC_OK));
    WANT(status == KC_OK ? after.retained == 1 << LG_K && after.theta < before.theta : same(&before, &after) && is_image(length, second, other_length));
    WANT(kc_theta_trim(&s) == KC_OK && kc_theta_state(&s, &after) == KC_OK && after.retained == 1 << LG_K && kc_theta_free(&s) == KC_OK);
}

static void updates_one_by_one(void) {
    for (int kind = 0; kind < 4; kind++) updates_of_kind(kind);
}

/* Many updates at a time. */
static void many_updates(void) {
    kc_theta s = {0};
    kc_status status = CALL(theta_new, &s, LG_K, SEED);
    WANT(MAKES(status, s));
    if (s.object != NULL) {
        status = CALL(theta_update_hashes, &s, of_numbers, updates);
        WANT(IS(status) && (status == KC_OK || (has_first(&s, of_numbers, 0, updates - 1) && kc_theta_update_hashes(&s, of_numbers, updates) == KC_OK)));
        WANT(has_first(&s, of_numbers, updates, updates) && kc_theta_free(&s) == KC_OK);
    }
    status = CALL(theta_new, &s, LG_K, SEED);
    WANT(MAKES(status, s));
    if (s.object != NULL) {
        uint64_t count = ends[updates - 1];
        status = CALL(theta_update_strings, &s, text, count, ends, updates);
        WANT(IS(status) && (status == KC_OK || (has_first(&s, of_strings, 0, updates - 1) && kc_theta_update_strings(&s, text, count, ends, updates) == KC_OK)));
        WANT(has_first(&s, of_strings, updates, updates) && kc_theta_free(&s) == KC_OK);
    }
}

/* The lines of a text in two pieces, cut within a line. */
static void lines(void) {
    kc_theta s = {0};
    kc_text t = {0};
    static char lines[MOST * 6];
    size_t count = 0, piece = 0;
    for (uint64_t n = 0; n < updates; n++) count += (size_t)sprintf(lines + count, n + 1 < updates ? "%d\n" : "%d", (int)n);
    piece = count / 2;
    UNREFUSED(WANT(kc_theta_new(&s, LG_K, SEED) == KC_OK));
    kc_status status = CALL(text_new, &t, SEED);
    WANT(MAKES(status, t));
    if (t.object != NULL) {
        for (int part = 0; part < 2; part++) {
            status = CALL(theta_update_text, &s, &t, lines + part * piece, part == 0 ? piece : count - piece);
            WANT(IS(status) && (status == KC_OK || has_first(&s, of_strings, 0, updates - 1)));
            if (status != KC_OK) WANT(kc_theta_update_text(&s, &t, lines + part * piece, part == 0 ? piece : count - piece) == KC_OK);
        }
        WANT(has_first(&s, of_strings, updates - 1, updates - 1));
        status = CALL(theta_end_text, &s, &t);
        WANT(IS(status) && (status == KC_OK || (has_first(&s, of_strings, updates - 1, updates - 1) && kc_theta_end_text(&s, &t) == KC_OK)));
        WANT(has_first(&s, of_strings, updates, updates) && kc_text_free(&t) == KC_OK);
        /* a last line that needs memory: the 17th hash of 2^5 nominal entries whose slots double requests more of them */
        kc_theta few = {0};
        UNREFUSED(WANT(kc_theta_new_with(&few, 5, SEED, 2, KC_MAX_THETA) == KC_OK && kc_theta_update_hashes(&few, of_strings, 16) == KC_OK && kc_text_new(&t, SEED) == KC_OK));
        status = CALL(theta_update_text, &few, &t, "16", 2);
        WANT(status == KC_OK);
        status = CALL(theta_end_text, &few, &t);
        kc_state state;
        WANT(IS(status) && kc_theta_state(&few, &state) == KC_OK && state.retained == (status == KC_OK ? 17 : 16));
        if (status != KC_OK) WANT(kc_theta_end_text(&few, &t) == KC_OK && kc_theta_state(&few, &state) == KC_OK && state.retained == 17);
        kc_theta_free(&few), kc_text_free(&t);
    }
    kc_theta_free(&s);
}

/* The image of the value that an intersection has; none has a length of 0. */
static uint64_t value_of(kc_intersection *i, unsigned char *to) {
    kc_compact value = {0};
    uint64_t length = 0;
    UNREFUSED(
        kc_status status = kc_intersection_result(i, &value);
        WANT(status == KC_INVALID_ARGUMENT || (status == KC_OK && kc_compact_image(&value, to, BYTES, &length) == KC_OK));
        kc_compact_free(&value));
    return length;
}

static uint64_t value_of_sums(kc_sums_intersection *i, unsigned char *to) {
    kc_compact_sums value = {0};
    uint64_t length = 0;
    UNREFUSED(
        kc_status status = kc_sums_intersection_result(i, &value);
        WANT(status == KC_INVALID_ARGUMENT || (status == KC_OK && kc_compact_sums_image(&value, to, BYTES, &length) == KC_OK));
        kc_compact_sums_free(&value));
    return length;
}

/* What is made of a sketch, and what is read of an image. */
static void copies_and_images(void) {
    kc_theta s = {0}, copy = {0};
    kc_compact c = {0}, d = {0}, r = {0};
    kc_state before, after;
    kc_finding found = {7, 7, 7};
    static uint64_t hashes[MOST];
    uint64_t length = 7;
    UNREFUSED(
        WANT(kc_theta_new(&s, LG_K, SEED) == KC_OK && kc_theta_update_hashes(&s, of_numbers, updates) == KC_OK && kc_theta_state(&s, &before) == KC_OK));
    out[0] = 7;
    kc_status status = CALL(theta_image, &s, out, BYTES, &length);
    WANT(IS(status) && (status == KC_OK || (length == 7 && out[0] == 7)));
    status = CALL(theta_clone, &s, &copy);
    WANT(MAKES(status, copy) && kc_theta_state(&s, &after) == KC_OK && same(&before, &after));
    if (status == KC_OK) WANT(kc_theta_state(&copy, &after) == KC_OK && same(&before, &after) && kc_theta_free(&copy) == KC_OK);
    status = CALL(theta_compact, &s, &c);
    WANT(MAKES(status, c) && kc_theta_state(&s, &after) == KC_OK && same(&before, &after));
    status = CALL(theta_compact_with, &s, 0, &r);
    WANT(MAKES(status, r) && kc_compact_free(&r) == KC_OK && kc_theta_state(&s, &after) == KC_OK && same(&before, &after));
    status = CALL(compact_read, &d, image, image_length, SEED);
    WANT(MAKES(status, d));
    if (d.object != NULL) {
        length = 7, out[0] = 7;
        status = CALL(compact_image, &d, out, BYTES, &length);
        WANT(IS(status) && (status == KC_OK ? length == image_length && memcmp(out, image, length) == 0 : length == 7 && out[0] == 7));
        status = CALL(compact_clone, &d, &r);
        WANT(MAKES(status, r) && kc_compact_free(&r) == KC_OK);
        uint64_t count = 0;
        WANT(kc_compact_state(&d, &after) == KC_OK && kc_compact_hashes(&d, hashes, MOST, &count) == KC_OK);
        status = CALL(compact_of_hashes, &r, &after, 1, hashes, (size_t)count, SEED);
        WANT(MAKES(status, r) && kc_compact_free(&r) == KC_OK);
    }
    status = CALL(compact_read_whole, &r, image, image_length, SEED, &found);
    WANT(MAKES(status, r) && kc_compact_free(&r) == KC_OK && found.flaw == 7);
    after = before;
    status = CALL(image_state, image, image_length, SEED, &after);
    WANT(IS(status) && same(&before, &after) == (status != KC_OK));
    length = 7, out[0] = 7;
    status = CALL(images_intersect, image, image_length, image, image_length, SEED, out, BYTES, &length);
    WANT(IS(status) && (status == KC_OK || (length == 7 && out[0] == 7)));
    length = 7, out[0] = 7;
    status = CALL(images_difference, image, image_length, image, image_length, SEED, out, BYTES, &length);
    WANT(IS(status) && (status == KC_OK || (length == 7 && out[0] == 7)));
    kc_theta_free(&s), kc_compact_free(&c), kc_compact_free(&d);
}

static kc_status unite(kc_union *u, int kind, kc_theta *s, kc_compact *c) {
    if (kind == 0) return CALL(union_add, u, s);
    if (kind == 1) return CALL(union_add_compact, u, c);
    return CALL(union_add_image, u, image, image_length);
}

static kc_status meet(kc_intersection *i, int kind, kc_theta *s, kc_compact *c) {
    if (kind == 0) return CALL(intersection_add, i, s);
    if (kind == 1) return CALL(intersection_add_compact, i, c);
    return CALL(intersection_add_image, i, image, image_length);
}

static void operators(void) {
    kc_theta s = {0};
    kc_compact c = {0}, r = {0};
    kc_union u = {0};
    kc_intersection i = {0};
    kc_state state;
    uint64_t length = 7;
    UNREFUSED(
        WANT(kc_theta_new(&s, LG_K, SEED) == KC_OK && kc_theta_update_hashes(&s, of_numbers + 100, updates - 100) == KC_OK && kc_theta_compact(&s, &c) == KC_OK));
    kc_status status = KC_OK;
    for (int kind = 0; kind < 3; kind++) {
        status = CALL(union_new, &u, LG_K, SEED);
        WANT(MAKES(status, u));
        if (u.object == NULL) continue;
        status = unite(&u, kind, &s, &c);
        WANT(IS(status));
        /* if memory was refused for reading an image, nothing has changed; else the union has failed until it is reset */
        if (status != KC_OK && !(kind == 2 && kc_union_result(&u, &r) == KC_OK)) {
            length = 7, out[0] = 7;
            for (int other = 0; other < 3; other++) WANT(unite(&u, other, &s, &c) == KC_FAILED);
            WANT(kc_union_result(&u, &r) == KC_FAILED && kc_union_image(&u, out, BYTES, &length) == KC_FAILED && r.object == NULL && length == 7 && out[0] == 7);
            WANT(kc_union_reset(&u) == KC_OK && kc_union_result(&u, &r) == KC_OK);
        }
        if (r.object != NULL) WANT(kc_compact_state(&r, &state) == KC_OK && state.empty == 1 && kc_compact_free(&r) == KC_OK);
        length = 7, out[0] = 7;
        status = CALL(union_image, &u, out, BYTES, &length);
        WANT(IS(status) && (status == KC_OK || (length == 7 && out[0] == 7)));
        status = CALL(union_result, &u, &r);
        WANT(MAKES(status, r) && kc_compact_free(&r) == KC_OK);
        status = CALL(union_result_with, &u, 0, &r);
        WANT(MAKES(status, r) && kc_compact_free(&r) == KC_OK && kc_union_free(&u) == KC_OK);
    }
    status = CALL(union_new_with, &u, LG_K, SEED, 2, KC_MAX_THETA);
    WANT(MAKES(status, u) && kc_union_free(&u) == KC_OK);
    status = CALL(intersection_new, &i, SEED);
    WANT(MAKES(status, i));
    int n = 0;
    for (int tries = 0; i.object != NULL && tries < 4 && n < 3; tries++) {
        uint64_t before = value_of(&i, second);
        status = meet(&i, n, &s, &c);
        WANT(IS(status) && (status == KC_OK || is_image(value_of(&i, first), second, before)));
        n += status == KC_OK;
        status = CALL(intersection_result, &i, &r);
        WANT((n == 0 ? status == KC_INVALID_ARGUMENT && r.object == NULL : MAKES(status, r)) && kc_compact_free(&r) == KC_OK);
        status = CALL(intersection_result_with, &i, 0, &r);
        WANT((n == 0 ? status == KC_INVALID_ARGUMENT && r.object == NULL : MAKES(status, r)) && kc_compact_free(&r) == KC_OK);
    }
    WANT(i.object == NULL || n == 3);
    UNREFUSED(WANT(kc_compact_read(&r, image, image_length, SEED) == KC_OK));
    kc_compact d = {0};
    status = CALL(difference, &r, &c, SEED, &d);
    WANT(MAKES(status, d) && kc_compact_free(&d) == KC_OK);
    status = CALL(difference_with, &c, &r, SEED, 0, &d);
    WANT(MAKES(status, d) && kc_compact_free(&d) == KC_OK);
    status = CALL(theta_difference, &s, &s, SEED, &d);
    WANT(MAKES(status, d));
    kc_theta_free(&s), kc_compact_free(&c), kc_compact_free(&r), kc_compact_free(&d), kc_intersection_free(&i);
}

/* Sketches that are merged together. */
static void batches(void) {
    kc_theta s = {0};
    kc_compact c = {0}, r = {0};
    kc_batch b = {0};
    kc_union u = {0};
    uint64_t length = 0, wanted = 0;
    UNREFUSED(
        WANT(kc_theta_new(&s, LG_K, SEED) == KC_OK && kc_theta_update_hashes(&s, of_numbers + 100, updates - 100) == KC_OK && kc_theta_compact(&s, &c) == KC_OK);
        WANT(kc_union_new(&u, LG_K, SEED) == KC_OK && kc_union_add(&u, &s) == KC_OK && kc_union_add_image(&u, image, image_length) == KC_OK);
        WANT(kc_union_image(&u, second, BYTES, &wanted) == KC_OK && kc_union_reset(&u) == KC_OK));
    kc_status status = CALL(batch_new, &b, SEED);
    WANT(MAKES(status, b));
    if (b.object != NULL) {
        /* a refused sketch isn't in the batch, and the same call may be repeated */
        status = CALL(batch_add, &b, &s);
        WANT(IS(status) && (status == KC_OK || kc_batch_add(&b, &s) == KC_OK));
        status = CALL(batch_add_compact, &b, &c);
        WANT(IS(status) && (status == KC_OK || kc_batch_add_compact(&b, &c) == KC_OK));
        status = CALL(batch_add_image, &b, image, image_length);
        WANT(IS(status) && (status == KC_OK || kc_batch_add_image(&b, image, image_length) == KC_OK));
        status = CALL(union_add_batch, &u, &b);
        WANT(IS(status));
        if (status != KC_OK) {
            /* memory ran out before the merge, and the union is empty as before; or in it, and the union has failed */
            kc_status found = KC_OK;
            kc_state state;
            UNREFUSED(found = kc_union_result(&u, &r));
            WANT(found == KC_FAILED || (found == KC_OK && kc_compact_state(&r, &state) == KC_OK && state.empty == 1 && kc_compact_free(&r) == KC_OK));
            if (found == KC_FAILED) WANT(kc_union_add_batch(&u, &b) == KC_FAILED && kc_union_reset(&u) == KC_OK);
            WANT(kc_union_add_batch(&u, &b) == KC_OK);
        }
        UNREFUSED(WANT(kc_union_image(&u, first, BYTES, &length) == KC_OK && is_image(length, second, wanted)));
        kc_batch_free(&b);
    }
    kc_theta_free(&s), kc_compact_free(&c), kc_union_free(&u);
}

static kc_status add(kc_sums *m, int kind, uint64_t n) {
    if (kind == 0) return CALL(sums_add_u64, m, n, 1);
    if (kind == 1) return CALL(sums_add_hash, m, of_numbers[n], 1);
    return CALL(sums_add_bytes, m, &n, sizeof n, 1);
}

/* Updates of a sketch of sums by one kind of call, a trim, and what is made of the sketch. */
static void sums_of_kind(int kind) {
    kc_sums m = {0}, copy = {0};
    kc_compact_sums c = {0}, d = {0};
    kc_state before, after;
    kc_wide total = {7, 7}, total_after;
    uint64_t length = 7;
    kc_status status = CALL(sums_new, &copy, LG_K, SEED);
    WANT(MAKES(status, copy) && kc_sums_free(&copy) == KC_OK);
    status = CALL(sums_new_with, &m, LG_K, SEED, 2, KC_MAX_THETA);
    WANT(MAKES(status, m));
    if (m.object != NULL) {
        for (uint64_t n = 0; n < updates; n++) {
            WANT(kc_sums_state(&m, &before) == KC_OK);
            for (int repeats = 0; repeats < 2; repeats++) {
                status = add(&m, kind, n);
                WANT(IS(status) && kc_sums_state(&m, &after) == KC_OK && (status == KC_OK || (repeats == 0 && same(&before, &after))));
                if (status == KC_OK) break;
                WANT(kc_sums_total(&m, &total) == KC_OK && total.low == before.retained && total.high == 0);
            }
        }
        WANT(kc_sums_state(&m, &before) == KC_OK && kc_sums_total(&m, &total) == KC_OK && total.low == before.retained && total.high == 0);
        out[0] = 7;
        status = CALL(sums_image, &m, out, BYTES, &length);
        WANT(IS(status) && (status == KC_OK || (length == 7 && out[0] == 7)));
        status = CALL(sums_compact, &m, &c);
        WANT(MAKES(status, c) && kc_sums_state(&m, &after) == KC_OK && same(&before, &after));
        status = CALL(sums_compact_with, &m, 0, &d);
        WANT(MAKES(status, d) && kc_compact_sums_free(&d) == KC_OK && kc_sums_state(&m, &after) == KC_OK && same(&before, &after));
        status = CALL(sums_clone, &m, &copy);
        WANT(MAKES(status, copy) && kc_sums_state(&m, &after) == KC_OK && same(&before, &after));
        if (status == KC_OK) WANT(kc_sums_state(&copy, &after) == KC_OK && same(&before, &after) && kc_sums_free(&copy) == KC_OK);
        status = CALL(sums_trim, &m);
        WANT(IS(status) && kc_sums_state(&m, &after) == KC_OK && kc_sums_total(&m, &total_after) == KC_OK && total_after.low == after.retained);
        WANT(before.retained > 1 << LG_K && (status == KC_OK ? after.retained == 1 << LG_K && after.theta < before.theta : same(&before, &after)));
        WANT(kc_sums_trim(&m) == KC_OK && kc_sums_state(&m, &after) == KC_OK && after.retained == 1 << LG_K);
    }
    kc_finding found = {7, 7, 7};
    status = CALL(compact_sums_read_whole, &d, sums_image, sums_length, SEED, &found);
    WANT(MAKES(status, d) && kc_compact_sums_free(&d) == KC_OK && found.flaw == 7);
    status = CALL(compact_sums_read, &d, sums_image, sums_length, SEED);
    WANT(MAKES(status, d));
    if (d.object != NULL) {
        length = 7, out[0] = 7;
        status = CALL(compact_sums_image, &d, out, BYTES, &length);
        WANT(IS(status) && (status == KC_OK ? length == sums_length && memcmp(out, sums_image, length) == 0 : length == 7 && out[0] == 7));
    }
    kc_sums_free(&m), kc_compact_sums_free(&c), kc_compact_sums_free(&d);
}

/* Whether a sketch of sums has the first of these hashes, with 1 each. */
static int has_first_sums(const kc_sums *sketch, const uint64_t *hashes, uint64_t count) {
    kc_sums other = {0};
    kc_state wanted, at;
    uint64_t length = 0, other_length = 0;
    int found = 0;
    UNREFUSED(
        WANT(kc_sums_new(&other, LG_K, SEED) == KC_OK);
        for (uint64_t n = 0; n < count; n++) WANT(kc_sums_add_hash(&other, hashes[n], 1) == KC_OK);
        WANT(kc_sums_state(sketch, &wanted) == KC_OK && kc_sums_state(&other, &at) == KC_OK && kc_sums_image(sketch, first, BYTES, &length) == KC_OK);
        found = same(&at, &wanted) && kc_sums_image(&other, second, BYTES, &other_length) == KC_OK && is_image(length, second, other_length);
        kc_sums_free(&other));
    return found;
}

/* Many values at a call: exactly those before a refused one were added. */
static void many_values(void) {
    static uint64_t ones[MOST];
    kc_sums m = {0};
    uint64_t added = 7, more = 7;
    for (size_t n = 0; n < MOST; n++) ones[n] = 1;
    kc_status status = CALL(sums_new, &m, LG_K, SEED);
    WANT(MAKES(status, m));
    if (m.object != NULL) {
        status = CALL(sums_add_hashes, &m, of_numbers, updates, ones, updates, &added);
        WANT(IS(status) && (status == KC_OK ? added == updates : added < updates) && has_first_sums(&m, of_numbers, added));
        WANT(kc_sums_add_hashes(&m, of_numbers + added, updates - added, ones, updates - added, &more) == KC_OK && more == updates - added);
        WANT(has_first_sums(&m, of_numbers, updates) && kc_sums_reset(&m) == KC_OK);
        status = CALL(sums_add_strings, &m, text, ends[updates - 1], ends, updates, ones, updates, &added);
        WANT(IS(status) && (status == KC_OK ? added == updates : added < updates) && has_first_sums(&m, of_strings, added));
        WANT(kc_sums_free(&m) == KC_OK);
    }
}

static void sums(void) {
    for (int kind = 0; kind < 3; kind++) sums_of_kind(kind);
}

static kc_status unite_sums(kc_sums_union *u, int kind, kc_sums *m, kc_compact_sums *c) {
    if (kind == 0) return CALL(sums_union_add, u, m);
    if (kind == 1) return CALL(sums_union_add_compact, u, c);
    return CALL(sums_union_add_image, u, sums_image, sums_length);
}

static kc_status meet_sums(kc_sums_intersection *i, int kind, kc_sums *m, kc_compact_sums *c) {
    if (kind == 0) return CALL(sums_intersection_add, i, m);
    if (kind == 1) return CALL(sums_intersection_add_compact, i, c);
    return CALL(sums_intersection_add_image, i, sums_image, sums_length);
}

static void operators_on_sums(void) {
    kc_sums m = {0};
    kc_compact_sums c = {0}, d = {0}, r = {0};
    kc_sums_union u = {0};
    kc_sums_intersection i = {0};
    kc_state state;
    uint64_t length = 7;
    UNREFUSED(
        WANT(kc_sums_new(&m, LG_K, SEED) == KC_OK);
        for (uint64_t n = 100; n < updates; n++) WANT(kc_sums_add_hash(&m, of_numbers[n], n) == KC_OK);
        WANT(kc_sums_compact(&m, &c) == KC_OK));
    kc_status status = KC_OK;
    for (int kind = 0; kind < 3; kind++) {
        status = CALL(sums_union_new, &u, LG_K, SEED);
        WANT(MAKES(status, u));
        if (u.object == NULL) continue;
        status = unite_sums(&u, kind, &m, &c);
        WANT(IS(status));
        if (status != KC_OK && !(kind == 2 && kc_sums_union_result(&u, &r) == KC_OK)) {
            length = 7, out[0] = 7;
            for (int other = 0; other < 3; other++) WANT(unite_sums(&u, other, &m, &c) == KC_FAILED);
            WANT(kc_sums_union_result(&u, &r) == KC_FAILED && kc_sums_union_image(&u, out, BYTES, &length) == KC_FAILED && r.object == NULL && length == 7 && out[0] == 7);
            WANT(kc_sums_union_reset(&u) == KC_OK && kc_sums_union_result(&u, &r) == KC_OK);
        }
        if (r.object != NULL) WANT(kc_compact_sums_state(&r, &state) == KC_OK && state.empty == 1 && kc_compact_sums_free(&r) == KC_OK);
        length = 7, out[0] = 7;
        status = CALL(sums_union_image, &u, out, BYTES, &length);
        WANT(IS(status) && (status == KC_OK || (length == 7 && out[0] == 7)));
        status = CALL(sums_union_result, &u, &r);
        WANT(MAKES(status, r) && kc_compact_sums_free(&r) == KC_OK);
        status = CALL(sums_union_result_with, &u, 0, &r);
        WANT(MAKES(status, r) && kc_compact_sums_free(&r) == KC_OK && kc_sums_union_free(&u) == KC_OK);
    }
    status = CALL(sums_intersection_new, &i, SEED);
    WANT(MAKES(status, i));
    int n = 0;
    for (int tries = 0; i.object != NULL && tries < 4 && n < 3; tries++) {
        uint64_t before = value_of_sums(&i, second);
        status = meet_sums(&i, n, &m, &c);
        WANT(IS(status) && (status == KC_OK || is_image(value_of_sums(&i, first), second, before)));
        n += status == KC_OK;
        status = CALL(sums_intersection_result, &i, &r);
        WANT((n == 0 ? status == KC_INVALID_ARGUMENT && r.object == NULL : MAKES(status, r)) && kc_compact_sums_free(&r) == KC_OK);
        status = CALL(sums_intersection_result_with, &i, 0, &r);
        WANT((n == 0 ? status == KC_INVALID_ARGUMENT && r.object == NULL : MAKES(status, r)) && kc_compact_sums_free(&r) == KC_OK);
    }
    WANT(i.object == NULL || n == 3);
    UNREFUSED(WANT(kc_compact_sums_read(&r, sums_image, sums_length, SEED) == KC_OK));
    status = CALL(sums_difference, &r, &c, SEED, &d);
    WANT(MAKES(status, d) && kc_compact_sums_free(&d) == KC_OK);
    status = CALL(sums_difference_with, &c, &r, SEED, 0, &d);
    WANT(MAKES(status, d) && kc_compact_sums_free(&d) == KC_OK);
    status = CALL(sums_updatable_difference, &m, &m, SEED, &d);
    WANT(MAKES(status, d));
    kc_sums_free(&m), kc_compact_sums_free(&c), kc_compact_sums_free(&d), kc_compact_sums_free(&r), kc_sums_intersection_free(&i);
}

static void prepare(void) {
    kc_theta s = {0};
    kc_sums m = {0};
    uint64_t end = 0;
    for (uint64_t n = 0; n < updates; n++) {
        int digits = sprintf(text + end, "%d", (int)n);
        WANT(kc_hash_bytes(SEED, text + end, (size_t)digits, &of_strings[n]) == KC_OK && kc_hash_u64(SEED, n, &of_numbers[n]) == KC_OK);
        end += (uint64_t)digits;
        ends[n] = end;
    }
    WANT(kc_theta_new(&s, LG_K, SEED) == KC_OK && kc_sums_new(&m, LG_K, SEED) == KC_OK);
    for (uint64_t n = 0; n < 5000; n++) WANT(kc_theta_update_u64(&s, n) == KC_OK);
    for (uint64_t n = 0; n < 3000; n++) WANT(kc_sums_add_u64(&m, n, n) == KC_OK);
    WANT(kc_theta_image(&s, image, BYTES, &image_length) == KC_OK && kc_theta_free(&s) == KC_OK);
    WANT(kc_sums_image(&m, sums_image, BYTES, &sums_length) == KC_OK && kc_sums_free(&m) == KC_OK);
}

int main(int count, char **words) {
    void (*const parts[])(void) = {updates_one_by_one, many_updates, lines, copies_and_images, operators, batches, sums, many_values, operators_on_sums};
    long requests = 0;
    updates = count > 1 && strcmp(words[1], "short") == 0 ? 1500 : MOST;
    prepare();
    for (size_t n = 0; n < sizeof parts / sizeof *parts; n++) {
        for (request = 0;; request++) {
            left = request, refused = refused_now = 0, armed = 1;
            parts[n]();
            armed = 0;
            if (!refused) break;
        }
        requests += request;
    }
    for (int n = 0; called[n].name != NULL; n++) {
        if (called[n].refusals == 0) printf("memory_test.c: no request of kc_%s was refused\n", called[n].name), faults++;
    }
    printf("memory_test: %ld requests refused in turn, %ld checks, %d faults\n", requests, checks, faults);
    return faults != 0;
}
