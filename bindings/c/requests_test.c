/* The requests for memory of calls, their number and their bytes: what docs/develop/DECISIONS.md says of them, no request of a call that
 * needs no memory, and none for more entries than the bytes of an image can hold. An object takes one request of its own, so
 * calls that make one are counted without it. */
#include "kaftanclay.h"
#include <stdio.h>
#include <stdlib.h>
#include <string.h>

void *__real_malloc(size_t);
void *__real_realloc(void *, size_t);
static uint64_t requests, bytes;

static void *seen(uint64_t n, void *p) { return requests++, bytes += n, p; }
void *__wrap_malloc(size_t n) { return seen(n, __real_malloc(n)); }
void *__wrap_realloc(void *p, size_t n) { return seen(n, __real_realloc(p, n)); }

static int faults, checks;
#define WANT(c) do { checks++; if (!(c)) { printf("requests_test.c:%d: %s\n", __LINE__, #c); faults++; } } while (0)
/* A call, its status, the number of its requests and their bytes. */
#define ASKS(status, count, size, call) do { \
        requests = bytes = 0; \
        kc_status found = (call); \
        uint64_t asked = requests, of = bytes; \
        checks++; \
        if (found != (status) || asked != (uint64_t)(count) || of != (uint64_t)(size)) { \
            printf("requests_test.c:%d: %s: status %u, %lu requests of %lu bytes\n", __LINE__, #call, found, (unsigned long)asked, (unsigned long)of); \
            faults++; \
        } } while (0)
#define NOTHING(status, call) ASKS(status, 0, 0, call)
#define SEED KC_DEFAULT_SEED
#define SLOT 8      /* of a hash */
#define SUM_SLOT 24 /* a hash, a sum, and a word that marks a used slot */
#define ROOM (1 << 16)

static unsigned char out[ROOM];

/* The bytes that hexadecimal digits spell; blanks are passed over. */
static size_t spelled(const char *text, unsigned char *to) {
    size_t count = 0;
    for (unsigned digit; *text != 0; text += text[0] == ' ' ? 1 : 2)
        if (*text != ' ' && sscanf(text, "%2x", &digit) == 1) to[count++] = (unsigned char)digit;
    return count;
}

/* A sketch of 2^5 nominal entries, whose slots double. At the 17th hash it requests 64 slots. At the 61st hash and at the 90th
 * it selects among these and gathers 32 hashes; so does a trim. */
static void theta(void) {
    kc_theta s = {0};
    kc_state state;
    uint64_t length, all = 0, count = 0;
    WANT(kc_theta_new_with(&s, 5, SEED, 2, KC_MAX_THETA) == KC_OK);
    for (uint64_t hash = 100; hash > 0; hash--) {
        requests = bytes = 0;
        WANT(kc_theta_update_hash(&s, hash) == KC_OK);
        count += requests, all += bytes;
    }
    WANT(count == 1 + 2 + 2 && all == 64 * SLOT + 2 * (65 + 33) * SLOT);
    NOTHING(KC_OK, kc_theta_update_hash(&s, 0));
    NOTHING(KC_OK, kc_theta_update_hash(&s, 1));
    NOTHING(KC_OK, kc_theta_update_hash(&s, KC_MAX_THETA));
    NOTHING(KC_OK, kc_theta_update_hash(&s, UINT64_MAX));
    NOTHING(KC_OK, kc_theta_insert_hash(&s, 1, &state));
    NOTHING(KC_OK, kc_theta_insert_hash(&s, KC_MAX_THETA, &state));
    NOTHING(KC_OK, kc_theta_state(&s, &state));
    WANT(state.retained == 42);
    NOTHING(KC_OK, kc_theta_estimated_size(&s, &length));
    WANT(length == 64 * SLOT);
    ASKS(KC_OK, 2, 42 * SLOT + 360, kc_theta_image(&s, out, ROOM, &length));
    WANT(length == 360);
    ASKS(KC_OK, 1, 42 * SLOT, kc_image_state(out, length, SEED, &state));
    ASKS(KC_OK, 2, (65 + 33) * SLOT, kc_theta_trim(&s));
    NOTHING(KC_OK, kc_theta_trim(&s));
    NOTHING(KC_OK, kc_theta_reset(&s));
    NOTHING(KC_OK, kc_theta_trim(&s));
    WANT(kc_theta_update_bytes(&s, "apple", 5) == KC_OK);
    NOTHING(KC_OK, kc_theta_update_bytes(&s, "apple", 5));
    NOTHING(KC_OK, kc_theta_free(&s));
    /* refused settings */
    NOTHING(KC_INVALID_ARGUMENT, kc_theta_new_with(&s, 3, SEED, 8, 1));
    NOTHING(KC_INVALID_ARGUMENT, kc_theta_new_with(&s, 27, SEED, 8, 1));
    NOTHING(KC_INVALID_ARGUMENT, kc_theta_new_with(&s, 5, SEED, 8, 0));
    NOTHING(KC_INVALID_ARGUMENT, kc_theta_new_with(&s, 5, SEED, 8, KC_MAX_THETA + 1));
    NOTHING(KC_INVALID_ARGUMENT, kc_theta_new_with(&s, 5, 50541, 8, 1));
}

/* An image, and its reading: one request for the entries, and one more for their hashes if these don't ascend. */
static void readings(void) {
    static const struct { const char *text; uint64_t requests, bytes; kc_status status; } rows[] = {
        {"01030300001e0000", 0, 0, KC_OK},
        {"01030300001acc93 0500000000000000", 1, SLOT, KC_OK},
        {"0202030000003412 0000000000000000", 0, 0, KC_OK},
        {"02030300000acc93 0200000000000000 0900000000000000 0700000000000000", 2, 4 * SLOT, KC_OK},
        {"02030300001acc93 0200000000000000 0900000000000000 0700000000000000", 1, 2 * SLOT, KC_INVALID_DATA},
        /* a count beyond the bytes, in each layout; one byte too few; another seed; no whole preamble */
        {"", 0, 0, KC_INVALID_DATA},
        {"01030300001acc93", 0, 0, KC_INVALID_DATA},
        {"01030300001acd93 0500000000000000", 0, 0, KC_INVALID_DATA},
        {"02030300001acc93 0300000000000000 0700000000000000 0900000000000000", 0, 0, KC_INVALID_DATA},
        {"03030300000acc93 ffffffff00000000 6400000000000000 0700000000000000", 0, 0, KC_INVALID_DATA},
        {"020203000000cc93 1000000000000000 0700000000000000 0900000000000000", 0, 0, KC_INVALID_DATA},
        {"030203000000cc93 0200000000000000 6400000000000000 0700000000000000", 0, 0, KC_INVALID_DATA},
        {"0301030000000000 ffffffff00000000 6400000000000000 0700000000000000", 0, 0, KC_INVALID_DATA},
        {"02030300001acc93 0200000000000000 0700000000000000 09000000000000", 0, 0, KC_INVALID_DATA},
    };
    for (size_t n = 0; n < sizeof rows / sizeof *rows; n++) {
        unsigned char image[64];
        kc_state state;
        size_t count = spelled(rows[n].text, image);
        ASKS(rows[n].status, rows[n].requests, rows[n].bytes, kc_image_state(image, count, SEED, &state));
    }
}

/* A sketch of the hashes from a first to a last. */
static void fill(kc_theta *s, uint8_t lg_k, uint64_t seed, uint64_t first, uint64_t last) {
    WANT(kc_theta_new(s, lg_k, seed) == KC_OK);
    for (uint64_t hash = first; hash <= last; hash++) WANT(kc_theta_update_hash(s, hash) == KC_OK);
}

static void operators(void) {
    kc_theta few = {0}, none = {0}, other = {0};
    kc_compact c = {0}, d = {0}, e = {0}, r = {0};
    kc_union u = {0};
    kc_intersection i = {0};
    uint64_t length, object;
    fill(&few, 5, SEED, 1, 60), fill(&none, 5, SEED, 1, 0), fill(&other, 5, 123, 1, 9);
    WANT(kc_theta_compact(&few, &c) == KC_OK && kc_theta_compact(&none, &d) == KC_OK && kc_theta_compact(&other, &e) == KC_OK);
    WANT(kc_union_new(&u, 5, SEED) == KC_OK && kc_intersection_new(&i, SEED) == KC_OK);
    NOTHING(KC_OK, kc_union_add(&u, &none));
    NOTHING(KC_INVALID_ARGUMENT, kc_union_add(&u, &other));
    NOTHING(KC_INVALID_ARGUMENT, kc_union_add_compact(&u, &e));
    NOTHING(KC_OK, kc_union_reset(&u));
    /* Slots grow by 8, to 64 here. An answer that is cut requests hashes to select from, one more than there are slots, and its own. */
    WANT(kc_union_add(&u, &few) == KC_OK);
    ASKS(KC_OK, 3, (65 + 32) * SLOT + 24 + 32 * SLOT, kc_union_image(&u, out, ROOM, &length));
    NOTHING(KC_OK, kc_union_reset(&u));
    NOTHING(KC_INVALID_ARGUMENT, kc_intersection_result(&i, &r));
    NOTHING(KC_INVALID_ARGUMENT, kc_intersection_add(&i, &other));
    NOTHING(KC_OK, kc_intersection_add(&i, &none));
    NOTHING(KC_OK, kc_intersection_add(&i, &other));
    /* the empty answer takes an object, and nothing else */
    requests = bytes = 0;
    WANT(kc_intersection_result(&i, &r) == KC_OK && requests == 1 && kc_compact_free(&r) == KC_OK);
    object = bytes;
    NOTHING(KC_OK, kc_compact_tuple_preamble(&c, out, ROOM, &length));
    NOTHING(KC_INVALID_ARGUMENT, kc_difference(&e, &d, SEED, &r));
    ASKS(KC_OK, 1, object, kc_difference(&d, &e, SEED, &r));
    NOTHING(KC_INVALID_ARGUMENT, kc_difference(&e, &d, SEED, &r));
    /* a seed whose hash is 0, whether a sketch is empty or not */
    kc_compact_free(&r);
    NOTHING(KC_INVALID_ARGUMENT, kc_difference(&d, &e, 50541, &r));
    NOTHING(KC_INVALID_ARGUMENT, kc_difference(&e, &d, 50541, &r));
    NOTHING(KC_INVALID_ARGUMENT, kc_difference(&c, &e, 50541, &r));
    NOTHING(KC_INVALID_ARGUMENT, kc_theta_difference(&few, &other, SEED, &r));
    NOTHING(KC_INVALID_ARGUMENT, kc_theta_difference(&few, &few, 50541, &r));
    NOTHING(KC_INVALID_ARGUMENT, kc_difference_with(&c, &d, SEED, 2, &r));
    NOTHING(KC_INVALID_ARGUMENT, kc_theta_compact_with(&few, 2, &r));
    NOTHING(KC_INVALID_ARGUMENT, kc_union_result_with(&u, 2, &r));
    WANT(r.object == NULL);
    /* a compact form takes an object and its hashes, ordered or not */
    ASKS(KC_OK, 2, 60 * SLOT + object, kc_theta_compact_with(&few, 0, &r));
    kc_compact_free(&r);
    ASKS(KC_OK, 2, 60 * SLOT + object, kc_theta_compact_with(&few, 1, &r));
    kc_theta_free(&few), kc_theta_free(&none), kc_theta_free(&other), kc_union_free(&u), kc_intersection_free(&i);
    kc_compact_free(&c), kc_compact_free(&d), kc_compact_free(&e), kc_compact_free(&r);
}

/* The slots of a sketch of 2^12 nominal entries: at first, and after each of 65 hashes, which need more than 128 of them. They
 * begin at the least number, from 32 on, from which steps of the resize factor lead to all 8,192. */
static void growths(void) {
    static const struct { uint32_t factor; uint64_t first, count, grown; } rows[] = {
        {1, 8192, 0, 0},
        {2, 32, 3, 64 + 128 + 256},
        {4, 32, 2, 128 + 512},
        {8, 128, 1, 1024},
    };
    uint64_t theta_object = 0, sums_object = 0;
    for (size_t n = 0; n <= sizeof rows / sizeof *rows; n++) {
        kc_theta s = {0};
        kc_sums m = {0};
        /* the last row is that of the default, 8 */
        int is_default = n == sizeof rows / sizeof *rows;
        size_t row = is_default ? n - 1 : n;
        requests = bytes = 0;
        WANT((is_default ? kc_theta_new(&s, 12, SEED) : kc_theta_new_with(&s, 12, SEED, rows[row].factor, KC_MAX_THETA)) == KC_OK);
        if (n == 0) theta_object = bytes - rows[0].first * SLOT;
        WANT(requests == 2 && bytes == theta_object + rows[row].first * SLOT);
        requests = bytes = 0;
        for (uint64_t hash = 1; hash <= 65; hash++) WANT(kc_theta_update_hash(&s, hash) == KC_OK);
        WANT(requests == rows[row].count && bytes == rows[row].grown * SLOT);
        requests = bytes = 0;
        WANT((is_default ? kc_sums_new(&m, 12, SEED) : kc_sums_new_with(&m, 12, SEED, rows[row].factor, KC_MAX_THETA)) == KC_OK);
        if (n == 0) sums_object = bytes - rows[0].first * SUM_SLOT;
        WANT(requests == 2 && bytes == sums_object + rows[row].first * SUM_SLOT);
        requests = bytes = 0;
        for (uint64_t hash = 1; hash <= 65; hash++) WANT(kc_sums_add_hash(&m, hash, 1) == KC_OK);
        WANT(requests == rows[row].count && bytes == rows[row].grown * SUM_SLOT);
        kc_theta_free(&s), kc_sums_free(&m);
    }
}

/* An intersection requests room for the entries that it keeps, once: here two of the first sketch, and one that it shares with the
 * second. Both are ordered, so they are read in place. */
static void intersections(void) {
    static const uint64_t hashes[2][2] = {{2, 5}, {3, 5}};
    kc_compact c[2] = {{0}};
    kc_compact_sums m[2] = {{0}};
    kc_intersection i = {0};
    kc_sums_intersection j = {0};
    for (size_t n = 0; n < 2; n++) {
        kc_theta s = {0};
        kc_sums t = {0};
        WANT(kc_theta_new(&s, 5, SEED) == KC_OK && kc_theta_update_hashes(&s, hashes[n], 2) == KC_OK && kc_theta_compact(&s, &c[n]) == KC_OK);
        WANT(kc_sums_new(&t, 5, SEED) == KC_OK && kc_sums_add_hash(&t, hashes[n][0], 1) == KC_OK && kc_sums_add_hash(&t, hashes[n][1], 1) == KC_OK);
        WANT(kc_sums_compact(&t, &m[n]) == KC_OK);
        kc_theta_free(&s), kc_sums_free(&t);
    }
    WANT(kc_intersection_new(&i, SEED) == KC_OK && kc_sums_intersection_new(&j, SEED) == KC_OK);
    for (size_t n = 0; n < 2; n++) {
        requests = 0;
        WANT(kc_intersection_add_compact(&i, &c[n]) == KC_OK && requests == 1);
        requests = 0;
        WANT(kc_sums_intersection_add_compact(&j, &m[n]) == KC_OK && requests == 1);
        kc_compact_free(&c[n]), kc_compact_sums_free(&m[n]);
    }
    kc_intersection_free(&i), kc_sums_intersection_free(&j);
}

/* A text requests no memory but its object, and hashes that are known or at least theta none. A batch requests a copy of each
 * sketch; a merge of its sketches requests their views, and what the union does. */
static void texts_and_batches(void) {
    kc_theta s = {0};
    kc_text t = {0};
    kc_batch b = {0};
    kc_union u = {0};
    requests = 0;
    WANT(kc_text_new(&t, SEED) == KC_OK && kc_batch_new(&b, SEED) == KC_OK && requests == 2);
    fill(&s, 5, SEED, 1, 1);
    WANT(kc_theta_update_bytes(&s, "apple", 5) == KC_OK);
    NOTHING(KC_OK, kc_theta_update_text(&s, &t, "apple\napple\nap", 14));
    NOTHING(KC_OK, kc_theta_update_text(&s, &t, "ple", 3));
    NOTHING(KC_OK, kc_theta_end_text(&s, &t));
    NOTHING(KC_OK, kc_text_free(&t));
    WANT(kc_union_new(&u, 5, SEED) == KC_OK);
    NOTHING(KC_OK, kc_union_add_batch(&u, &b));
    NOTHING(KC_INVALID_DATA, kc_batch_add_image(&b, "no image", 8));
    requests = 0;
    WANT(kc_batch_add(&b, &s) == KC_OK && requests == 2);
    requests = 0;
    WANT(kc_batch_add(&b, &s) == KC_OK && requests == 1);
    NOTHING(KC_OK, kc_batch_reset(&b));
    kc_theta_free(&s), kc_batch_free(&b), kc_union_free(&u);
}

static uint64_t next(uint64_t hash) { return (hash + UINT64_C(5700357409661599241)) & KC_MAX_THETA; }

/* A rebuild requests one slot more than it keeps entries, and hashes to select from: one more than there are slots if these are
 * few, and at most a sixteenth of them if they are many. */
static void rebuilds(void) {
    static const struct { uint8_t lg_k; uint64_t count, others, most; } rows[] = {
        {5, 60, 33, 65 * 8},
        {15, 61440, 32769, 32768},
        {16, 122880, 65537, 65536},
    };
    for (size_t n = 0; n < sizeof rows / sizeof *rows; n++) {
        kc_theta s = {0};
        kc_sums m = {0};
        kc_state state;
        uint64_t hash = 0;
        WANT(kc_theta_new_with(&s, rows[n].lg_k, SEED, 1, KC_MAX_THETA) == KC_OK && kc_sums_new_with(&m, rows[n].lg_k, SEED, 1, KC_MAX_THETA) == KC_OK);
        requests = 0;
        for (uint64_t made = 0; made <= rows[n].count; made++, hash = next(hash))
            WANT(kc_theta_update_hash(&s, hash) == KC_OK && kc_sums_add_hash(&m, hash, 1) == KC_OK);
        WANT(requests == 0);
        requests = bytes = 0;
        WANT(kc_theta_update_hash(&s, hash) == KC_OK && requests == 2 && rows[n].others * SLOT < bytes && bytes <= rows[n].others * SLOT + rows[n].most);
        WANT(kc_theta_state(&s, &state) == KC_OK && state.retained == UINT64_C(1) << rows[n].lg_k);
        requests = bytes = 0;
        WANT(kc_sums_add_hash(&m, hash, 1) == KC_OK && requests == 2 && rows[n].others * SUM_SLOT < bytes && bytes <= rows[n].others * SUM_SLOT + rows[n].most);
        WANT(kc_sums_state(&m, &state) == KC_OK && state.retained == UINT64_C(1) << rows[n].lg_k);
        kc_theta_free(&s), kc_sums_free(&m);
    }
}

/* Images of sums. A reading requests an object, 16 bytes for each entry, and eight more if the hashes don't ascend. A writing
 * makes one request. */
static void images_of_sums(void) {
    static const struct { const char *text; uint64_t requests, bytes; kc_status status; } rows[] = {
        {"01030901001e0000", 0, 0, KC_OK},
        {"02030901001acc93 ffffffff00000000 0500000000000000 0700000000000000", 0, 0, KC_INVALID_DATA},
        {"02030901001acc93 0300000000000000 0500000000000000 0700000000000000", 0, 0, KC_INVALID_DATA},
        {"02030901001acc93 0100000000000000 0500000000000000 0700000000000000", 1, 16, KC_OK},
        {"02030901000acc93 0200000000000000 0900000000000000 0200000000000000 0700000000000000 0100000000000000", 2, 2 * 24, KC_OK},
    };
    uint64_t object = 0, length;
    kc_state state;
    kc_finding what;
    uint32_t ordered;
    for (size_t n = 0; n < sizeof rows / sizeof *rows; n++) {
        unsigned char image[64];
        kc_compact_sums c = {0};
        size_t count = spelled(rows[n].text, image);
        NOTHING(rows[n].status, kc_tuple_head(image, count, SEED, &state, &ordered, &length, &what));
        requests = bytes = 0;
        kc_status status = kc_compact_sums_read(&c, image, count, SEED);
        WANT(status == rows[n].status);
        if (n == 0) object = bytes;
        uint64_t made = status == KC_OK;
        WANT(requests == rows[n].requests + made && bytes == rows[n].bytes + made * object);
        if (made) ASKS(KC_OK, 1, n == 0 ? 24 : 24 + 16 * rows[n].bytes / (n == 3 ? 16 : 24), kc_compact_sums_image(&c, out, ROOM, &length));
        kc_compact_sums_free(&c);
    }
}

/* Numbers are computed and written as text without a request. */
static void numbers(void) {
    const kc_state state = {4096, 377528331862415411, 0};
    const kc_wide total = {UINT64_MAX, 376};
    char text[64];
    kc_wide whole;
    uint64_t length;
    ASKS(KC_OK, 0, 0, kc_estimate_text(&state, 19, text, sizeof text, &length));
    ASKS(KC_OK, 0, 0, kc_total_text(&total, 377, 19, text, sizeof text, &length));
    ASKS(KC_OK, 0, 0, kc_wide_text(&total, text, sizeof text, &length));
    ASKS(KC_OK, 0, 0, kc_total_rounded(&total, 377, &whole));
    ASKS(KC_OK, 0, 0, kc_estimate_rounded(state.retained, state.theta, &whole));
}

int main(void) {
    theta();
    readings();
    operators();
    growths();
    intersections();
    texts_and_batches();
    rebuilds();
    images_of_sums();
    numbers();
    printf("requests_test: %d checks, %d faults\n", checks, faults);
    return faults != 0;
}
