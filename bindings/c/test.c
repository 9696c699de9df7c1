/* Each call of the C library on its happy path, and each of its statuses. */
#include "kaftanclay.h"
#include <stdio.h>
#include <stdlib.h>
#include <string.h>

static int faults, checks;
#define WANT(c) do { checks++; if (!(c)) { printf("test.c:%d: %s\n", __LINE__, #c); faults++; } } while (0)
#define SEED KC_DEFAULT_SEED

static unsigned char a_image[1 << 17], b_image[1 << 17], out[1 << 17];
static uint64_t a_length, b_length;

/* The numbers from `first` on, `count` of them. */
static void numbers(kc_theta *sketch, uint64_t first, uint64_t count) {
    for (uint64_t i = 0; i < count; i++) WANT(kc_theta_update_u64(sketch, first + i) == KC_OK);
}

static kc_state state_of(const kc_compact *sketch) {
    kc_state s = {0, 0, 0};
    WANT(kc_compact_state(sketch, &s) == KC_OK);
    return s;
}

static int is_near(double estimate, double truth) { return estimate > 0.95 * truth && estimate < 1.05 * truth; }

static int by_number(const void *a, const void *b) {
    uint64_t m = *(const uint64_t *)a, n = *(const uint64_t *)b;
    return (m > n) - (m < n);
}

static void sketches(void) {
    kc_theta s = {0}, other = {0};
    kc_state st = {7, 7, 7};
    uint64_t length = 9;
    WANT(kc_theta_new(&s, 3, SEED) == KC_INVALID_ARGUMENT && s.object == NULL);
    WANT(kc_theta_new(&s, 27, SEED) == KC_INVALID_ARGUMENT && s.object == NULL);
    WANT(kc_theta_new(&s, 256 + 12, SEED) == KC_INVALID_ARGUMENT && kc_theta_new_with(&s, UINT32_MAX, SEED, 8, KC_MAX_THETA) == KC_INVALID_ARGUMENT && s.object == NULL);
    WANT(kc_theta_new(NULL, 12, SEED) == KC_INVALID_ARGUMENT);
    WANT(kc_theta_new(&s, 12, SEED) == KC_OK && s.object != NULL);
    void *object = s.object;
    WANT(kc_theta_new(&s, 12, SEED) == KC_INVALID_ARGUMENT && s.object == object);
    WANT(kc_theta_state(&s, &st) == KC_OK && st.retained == 0 && st.theta == KC_MAX_THETA && st.empty == 1);
    memset(out, 77, 16);
    WANT(kc_theta_image(&s, NULL, 0, &length) == KC_TOO_SMALL && length == 8);
    WANT(kc_theta_image(&s, out, 7, &length) == KC_TOO_SMALL && length == 8 && out[0] == 77);
    WANT(kc_theta_image(&s, out, 8, &length) == KC_OK && length == 8 && memcmp(out, "\1\3\3\0\0\x1e\0\0M", 9) == 0);
    WANT(kc_theta_image(&s, NULL, 8, &length) == KC_INVALID_ARGUMENT && kc_theta_image(&s, out, 8, NULL) == KC_INVALID_ARGUMENT);
    WANT(kc_theta_update_hash(&s, 0) == KC_OK);
    WANT(kc_theta_state(&s, &st) == KC_OK && st.retained == 0 && st.empty == 0);
    WANT(kc_theta_reset(&s) == KC_OK && kc_theta_state(&s, &st) == KC_OK && st.empty == 1);
    WANT(kc_theta_update_bytes(&s, "ann", 3) == KC_OK && kc_theta_update_bytes(&s, "ann", 3) == KC_OK);
    WANT(kc_theta_state(&s, &st) == KC_OK && st.retained == 1);
    WANT(kc_theta_update_bytes(&s, NULL, 0) == KC_OK && kc_theta_state(&s, &st) == KC_OK && st.retained == 2);
    WANT(kc_theta_update_bytes(&s, NULL, 3) == KC_INVALID_ARGUMENT && kc_theta_update_hashes(&s, NULL, 3) == KC_INVALID_ARGUMENT);
    /* the hash of "ann" by the call on bytes is that of the call on hashes */
    uint64_t hash = 0;
    WANT(kc_hash_bytes(SEED, "ann", 3, &hash) == KC_OK && kc_theta_update_hashes(&s, &hash, 1) == KC_OK);
    WANT(kc_theta_update_hashes(&s, NULL, 0) == KC_OK && kc_theta_state(&s, &st) == KC_OK && st.retained == 2);
    /* "ann", "", "bob" */
    const uint64_t ends[] = {3, 3, 6}, past[] = {3, 7}, turned[] = {3, 2};
    WANT(kc_theta_update_strings(&s, "annbob", 6, past, 2) == KC_INVALID_ARGUMENT && kc_theta_update_strings(&s, "annbob", 6, turned, 2) == KC_INVALID_ARGUMENT);
    WANT(kc_theta_update_strings(&s, "annbob", 6, ends, 3) == KC_OK && kc_theta_state(&s, &st) == KC_OK && st.retained == 3);
    WANT(kc_theta_update_bytes(&s, "bob", 3) == KC_OK && kc_theta_state(&s, &st) == KC_OK && st.retained == 3);
    WANT(kc_theta_update_strings(&s, NULL, 0, NULL, 0) == KC_OK && kc_theta_update_strings(&s, NULL, 6, ends, 3) == KC_INVALID_ARGUMENT);
    WANT(kc_theta_update_strings(&other, "", 0, NULL, 0) == KC_INVALID_ARGUMENT && kc_theta_update_strings(&s, "annbob", 6, NULL, 3) == KC_INVALID_ARGUMENT);
    numbers(&s, 0, 100000);
    WANT(kc_theta_state(&s, &st) == KC_OK && st.theta < KC_MAX_THETA && is_near(kc_estimate(&st), 100003));
    WANT(kc_theta_trim(&s) == KC_OK && kc_theta_state(&s, &st) == KC_OK && st.retained == 4096);
    /* its hashes are those of its compact form, which are those of its image */
    static uint64_t listed[8192], ordered[8192];
    kc_compact form = {0};
    uint64_t count = 9;
    listed[0] = 7;
    WANT(kc_theta_hashes(&s, NULL, 0, &count) == KC_TOO_SMALL && count == 4096 && kc_theta_hashes(&s, listed, 4095, &count) == KC_TOO_SMALL && listed[0] == 7);
    WANT(kc_theta_hashes(&s, listed, 4096, &count) == KC_OK && count == 4096 && kc_theta_compact(&s, &form) == KC_OK);
    WANT(kc_compact_hashes(&form, ordered, 4095, &count) == KC_TOO_SMALL && count == 4096 && ordered[0] == 0);
    WANT(kc_compact_hashes(&form, ordered, 8192, &count) == KC_OK && count == 4096 && ordered[4096] == 0);
    WANT(kc_compact_image(&form, a_image, sizeof a_image, &a_length) == KC_OK && memcmp(a_image + a_length - 8 * 4096, ordered, 8 * 4096) == 0);
    qsort(listed, 4096, sizeof *listed, by_number);
    WANT(memcmp(listed, ordered, sizeof *listed * 4096) == 0 && ordered[4095] < st.theta && kc_compact_free(&form) == KC_OK);
    count = 9;
    WANT(kc_compact_hashes(&form, ordered, 8192, &count) == KC_INVALID_ARGUMENT && kc_theta_hashes(&other, listed, 8192, &count) == KC_INVALID_ARGUMENT && count == 9);
    WANT(kc_theta_hashes(&s, listed, 8192, NULL) == KC_INVALID_ARGUMENT && kc_theta_hashes(&s, NULL, 1, &count) == KC_INVALID_ARGUMENT);
    /* a handle without an object, and null pointers */
    WANT(kc_theta_update_hash(&other, 5) == KC_INVALID_ARGUMENT && kc_theta_update_u64(&other, 5) == KC_INVALID_ARGUMENT);
    WANT(kc_theta_update_bytes(&other, "", 0) == KC_INVALID_ARGUMENT && kc_theta_update_hashes(&other, &hash, 1) == KC_INVALID_ARGUMENT);
    WANT(kc_theta_trim(&other) == KC_INVALID_ARGUMENT && kc_theta_reset(&other) == KC_INVALID_ARGUMENT);
    st.retained = 7;
    WANT(kc_theta_state(&other, &st) == KC_INVALID_ARGUMENT && st.retained == 7);
    length = 9, out[0] = 77;
    WANT(kc_theta_image(&other, out, 8, &length) == KC_INVALID_ARGUMENT && length == 9 && out[0] == 77);
    WANT(kc_theta_update_hash(NULL, 5) == KC_INVALID_ARGUMENT && kc_theta_free(NULL) == KC_INVALID_ARGUMENT);
    WANT(kc_theta_state(&s, NULL) == KC_INVALID_ARGUMENT && kc_theta_compact(&s, NULL) == KC_INVALID_ARGUMENT);
    WANT(other.object == NULL);
    WANT(kc_theta_free(&s) == KC_OK && s.object == NULL && kc_theta_free(&s) == KC_OK);
}

/* A sketch with a resize factor and a starting theta, and a copy. */
static void settings(void) {
    const uint64_t half = KC_MAX_THETA / 2;
    kc_theta s = {0}, copy = {0};
    kc_state st, same;
    uint64_t length = 0;
    WANT(kc_theta_new_with(&s, 12, SEED, 3, half) == KC_INVALID_ARGUMENT && kc_theta_new_with(&s, 12, SEED, 0, half) == KC_INVALID_ARGUMENT);
    WANT(kc_theta_new_with(&s, 12, SEED, 2, 0) == KC_INVALID_ARGUMENT && kc_theta_new_with(&s, 12, SEED, 2, KC_MAX_THETA + 1) == KC_INVALID_ARGUMENT);
    WANT(kc_theta_new_with(&s, 3, SEED, 2, half) == KC_INVALID_ARGUMENT && kc_theta_new_with(NULL, 12, SEED, 2, half) == KC_INVALID_ARGUMENT);
    WANT(s.object == NULL && kc_theta_new_with(&s, 12, SEED, 2, half) == KC_OK && kc_theta_new_with(&s, 12, SEED, 2, half) == KC_INVALID_ARGUMENT);
    numbers(&s, 0, 2000);
    WANT(kc_theta_state(&s, &st) == KC_OK && st.theta == half && kc_estimate(&st) > 1700 && kc_estimate(&st) < 2300);
    numbers(&s, 2000, 98000);
    WANT(kc_theta_clone(&s, &copy) == KC_OK && kc_theta_clone(&s, &copy) == KC_INVALID_ARGUMENT && kc_theta_clone(&s, &s) == KC_INVALID_ARGUMENT);
    WANT(kc_theta_state(&s, &st) == KC_OK && kc_theta_state(&copy, &same) == KC_OK && memcmp(&st, &same, sizeof st) == 0 && st.theta < half);
    /* the copy goes its own way: both get the same values in another order, and are the same again */
    numbers(&copy, 150000, 50000), numbers(&copy, 100000, 50000), numbers(&s, 100000, 100000);
    WANT(kc_theta_trim(&s) == KC_OK && kc_theta_trim(&copy) == KC_OK && kc_theta_image(&s, a_image, sizeof a_image, &a_length) == KC_OK);
    WANT(kc_theta_image(&copy, out, sizeof out, &length) == KC_OK && length == a_length && memcmp(a_image, out, length) == 0);
    WANT(kc_theta_reset(&copy) == KC_OK && kc_theta_update_u64(&copy, 1) == KC_OK && kc_theta_state(&copy, &same) == KC_OK && same.theta == half);
    WANT(kc_theta_state(&s, &st) == KC_OK && st.retained == 4096);
    WANT(kc_theta_free(&copy) == KC_OK && kc_theta_clone(&copy, &s) == KC_INVALID_ARGUMENT && kc_theta_clone(&s, NULL) == KC_INVALID_ARGUMENT);
    WANT(kc_theta_free(&s) == KC_OK && kc_theta_clone(&s, &copy) == KC_INVALID_ARGUMENT && copy.object == NULL);
}

static void compacts(void) {
    kc_theta s = {0};
    kc_compact c = {0}, d = {0}, e = {0};
    kc_state st;
    uint64_t length = 0;
    WANT(kc_theta_new(&s, 12, SEED) == KC_OK);
    numbers(&s, 0, 100000);
    WANT(kc_theta_compact(&s, &c) == KC_OK && kc_theta_compact(&s, &c) == KC_INVALID_ARGUMENT);
    WANT(kc_theta_state(&s, &st) == KC_OK && memcmp(&st, &(kc_state){state_of(&c).retained, state_of(&c).theta, 0}, sizeof st) == 0);
    WANT(kc_theta_image(&s, a_image, sizeof a_image, &a_length) == KC_OK && a_length == 24 + 8 * st.retained);
    WANT(kc_compact_image(&c, out, sizeof out, &length) == KC_OK && length == a_length && memcmp(out, a_image, length) == 0);
    WANT(kc_compact_image(&c, NULL, 0, &length) == KC_TOO_SMALL && length == a_length);
    WANT(kc_compact_read(&d, a_image, a_length - 1, SEED) == KC_INVALID_DATA && d.object == NULL);
    WANT(kc_compact_read(&d, a_image, a_length, SEED + 1) == KC_INVALID_DATA && kc_compact_read(&d, NULL, 0, SEED) == KC_INVALID_DATA);
    WANT(kc_compact_read(&d, NULL, 5, SEED) == KC_INVALID_ARGUMENT && kc_compact_read(NULL, a_image, a_length, SEED) == KC_INVALID_ARGUMENT);
    WANT(kc_compact_read(&d, a_image, a_length, SEED) == KC_OK && kc_compact_read(&d, a_image, a_length, SEED) == KC_INVALID_ARGUMENT);
    WANT(state_of(&d).theta == st.theta && state_of(&d).retained == st.retained);
    WANT(kc_compact_clone(&d, &e) == KC_OK && kc_compact_clone(&d, &e) == KC_INVALID_ARGUMENT);
    WANT(kc_compact_clone(&d, &d) == KC_INVALID_ARGUMENT && d.object != NULL);
    WANT(kc_compact_free(&d) == KC_OK && d.object == NULL && kc_compact_clone(&d, &c) == KC_INVALID_ARGUMENT);
    WANT(kc_compact_image(&e, out, sizeof out, &length) == KC_OK && length == a_length && memcmp(out, a_image, length) == 0);
    WANT(kc_compact_state(&d, &st) == KC_INVALID_ARGUMENT && kc_compact_image(&d, out, sizeof out, &length) == KC_INVALID_ARGUMENT);
    WANT(kc_image_state(a_image, a_length, SEED, &st) == KC_OK && st.theta == state_of(&c).theta && st.retained == state_of(&c).retained);
    st.retained = 7;
    WANT(kc_image_state(a_image, 9, SEED, &st) == KC_INVALID_DATA && st.retained == 7 && kc_image_state(NULL, 9, SEED, &st) == KC_INVALID_ARGUMENT);
    WANT(kc_theta_free(&s) == KC_OK && kc_compact_free(&c) == KC_OK && kc_compact_free(&e) == KC_OK);
}

static void operators(void) {
    kc_theta a = {0}, b = {0}, other = {0}, none = {0};
    kc_compact ca = {0}, cb = {0}, r = {0}, no_compact = {0};
    kc_union u = {0};
    kc_intersection i = {0};
    kc_state st;
    uint64_t length = 0;
    WANT(kc_theta_new(&a, 12, SEED) == KC_OK && kc_theta_new(&b, 12, SEED) == KC_OK && kc_theta_new(&other, 12, SEED + 1) == KC_OK);
    numbers(&a, 0, 100000), numbers(&b, 50000, 100000), numbers(&other, 0, 1);
    WANT(kc_theta_compact(&a, &ca) == KC_OK && kc_theta_compact(&b, &cb) == KC_OK);
    WANT(kc_compact_image(&ca, a_image, sizeof a_image, &a_length) == KC_OK && kc_compact_image(&cb, b_image, sizeof b_image, &b_length) == KC_OK);

    WANT(kc_union_new(&u, 12, SEED) == KC_OK && kc_union_new(&u, 12, SEED) == KC_INVALID_ARGUMENT);
    WANT(kc_union_result(&u, &r) == KC_OK && state_of(&r).empty == 1 && kc_compact_free(&r) == KC_OK);
    WANT(kc_union_add(&u, &a) == KC_OK && kc_union_add_compact(&u, &cb) == KC_OK && kc_union_add_image(&u, a_image, a_length) == KC_OK);
    WANT(kc_union_add(&u, &other) == KC_INVALID_ARGUMENT && kc_union_add_image(&u, a_image, 9) == KC_INVALID_DATA);
    WANT(kc_union_add(&u, &none) == KC_INVALID_ARGUMENT && kc_union_add_compact(&u, &no_compact) == KC_INVALID_ARGUMENT);
    WANT(kc_union_add_image(&u, NULL, 9) == KC_INVALID_ARGUMENT && kc_union_add(NULL, &a) == KC_INVALID_ARGUMENT);
    WANT(kc_union_result(&u, &r) == KC_OK && kc_union_result(&u, &r) == KC_INVALID_ARGUMENT);
    st = state_of(&r);
    uint64_t united = 5;
    WANT(is_near(kc_estimate(&st), 150000) && kc_union_image(&u, NULL, 0, &united) == KC_TOO_SMALL && kc_compact_image(&r, b_image + united, united, &length) == KC_OK);
    WANT(kc_union_image(&u, out, united, &united) == KC_OK && length == united && memcmp(out, b_image + united, united) == 0);
    WANT(kc_compact_free(&r) == KC_OK && kc_compact_image(&cb, b_image, sizeof b_image, &b_length) == KC_OK);
    WANT(kc_union_reset(&u) == KC_OK && kc_union_result(&u, &r) == KC_OK && state_of(&r).empty == 1 && kc_compact_free(&r) == KC_OK);
    WANT(kc_union_free(&u) == KC_OK && kc_union_add(&u, &a) == KC_INVALID_ARGUMENT && kc_union_add_image(&u, a_image, a_length) == KC_INVALID_ARGUMENT);
    WANT(kc_union_reset(&u) == KC_INVALID_ARGUMENT && kc_union_result(&u, &r) == KC_INVALID_ARGUMENT && r.object == NULL);
    WANT(kc_union_image(&u, out, sizeof out, &united) == KC_INVALID_ARGUMENT && kc_union_image(NULL, out, 1, &united) == KC_INVALID_ARGUMENT);

    WANT(kc_intersection_new(&i, SEED) == KC_OK && kc_intersection_new(&i, SEED) == KC_INVALID_ARGUMENT);
    WANT(kc_intersection_result(&i, &r) == KC_INVALID_ARGUMENT && r.object == NULL);
    WANT(kc_intersection_add(&i, &a) == KC_OK && kc_intersection_add_compact(&i, &cb) == KC_OK && kc_intersection_add_image(&i, a_image, a_length) == KC_OK);
    WANT(kc_intersection_add(&i, &other) == KC_INVALID_ARGUMENT && kc_intersection_add_image(&i, b_image, 3) == KC_INVALID_DATA);
    WANT(kc_intersection_result(&i, &r) == KC_OK);
    st = state_of(&r);
    WANT(is_near(kc_estimate(&st), 50000));
    WANT(kc_compact_image(&r, b_image, sizeof b_image, &length) == KC_OK);
    WANT(kc_compact_image(&cb, b_image + length, sizeof b_image - length, &b_length) == KC_OK);
    uint64_t met = 5;
    WANT(kc_images_intersect(a_image, a_length, b_image + length, b_length, SEED, NULL, 0, &met) == KC_TOO_SMALL && met == length);
    WANT(kc_images_intersect(a_image, a_length, b_image + length, b_length, SEED, out, sizeof out, &met) == KC_OK);
    WANT(met == length && memcmp(out, b_image, met) == 0 && kc_compact_free(&r) == KC_OK && kc_intersection_free(&i) == KC_OK);
    WANT(kc_intersection_add(&i, &a) == KC_INVALID_ARGUMENT && kc_intersection_result(&i, &r) == KC_INVALID_ARGUMENT);

    WANT(kc_difference(&ca, &cb, SEED, &r) == KC_OK && kc_difference(&ca, &cb, SEED, &r) == KC_INVALID_ARGUMENT);
    st = state_of(&r);
    WANT(is_near(kc_estimate(&st), 50000));
    uint64_t left = 5;
    WANT(kc_images_difference(a_image, a_length, b_image + length, b_length, SEED, out, sizeof out, &left) == KC_OK);
    WANT(kc_compact_image(&r, b_image, sizeof b_image, &length) == KC_OK && left == length && memcmp(out, b_image, left) == 0);
    left = 5, out[0] = 77;
    WANT(kc_images_difference(a_image, a_length, b_image, 3, SEED, out, sizeof out, &left) == KC_INVALID_DATA && left == 5 && out[0] == 77);
    WANT(kc_compact_free(&r) == KC_OK && kc_difference(&ca, &cb, SEED + 1, &r) == KC_INVALID_ARGUMENT && r.object == NULL);
    /* the hash of seed 50541 is 0: it is refused by itself, and no image is of this seed */
    WANT(kc_difference(&ca, &cb, 50541, &r) == KC_INVALID_ARGUMENT && r.object == NULL);
    WANT(kc_images_difference(a_image, a_length, a_image, a_length, 50541, out, sizeof out, &left) == KC_INVALID_DATA);
    WANT(kc_difference(&ca, &r, SEED, &r) == KC_INVALID_ARGUMENT && kc_difference(&r, &ca, SEED, &r) == KC_INVALID_ARGUMENT);
    WANT(kc_difference(&ca, &ca, SEED, &r) == KC_OK && state_of(&r).retained == 0 && kc_compact_free(&r) == KC_OK);
    WANT(kc_difference(&ca, &no_compact, SEED, &r) == KC_INVALID_ARGUMENT);
    WANT(kc_difference(&no_compact, &ca, SEED, &r) == KC_INVALID_ARGUMENT && ca.object != NULL);
    kc_theta_free(&a), kc_theta_free(&b), kc_theta_free(&other), kc_compact_free(&ca), kc_compact_free(&cb);
}

/* The image of a union's value. */
static uint64_t value_of(kc_union *u, unsigned char *to) {
    uint64_t length = 0;
    WANT(kc_union_image(u, to, sizeof out, &length) == KC_OK);
    return length;
}

/* A batch is merged as one sketch after another. */
static void batches(void) {
    kc_batch b = {0}, none = {0};
    kc_theta s = {0}, empty = {0}, other = {0};
    kc_compact c = {0};
    kc_union u = {0}, one_by_one = {0};
    static unsigned char image[1 << 17], together[1 << 17], apart[1 << 17];
    uint64_t length = 0;
    WANT(kc_batch_new(NULL, SEED) == KC_INVALID_ARGUMENT && kc_batch_new(&b, SEED) == KC_OK);
    void *object = b.object;
    WANT(kc_batch_new(&b, SEED) == KC_INVALID_ARGUMENT && b.object == object);
    WANT(kc_union_new(&u, 12, SEED) == KC_OK && kc_union_new(&one_by_one, 12, SEED) == KC_OK);
    /* no sketches */
    WANT(kc_union_add_batch(&u, &b) == KC_OK && value_of(&u, together) == value_of(&one_by_one, apart));
    /* 100 sketches of each kind, the first of which is empty */
    for (uint64_t n = 0; n < 100; n++) {
        WANT(kc_theta_new(&s, 12, SEED) == KC_OK);
        numbers(&s, 90 * n, n == 0 ? 0 : 100);
        WANT(kc_theta_compact(&s, &c) == KC_OK && kc_theta_image(&s, image, sizeof image, &length) == KC_OK);
        if (n % 3 == 0) WANT(kc_batch_add(&b, &s) == KC_OK && kc_union_add(&one_by_one, &s) == KC_OK);
        else if (n % 3 == 1) WANT(kc_batch_add_compact(&b, &c) == KC_OK && kc_union_add_compact(&one_by_one, &c) == KC_OK);
        else WANT(kc_batch_add_image(&b, image, length) == KC_OK && kc_union_add_image(&one_by_one, image, length) == KC_OK);
        /* what happens to a sketch later doesn't change the batch */
        numbers(&s, 1000000, 10);
        WANT(kc_theta_free(&s) == KC_OK && kc_compact_free(&c) == KC_OK);
    }
    WANT(kc_union_add_batch(&u, &b) == KC_OK);
    uint64_t count = value_of(&u, together);
    WANT(count == value_of(&one_by_one, apart) && count > 8 * 4096 && memcmp(together, apart, count) == 0);
    /* the batch is as before */
    WANT(kc_union_reset(&u) == KC_OK && kc_union_add_batch(&u, &b) == KC_OK && value_of(&u, apart) == count && memcmp(together, apart, count) == 0);
    /* what is refused changes nothing: no image, and an image or a sketch of another seed */
    WANT(kc_batch_add_image(&b, "no image", 8) == KC_INVALID_DATA && kc_batch_add_image(&b, NULL, 1) == KC_INVALID_ARGUMENT);
    WANT(kc_theta_new(&other, 12, 123) == KC_OK && kc_theta_new(&empty, 12, 124) == KC_OK);
    WANT(kc_theta_update_u64(&other, 1) == KC_OK && kc_theta_image(&other, image, sizeof image, &length) == KC_OK);
    WANT(kc_batch_add_image(&b, image, length) == KC_INVALID_DATA);
    WANT(kc_union_add_batch(&u, &b) == KC_OK && value_of(&u, apart) == count && memcmp(together, apart, count) == 0);
    WANT(kc_batch_reset(&b) == KC_OK && kc_theta_new(&s, 12, SEED) == KC_OK && kc_theta_update_u64(&s, 7000000) == KC_OK);
    WANT(kc_batch_add(&b, &empty) == KC_OK && kc_batch_add(&b, &s) == KC_OK && kc_union_reset(&u) == KC_OK && kc_union_add_batch(&u, &b) == KC_OK);
    count = value_of(&u, together);
    WANT(kc_batch_add(&b, &other) == KC_OK && kc_union_add_batch(&u, &b) == KC_INVALID_ARGUMENT && value_of(&u, apart) == count && memcmp(together, apart, count) == 0);
    /* handles without an object */
    WANT(kc_batch_add(&none, &s) == KC_INVALID_ARGUMENT && kc_batch_add_compact(&b, &c) == KC_INVALID_ARGUMENT && kc_batch_reset(&none) == KC_INVALID_ARGUMENT);
    WANT(kc_batch_add_image(&none, image, length) == KC_INVALID_ARGUMENT && kc_union_add_batch(&u, &none) == KC_INVALID_ARGUMENT);
    WANT(kc_union_add_batch(NULL, &b) == KC_INVALID_ARGUMENT && kc_union_add_batch(&u, NULL) == KC_INVALID_ARGUMENT);
    WANT(kc_batch_free(&b) == KC_OK && kc_batch_free(&b) == KC_OK && b.object == NULL && kc_batch_free(NULL) == KC_INVALID_ARGUMENT);
    kc_theta_free(&s), kc_theta_free(&empty), kc_theta_free(&other), kc_union_free(&u), kc_union_free(&one_by_one);
}

/* The lines of a text, cut into pieces of every length, are those of `kc_theta_update_bytes`. */
/* Unions with a resize factor and a starting theta, and with fewer nominal entries. */
static void union_settings(void) {
    const uint64_t half = KC_MAX_THETA / 2;
    kc_theta a = {0};
    kc_sums m = {0};
    kc_union u = {0}, few = {0};
    kc_sums_union su = {0};
    kc_compact_sums sr = {0};
    kc_state st = {7, 7, 7};
    WANT(kc_theta_new(&a, 12, SEED) == KC_OK && kc_sums_new(&m, 12, SEED) == KC_OK);
    numbers(&a, 0, 3000);
    for (uint64_t n = 0; n < 3000; n++) WANT(kc_sums_add_u64(&m, n, 1) == KC_OK);
    WANT(kc_union_new(&u, 256 + 12, SEED) == KC_INVALID_ARGUMENT && u.object == NULL && kc_union_new(&u, 12, SEED) == KC_OK && kc_union_add(&u, &a) == KC_OK);
    /* lowered: the value is cut, as one of a union that had fewer nominal entries from the start */
    WANT(kc_union_lower_lg_k(&u, 12) == KC_OK && kc_union_lower_lg_k(&u, 13) == KC_INVALID_ARGUMENT && kc_union_lower_lg_k(&u, 3) == KC_INVALID_ARGUMENT);
    WANT(kc_union_lower_lg_k(&u, 256 + 8) == KC_INVALID_ARGUMENT && kc_union_lower_lg_k(&u, 27) == KC_INVALID_ARGUMENT);
    WANT(kc_union_new(&few, 8, SEED) == KC_OK && kc_union_add(&few, &a) == KC_OK && kc_union_image(&few, b_image, sizeof b_image, &b_length) == KC_OK);
    WANT(kc_union_lower_lg_k(&u, 8) == KC_OK && kc_union_image(&u, a_image, sizeof a_image, &a_length) == KC_OK);
    WANT(a_length == b_length && memcmp(a_image, b_image, a_length) == 0 && kc_union_lower_lg_k(&u, 9) == KC_INVALID_ARGUMENT);
    WANT(kc_union_reset(&u) == KC_OK && kc_union_add(&u, &a) == KC_OK && kc_union_image(&u, a_image, sizeof a_image, &a_length) == KC_OK);
    WANT(a_length == b_length && memcmp(a_image, b_image, a_length) == 0);
    WANT(kc_union_free(&u) == KC_OK && kc_union_free(&few) == KC_OK && kc_union_lower_lg_k(&u, 8) == KC_INVALID_ARGUMENT && kc_union_lower_lg_k(NULL, 8) == KC_INVALID_ARGUMENT);
    /* the same of sums */
    WANT(kc_sums_union_new_with(&su, 256 + 12, SEED, 2, half) == KC_INVALID_ARGUMENT && kc_sums_union_new_with(&su, 12, SEED, 0, half) == KC_INVALID_ARGUMENT);
    WANT(kc_sums_union_new_with(&su, 12, SEED, 4, half) == KC_OK && kc_sums_union_add(&su, &m) == KC_OK);
    WANT(kc_sums_union_lower_lg_k(&su, 256 + 8) == KC_INVALID_ARGUMENT && kc_sums_union_lower_lg_k(&su, 8) == KC_OK && kc_sums_union_lower_lg_k(&su, 9) == KC_INVALID_ARGUMENT);
    WANT(kc_sums_union_result(&su, &sr) == KC_OK && kc_compact_sums_state(&sr, &st) == KC_OK && st.retained == 256 && st.theta < half);
    WANT(kc_compact_sums_free(&sr) == KC_OK && kc_sums_union_free(&su) == KC_OK && kc_sums_union_lower_lg_k(&su, 8) == KC_INVALID_ARGUMENT);
    WANT(kc_theta_free(&a) == KC_OK && kc_sums_free(&m) == KC_OK);
    /* a starting theta: that of each value, also after a reset; no value depends on the resize factor */
    WANT(kc_theta_new(&a, 12, SEED) == KC_OK && kc_union_new_with(&u, 12, SEED, 3, half) == KC_INVALID_ARGUMENT && kc_union_new_with(&u, 12, SEED, 0, half) == KC_INVALID_ARGUMENT);
    WANT(kc_union_new_with(&u, 12, SEED, 2, 0) == KC_INVALID_ARGUMENT && kc_union_new_with(&u, 12, SEED, 2, KC_MAX_THETA + 1) == KC_INVALID_ARGUMENT);
    WANT(kc_union_new_with(&u, 256 + 12, SEED, 2, half) == KC_INVALID_ARGUMENT && kc_union_new_with(&u, 12, 50541, 2, half) == KC_INVALID_ARGUMENT && u.object == NULL);
    WANT(kc_union_new_with(NULL, 12, SEED, 2, half) == KC_INVALID_ARGUMENT && kc_union_new_with(&u, 12, SEED, 2, half) == KC_OK && kc_union_new_with(&u, 12, SEED, 2, half) == KC_INVALID_ARGUMENT);
    WANT(kc_union_new_with(&few, 12, SEED, 1, half) == KC_OK);
    numbers(&a, 0, 3000);
    for (int turn = 0; turn < 2; turn++) {
        WANT(kc_union_add(&u, &a) == KC_OK && kc_union_image(&u, a_image, sizeof a_image, &a_length) == KC_OK && kc_image_state(a_image, a_length, SEED, &st) == KC_OK);
        WANT(st.theta == half && is_near(kc_estimate(&st), 3000) && kc_union_reset(&u) == KC_OK);
    }
    WANT(kc_union_add(&few, &a) == KC_OK && kc_union_image(&few, b_image, sizeof b_image, &b_length) == KC_OK && a_length == b_length && memcmp(a_image, b_image, a_length) == 0);
    WANT(kc_union_free(&u) == KC_OK && kc_union_free(&few) == KC_OK && kc_theta_free(&a) == KC_OK);
}

/* One hash, and the state after it. */
static void one_hash(void) {
    const uint64_t half = KC_MAX_THETA / 2;
    kc_theta s = {0}, same = {0};
    kc_state st = {7, 7, 7}, at, before;
    WANT(kc_theta_insert_hash(&s, 5, &st) == KC_INVALID_ARGUMENT && kc_theta_insert_hash(NULL, 5, &st) == KC_INVALID_ARGUMENT && st.retained == 7 && st.theta == 7 && st.empty == 7);
    WANT(kc_theta_new_with(&s, 5, SEED, 2, half) == KC_OK && kc_theta_new_with(&same, 5, SEED, 8, half) == KC_OK && kc_theta_insert_hash(&s, 5, NULL) == KC_INVALID_ARGUMENT);
    WANT(kc_theta_state(&s, &st) == KC_OK && st.empty == 1 && st.theta == KC_MAX_THETA);
    /* screened: 0, and one that is at least theta; new; present */
    WANT(kc_theta_insert_hash(&s, 0, &st) == KC_OK && st.retained == 0 && st.theta == half && st.empty == 0);
    WANT(kc_theta_insert_hash(&s, half, &st) == KC_OK && st.retained == 0 && kc_theta_insert_hash(&s, half - 1, &st) == KC_OK && st.retained == 1);
    WANT(kc_theta_insert_hash(&s, half - 1, &st) == KC_OK && st.retained == 1 && st.theta == half && kc_theta_update_hash(&same, half - 1) == KC_OK);
    /* as kc_theta_update_hash; each new hash shows, until theta is lowered */
    for (uint64_t hash = 500; hash > 0; hash--) {
        before = st;
        WANT(kc_theta_insert_hash(&s, hash, &st) == KC_OK && kc_theta_update_hash(&same, hash) == KC_OK && kc_theta_state(&same, &at) == KC_OK && memcmp(&st, &at, sizeof st) == 0);
        WANT(st.theta < before.theta ? st.retained <= before.retained : st.theta == before.theta && st.retained == before.retained + 1);
    }
    WANT(st.theta < half && kc_theta_free(&s) == KC_OK && kc_theta_free(&same) == KC_OK);
}

static int is_ordered(const kc_compact *sketch) {
    uint32_t ordered = 7;
    WANT(kc_compact_is_ordered(sketch, &ordered) == KC_OK && ordered <= 1);
    return ordered == 1;
}

static int are_ordered(const kc_compact_sums *sketch) {
    uint32_t ordered = 7;
    WANT(kc_compact_sums_is_ordered(sketch, &ordered) == KC_OK && ordered <= 1);
    return ordered == 1;
}

/* Whether two sketches have one state and the same hashes, in any order. Both are freed. */
static int have_same_hashes(kc_compact *a, kc_compact *b) {
    static uint64_t listed[2][8192];
    kc_state s = state_of(a), t = state_of(b);
    uint64_t count[2] = {0, 0};
    WANT(kc_compact_hashes(a, listed[0], 8192, &count[0]) == KC_OK && kc_compact_hashes(b, listed[1], 8192, &count[1]) == KC_OK);
    WANT(kc_compact_free(a) == KC_OK && kc_compact_free(b) == KC_OK);
    for (int n = 0; n < 2; n++) qsort(listed[n], count[n], sizeof **listed, by_number);
    return memcmp(&s, &t, sizeof s) == 0 && count[0] == count[1] && memcmp(listed[0], listed[1], count[0] * sizeof **listed) == 0;
}

/* Compact forms, results and differences, ordered or not; seed hashes and sizes. */
static void orders(void) {
    kc_theta s = {0}, few = {0}, none = {0};
    kc_compact c = {0}, d = {0}, e = {0}, f = {0};
    kc_union u = {0};
    kc_intersection i = {0};
    uint32_t hash = 7;
    uint64_t bytes = 7;
    WANT(kc_theta_new(&s, 12, SEED) == KC_OK && kc_theta_new(&few, 12, SEED) == KC_OK && kc_union_new(&u, 12, SEED) == KC_OK && kc_intersection_new(&i, SEED) == KC_OK);
    numbers(&s, 0, 100000), numbers(&few, 0, 5000);
    WANT(kc_theta_compact_with(&s, 2, &c) == KC_INVALID_ARGUMENT && kc_theta_compact_with(&s, UINT32_MAX, &c) == KC_INVALID_ARGUMENT && c.object == NULL);
    WANT(kc_theta_compact_with(&none, 0, &c) == KC_INVALID_ARGUMENT && kc_theta_compact_with(NULL, 0, &c) == KC_INVALID_ARGUMENT && kc_theta_compact_with(&s, 0, NULL) == KC_INVALID_ARGUMENT);
    WANT(kc_theta_compact_with(&s, 0, &c) == KC_OK && kc_theta_compact_with(&s, 0, &c) == KC_INVALID_ARGUMENT && !is_ordered(&c));
    WANT(kc_theta_compact_with(&s, 1, &d) == KC_OK && is_ordered(&d) && kc_theta_compact(&s, &e) == KC_OK && is_ordered(&e) && have_same_hashes(&d, &e));
    WANT(kc_compact_clone(&c, &e) == KC_OK && !is_ordered(&e) && kc_theta_compact(&s, &d) == KC_OK && have_same_hashes(&d, &e));
    /* the image of one that isn't ordered is read as such */
    WANT(kc_compact_image(&c, a_image, sizeof a_image, &a_length) == KC_OK && kc_compact_read(&d, a_image, a_length, SEED) == KC_OK && !is_ordered(&d) && kc_compact_free(&d) == KC_OK);
    /* results */
    WANT(kc_union_add(&u, &few) == KC_OK && kc_union_add_compact(&u, &c) == KC_OK && kc_intersection_add(&i, &few) == KC_OK);
    WANT(kc_intersection_result_with(&i, 0, &d) == KC_OK && !is_ordered(&d) && kc_compact_free(&d) == KC_OK && kc_intersection_add_compact(&i, &c) == KC_OK);
    WANT(kc_union_result_with(&u, 2, &d) == KC_INVALID_ARGUMENT && kc_intersection_result_with(&i, 2, &d) == KC_INVALID_ARGUMENT && d.object == NULL);
    WANT(kc_union_result_with(&u, 0, &c) == KC_INVALID_ARGUMENT && kc_intersection_result_with(&i, 0, &c) == KC_INVALID_ARGUMENT);
    WANT(kc_union_result_with(&u, 0, &d) == KC_OK && !is_ordered(&d) && kc_union_result(&u, &e) == KC_OK && is_ordered(&e) && have_same_hashes(&d, &e));
    WANT(kc_union_result_with(&u, 1, &d) == KC_OK && is_ordered(&d) && kc_union_result(&u, &e) == KC_OK && have_same_hashes(&d, &e));
    WANT(kc_intersection_result_with(&i, 0, &d) == KC_OK && kc_intersection_result(&i, &e) == KC_OK && is_ordered(&e) && have_same_hashes(&d, &e));
    WANT(kc_intersection_result_with(&i, 1, &d) == KC_OK && is_ordered(&d) && kc_intersection_result(&i, &e) == KC_OK && have_same_hashes(&d, &e));
    /* differences: that of sketches that take updates is that of their compact forms; the first's order is kept */
    WANT(kc_theta_compact(&few, &f) == KC_OK && kc_difference_with(&c, &f, SEED, 2, &d) == KC_INVALID_ARGUMENT && d.object == NULL);
    WANT(kc_difference_with(&c, &f, SEED, 0, &d) == KC_OK && !is_ordered(&d) && state_of(&d).retained > 0 && kc_difference(&c, &f, SEED, &e) == KC_OK && is_ordered(&e) && have_same_hashes(&d, &e));
    WANT(kc_difference_with(&c, &f, SEED, 1, &d) == KC_OK && is_ordered(&d) && kc_theta_difference(&s, &few, SEED, &e) == KC_OK && is_ordered(&e) && have_same_hashes(&d, &e));
    WANT(kc_difference_with(&f, &c, SEED, 0, &d) == KC_OK && is_ordered(&d) && kc_theta_difference(&few, &s, SEED, &e) == KC_OK && have_same_hashes(&d, &e));
    WANT(kc_difference_with(&f, &c, SEED + 1, 0, &d) == KC_INVALID_ARGUMENT && kc_difference_with(&f, &c, 50541, 0, &d) == KC_INVALID_ARGUMENT && kc_difference_with(&f, &d, SEED, 0, &e) == KC_INVALID_ARGUMENT);
    WANT(kc_theta_difference(&s, &few, SEED + 1, &d) == KC_INVALID_ARGUMENT && kc_theta_difference(&s, &few, 50541, &d) == KC_INVALID_ARGUMENT && d.object == NULL);
    WANT(kc_theta_difference(&s, &none, SEED, &d) == KC_INVALID_ARGUMENT && kc_theta_difference(&none, &s, SEED, &d) == KC_INVALID_ARGUMENT && kc_theta_difference(NULL, &s, SEED, &d) == KC_INVALID_ARGUMENT);
    WANT(kc_theta_difference(&s, &s, SEED, &d) == KC_OK && state_of(&d).retained == 0 && kc_theta_difference(&s, &few, SEED, &d) == KC_INVALID_ARGUMENT && kc_compact_free(&d) == KC_OK);
    /* seed hashes: that of the default seed is 0x93cc, and that of 50541 is 0 */
    WANT(kc_seed_hash(SEED, &hash) == KC_OK && hash == 0x93cc && kc_compact_seed_hash(&c, &hash) == KC_OK && hash == 0x93cc);
    WANT(kc_seed_hash(50541, &hash) == KC_INVALID_ARGUMENT && kc_compact_seed_hash(&d, &hash) == KC_INVALID_ARGUMENT && kc_compact_is_ordered(&d, &hash) == KC_INVALID_ARGUMENT && hash == 0x93cc);
    WANT(kc_seed_hash(SEED, NULL) == KC_INVALID_ARGUMENT && kc_compact_seed_hash(&c, NULL) == KC_INVALID_ARGUMENT && kc_compact_is_ordered(&c, NULL) == KC_INVALID_ARGUMENT);
    /* 2^13 slots, and a list of hashes; the hashes of the second form share paths, so this union has lists until it is reset */
    WANT(kc_theta_estimated_size(&s, &bytes) == KC_OK && bytes == 8 << 13);
    WANT(kc_union_estimated_size(&u, &bytes) == KC_OK && bytes > 8 * 4096 && bytes < 8 << 13 && bytes % 8 == 0);
    WANT(kc_union_reset(&u) == KC_OK && kc_theta_compact(&s, &d) == KC_OK && kc_union_add_compact(&u, &d) == KC_OK && kc_compact_free(&d) == KC_OK);
    WANT(kc_union_estimated_size(&u, &bytes) == KC_OK && bytes == 8 << 13);
    WANT(kc_compact_estimated_size(&c, &bytes) == KC_OK && bytes == 8 * state_of(&c).retained && kc_intersection_result(&i, &d) == KC_OK);
    WANT(kc_intersection_estimated_size(&i, &bytes) == KC_OK && bytes == 8 * state_of(&d).retained && kc_compact_free(&d) == KC_OK && kc_intersection_free(&i) == KC_OK);
    WANT(kc_intersection_new(&i, SEED) == KC_OK && kc_intersection_estimated_size(&i, &bytes) == KC_OK && bytes == 0);
    bytes = 7;
    WANT(kc_theta_estimated_size(&none, &bytes) == KC_INVALID_ARGUMENT && kc_compact_estimated_size(&d, &bytes) == KC_INVALID_ARGUMENT && kc_theta_estimated_size(&s, NULL) == KC_INVALID_ARGUMENT && bytes == 7);
    WANT(kc_union_free(&u) == KC_OK && kc_intersection_free(&i) == KC_OK && kc_union_estimated_size(&u, &bytes) == KC_INVALID_ARGUMENT && kc_intersection_estimated_size(&i, &bytes) == KC_INVALID_ARGUMENT);
    WANT(bytes == 7 && kc_union_result_with(&u, 0, &d) == KC_INVALID_ARGUMENT && kc_intersection_result_with(&i, 0, &d) == KC_INVALID_ARGUMENT && d.object == NULL);
    kc_theta_free(&s), kc_theta_free(&few), kc_compact_free(&c), kc_compact_free(&f);
}

static void texts_in_pieces(void) {
    static const char text[] = "ann\nbob\n\nann\r\na line that is longer than the thirty-two bytes which are hashed at once\nbob\n\xff\0\nlast";
    static const struct { const char *line; size_t count; } lines[] = {
        {"ann", 3}, {"bob", 3}, {"", 0}, {"ann\r", 4}, {"a line that is longer than the thirty-two bytes which are hashed at once", 72}, {"\xff\0", 2}, {"last", 4}};
    kc_theta s = {0}, wanted = {0}, other = {0};
    kc_text t = {0}, none = {0};
    uint64_t length = 0, wanted_length = 0;
    WANT(kc_theta_new(&wanted, 12, SEED) == KC_OK && kc_text_new(&t, SEED) == KC_OK && kc_text_new(&t, SEED) == KC_INVALID_ARGUMENT);
    for (size_t n = 0; n < sizeof lines / sizeof *lines; n++) WANT(kc_theta_update_bytes(&wanted, lines[n].line, lines[n].count) == KC_OK);
    WANT(kc_theta_image(&wanted, a_image, sizeof a_image, &wanted_length) == KC_OK && wanted_length > 8 * 7);
    for (size_t size = 1; size <= sizeof text; size++) {
        WANT(kc_theta_new(&s, 12, SEED) == KC_OK);
        for (size_t at = 0; at < sizeof text - 1; at += size)
            WANT(kc_theta_update_text(&s, &t, text + at, at + size < sizeof text - 1 ? size : sizeof text - 1 - at) == KC_OK);
        WANT(kc_theta_update_text(&s, &t, NULL, 0) == KC_OK && kc_theta_end_text(&s, &t) == KC_OK);
        WANT(kc_theta_image(&s, out, sizeof out, &length) == KC_OK && length == wanted_length && memcmp(out, a_image, length) == 0);
        kc_theta_free(&s);
    }
    /* an ended text of no bytes, or of whole lines, has no more line */
    kc_state st;
    WANT(kc_theta_new(&s, 12, SEED) == KC_OK && kc_theta_end_text(&s, &t) == KC_OK && kc_theta_state(&s, &st) == KC_OK && st.empty == 1);
    WANT(kc_theta_update_text(&s, &t, "ann\n", 4) == KC_OK && kc_theta_end_text(&s, &t) == KC_OK && kc_theta_state(&s, &st) == KC_OK && st.retained == 1);
    /* another seed, handles without an object, null */
    WANT(kc_theta_new(&other, 12, 123) == KC_OK && kc_theta_update_text(&other, &t, "bob", 3) == KC_INVALID_ARGUMENT && kc_theta_end_text(&other, &t) == KC_INVALID_ARGUMENT);
    WANT(kc_theta_end_text(&s, &t) == KC_OK && kc_theta_state(&s, &st) == KC_OK && st.retained == 1);
    WANT(kc_theta_update_text(&s, &none, "bob", 3) == KC_INVALID_ARGUMENT && kc_theta_end_text(&s, &none) == KC_INVALID_ARGUMENT);
    WANT(kc_theta_free(&s) == KC_OK && kc_theta_update_text(&s, &t, "bob", 3) == KC_INVALID_ARGUMENT && kc_theta_end_text(&s, &t) == KC_INVALID_ARGUMENT);
    WANT(kc_theta_update_text(NULL, &t, "bob", 3) == KC_INVALID_ARGUMENT && kc_theta_update_text(&other, NULL, "bob", 3) == KC_INVALID_ARGUMENT);
    WANT(kc_theta_update_text(&other, &t, NULL, 3) == KC_INVALID_ARGUMENT && kc_theta_end_text(NULL, &t) == KC_INVALID_ARGUMENT && kc_theta_end_text(&other, NULL) == KC_INVALID_ARGUMENT);
    WANT(kc_text_free(&t) == KC_OK && kc_text_free(&t) == KC_OK && t.object == NULL && kc_text_free(NULL) == KC_INVALID_ARGUMENT && kc_text_new(NULL, SEED) == KC_INVALID_ARGUMENT);
    kc_theta_free(&other), kc_theta_free(&wanted);
}

static void sums(void) {
    kc_sums s = {0};
    kc_state st;
    uint64_t length = 0, total = 0, hash = 0;
    const unsigned char five[8] = {5};
    WANT(kc_sums_new(&s, 12, SEED) == KC_OK && kc_sums_new(&s, 12, SEED) == KC_INVALID_ARGUMENT);
    for (uint64_t n = 0; n < 3000; n++) {
        WANT(kc_hash_u64(SEED, n % 1000, &hash) == KC_OK && kc_sums_add_hash(&s, hash, n) == KC_OK);
    }
    WANT(kc_sums_state(&s, &st) == KC_OK && st.retained == 1000 && st.theta == KC_MAX_THETA && st.empty == 0);
    WANT(kc_sums_add_bytes(&s, five, 8, UINT64_MAX) == KC_POLICY && kc_sums_add_bytes(&s, five, 8, 0) == KC_OK);
    WANT(kc_sums_image(&s, NULL, 0, &length) == KC_TOO_SMALL && length == 16 + 16 * 1000);
    WANT(kc_sums_image(&s, out, length, &length) == KC_OK && out[2] == 9);
    for (int n = 0; n < 1000; n++) {
        uint64_t sum;
        memcpy(&sum, out + 24 + 16 * n, 8);
        total += sum;
    }
    WANT(total == 2999u * 3000u / 2);
    WANT(kc_sums_trim(&s) == KC_OK && kc_sums_reset(&s) == KC_OK && kc_sums_state(&s, &st) == KC_OK && st.empty == 1);
    WANT(kc_sums_free(&s) == KC_OK && kc_sums_add_hash(&s, 1, 1) == KC_INVALID_ARGUMENT && kc_sums_add_bytes(&s, NULL, 0, 1) == KC_INVALID_ARGUMENT);
    WANT(kc_sums_trim(&s) == KC_INVALID_ARGUMENT && kc_sums_reset(&s) == KC_INVALID_ARGUMENT && kc_sums_state(&s, &st) == KC_INVALID_ARGUMENT);
    WANT(kc_sums_image(&s, out, sizeof out, &length) == KC_INVALID_ARGUMENT);
}

/* The value n added for each number n from `first` on, `count` of them. */
static void values(kc_sums *sketch, uint64_t first, uint64_t count) {
    for (uint64_t n = first; n < first + count; n++) WANT(kc_sums_add_u64(sketch, n, n) == KC_OK);
}

static uint64_t hashes[8192], counted[8192];

/* Many values at a call are those of one call after another, up to the first that is refused. */
static void many_values(void) {
    kc_sums s = {0}, same = {0}, none = {0};
    kc_wide total = {7, 7};
    uint64_t added = 9, length = 0;
    WANT(kc_sums_new(&s, 5, SEED) == KC_OK && kc_sums_new(&same, 5, SEED) == KC_OK);
    for (uint64_t n = 0; n < 3000; n++) {
        WANT(kc_hash_u64(SEED, n % 1000, &hashes[n]) == KC_OK);
        counted[n] = n;
        WANT(kc_sums_add_hash(&same, hashes[n], n) == KC_OK);
    }
    WANT(kc_sums_add_hashes(&s, hashes, 3000, counted, 3000, &added) == KC_OK && added == 3000);
    WANT(kc_sums_image(&s, a_image, sizeof a_image, &a_length) == KC_OK && kc_sums_image(&same, b_image, sizeof b_image, &b_length) == KC_OK);
    WANT(a_length == b_length && a_length > 24 && memcmp(a_image, b_image, a_length) == 0);
    WANT(kc_sums_add_hashes(&s, hashes, 2, counted, 3, &added) == KC_INVALID_ARGUMENT && added == 0);
    WANT(kc_sums_add_hashes(&s, hashes, 3, counted, 2, &added) == KC_INVALID_ARGUMENT && kc_sums_add_hashes(&s, NULL, 0, NULL, 0, &added) == KC_OK && added == 0);
    WANT(kc_sums_image(&s, out, sizeof out, &length) == KC_OK && length == a_length && memcmp(a_image, out, length) == 0);
    /* 5, 6, then one too many at the first hash */
    WANT(kc_sums_reset(&s) == KC_OK && kc_sums_reset(&same) == KC_OK && kc_sums_total(&s, &total) == KC_OK && total.low == 0);
    hashes[2] = hashes[0], counted[0] = 5, counted[1] = 6, counted[2] = UINT64_MAX - 4, counted[3] = 1;
    WANT(kc_sums_add_hashes(&s, hashes, 4, counted, 4, &added) == KC_POLICY && added == 2);
    WANT(kc_sums_add_hash(&same, hashes[0], 5) == KC_OK && kc_sums_add_hash(&same, hashes[1], 6) == KC_OK);
    WANT(kc_sums_image(&s, a_image, sizeof a_image, &a_length) == KC_OK && kc_sums_image(&same, b_image, sizeof b_image, &b_length) == KC_OK);
    WANT(a_length == b_length && memcmp(a_image, b_image, a_length) == 0);
    /* "ann", "", "bob", "ann" */
    const uint64_t ends[] = {3, 3, 6, 9}, past[] = {3, 7}, turned[] = {3, 2}, amounts[] = {1, 10, 100, 1000};
    WANT(kc_sums_reset(&s) == KC_OK && kc_sums_reset(&same) == KC_OK);
    WANT(kc_sums_add_strings(&s, "annbobann", 9, ends, 4, amounts, 4, &added) == KC_OK && added == 4);
    WANT(kc_sums_add_bytes(&same, "ann", 3, 1001) == KC_OK && kc_sums_add_bytes(&same, "bob", 3, 100) == KC_OK && kc_sums_add_bytes(&same, "", 0, 10) == KC_OK);
    WANT(kc_sums_image(&s, a_image, sizeof a_image, &a_length) == KC_OK && kc_sums_image(&same, b_image, sizeof b_image, &b_length) == KC_OK);
    WANT(a_length == b_length && memcmp(a_image, b_image, a_length) == 0);
    WANT(kc_sums_add_strings(&s, "annbob", 6, past, 2, amounts, 2, &added) == KC_INVALID_ARGUMENT && added == 0);
    added = 9;
    WANT(kc_sums_add_strings(&s, "annbob", 6, turned, 2, amounts, 2, &added) == KC_INVALID_ARGUMENT && added == 0);
    WANT(kc_sums_add_strings(&s, "annbob", 6, ends, 3, amounts, 4, &added) == KC_INVALID_ARGUMENT && added == 0);
    added = 9;
    WANT(kc_sums_add_strings(&s, NULL, 6, ends, 3, amounts, 3, &added) == KC_INVALID_ARGUMENT && kc_sums_add_strings(&s, "", 0, ends, 0, NULL, 1, &added) == KC_INVALID_ARGUMENT);
    WANT(kc_sums_add_hashes(&none, hashes, 1, counted, 1, &added) == KC_INVALID_ARGUMENT && kc_sums_add_hashes(&s, hashes, 1, counted, 1, NULL) == KC_INVALID_ARGUMENT);
    WANT(kc_sums_add_strings(&none, "", 0, ends, 0, amounts, 0, &added) == KC_INVALID_ARGUMENT && added == 9);
    WANT(kc_sums_image(&s, out, sizeof out, &length) == KC_OK && length == a_length && memcmp(a_image, out, length) == 0);
    WANT(kc_sums_free(&s) == KC_OK && kc_sums_free(&same) == KC_OK);
}

static void compact_sums(void) {
    kc_sums s = {0}, none = {0}, copy = {0};
    kc_compact_sums c = {0}, d = {0};
    kc_state st, same;
    kc_wide total = {7, 7};
    uint64_t length = 0, count = 9;
    WANT(kc_sums_new_with(&s, 12, SEED, 5, KC_MAX_THETA) == KC_INVALID_ARGUMENT && kc_sums_new_with(&s, 12, SEED, 1, KC_MAX_THETA) == KC_OK);
    values(&s, 0, 1000);
    WANT(kc_sums_total(&s, &total) == KC_OK && total.low == 999 * 1000 / 2 && total.high == 0);
    WANT(kc_sums_compact(&s, &c) == KC_OK && kc_sums_compact(&s, &c) == KC_INVALID_ARGUMENT);
    WANT(kc_sums_state(&s, &st) == KC_OK && kc_compact_sums_state(&c, &same) == KC_OK && memcmp(&st, &same, sizeof st) == 0);
    WANT(kc_sums_image(&s, a_image, sizeof a_image, &a_length) == KC_OK && kc_compact_sums_image(&c, NULL, 0, &length) == KC_TOO_SMALL && length == a_length);
    WANT(kc_compact_sums_image(&c, out, sizeof out, &length) == KC_OK && length == a_length && memcmp(a_image, out, length) == 0);
    hashes[0] = counted[0] = 7;
    WANT(kc_compact_sums_entries(&c, NULL, NULL, 0, &count) == KC_TOO_SMALL && count == 1000);
    WANT(kc_compact_sums_entries(&c, hashes, counted, 999, &count) == KC_TOO_SMALL && count == 1000 && hashes[0] == 7 && counted[0] == 7);
    WANT(kc_compact_sums_entries(&c, hashes, counted, 8192, &count) == KC_OK && count == 1000);
    uint64_t sum = 0;
    for (uint64_t n = 0; n < count; n++) {
        WANT(n == 0 || hashes[n - 1] < hashes[n]);
        WANT(memcmp(a_image + 16 + 16 * n, &hashes[n], 8) == 0 && memcmp(a_image + 24 + 16 * n, &counted[n], 8) == 0);
        sum += counted[n];
    }
    WANT(sum == 999 * 1000 / 2 && kc_compact_sums_total(&c, &total) == KC_OK && total.low == sum && total.high == 0);
    /* those of the sketch that takes updates, in some order */
    static uint64_t listed[8192], sums_listed[8192];
    WANT(kc_sums_entries(&s, listed, sums_listed, 999, &count) == KC_TOO_SMALL && count == 1000 && listed[0] == 0);
    WANT(kc_sums_entries(&s, listed, sums_listed, 8192, &count) == KC_OK && count == 1000 && listed[1000] == 0);
    for (uint64_t n = 0, m; n < count; n++) {
        for (m = 0; m < count && hashes[m] != listed[n]; m++) {}
        WANT(m < count && counted[m] == sums_listed[n]);
    }
    qsort(listed, count, sizeof *listed, by_number);
    WANT(memcmp(listed, hashes, count * sizeof *listed) == 0);
    count = 9;
    WANT(kc_sums_entries(&none, listed, sums_listed, 8192, &count) == KC_INVALID_ARGUMENT && count == 9 && kc_sums_entries(&s, listed, listed, 8192, &count) == KC_INVALID_ARGUMENT);
    count = 1000;
    WANT(kc_compact_sums_entries(&c, hashes, hashes, 8192, &count) == KC_INVALID_ARGUMENT && kc_compact_sums_entries(&c, NULL, counted, 8192, &count) == KC_INVALID_ARGUMENT);
    WANT(kc_compact_sums_clone(&c, &d) == KC_OK && kc_compact_sums_clone(&c, &d) == KC_INVALID_ARGUMENT && kc_compact_sums_clone(&d, &d) == KC_INVALID_ARGUMENT);
    WANT(kc_compact_sums_image(&d, out, sizeof out, &length) == KC_OK && length == a_length && memcmp(a_image, out, length) == 0 && kc_compact_sums_free(&d) == KC_OK);
    WANT(kc_compact_sums_clone(&d, &d) == KC_INVALID_ARGUMENT);
    WANT(kc_compact_sums_read(&d, a_image, a_length - 1, SEED) == KC_INVALID_DATA && kc_compact_sums_read(&d, a_image, a_length, SEED + 1) == KC_INVALID_DATA);
    WANT(kc_compact_sums_read(&d, NULL, 5, SEED) == KC_INVALID_ARGUMENT && kc_compact_sums_read(&d, NULL, 0, SEED) == KC_INVALID_DATA && d.object == NULL);
    WANT(kc_compact_sums_read(&d, a_image, a_length, SEED) == KC_OK && kc_compact_sums_read(&d, a_image, a_length, SEED) == KC_INVALID_ARGUMENT);
    WANT(kc_compact_sums_image(&d, out, sizeof out, &length) == KC_OK && length == a_length && memcmp(a_image, out, length) == 0);
    WANT(kc_compact_sums_free(&d) == KC_OK && d.object == NULL && kc_compact_sums_state(&d, &st) == KC_INVALID_ARGUMENT);
    count = 9, total.low = 7;
    WANT(kc_compact_sums_entries(&d, hashes, counted, 8192, &count) == KC_INVALID_ARGUMENT && count == 9);
    WANT(kc_compact_sums_total(&d, &total) == KC_INVALID_ARGUMENT && kc_sums_total(&none, &total) == KC_INVALID_ARGUMENT && total.low == 7);
    WANT(kc_sums_compact(&none, &d) == KC_INVALID_ARGUMENT && kc_sums_add_u64(&none, 1, 1) == KC_INVALID_ARGUMENT && kc_compact_sums_image(&d, out, 1, &length) == KC_INVALID_ARGUMENT);
    /* a copy has the same image, and what is added to one is not in the other */
    WANT(kc_sums_clone(&s, &copy) == KC_OK && kc_sums_clone(&s, &copy) == KC_INVALID_ARGUMENT && kc_sums_clone(&s, &s) == KC_INVALID_ARGUMENT);
    WANT(kc_sums_clone(&none, &s) == KC_INVALID_ARGUMENT && kc_sums_clone(&s, NULL) == KC_INVALID_ARGUMENT);
    WANT(kc_sums_image(&copy, out, sizeof out, &length) == KC_OK && length == a_length && memcmp(a_image, out, length) == 0);
    WANT(kc_sums_add_u64(&copy, 5, 1) == KC_OK && kc_sums_total(&copy, &total) == KC_OK && total.low == 999 * 1000 / 2 + 1 && total.high == 0);
    WANT(kc_sums_total(&s, &total) == KC_OK && total.low == 999 * 1000 / 2 && kc_sums_free(&copy) == KC_OK && copy.object == NULL);
    /* sums of 2^64 - 1 add up past 64 bits */
    WANT(kc_sums_reset(&s) == KC_OK && kc_sums_add_u64(&s, 1, UINT64_MAX) == KC_OK && kc_sums_add_u64(&s, 2, UINT64_MAX) == KC_OK);
    WANT(kc_sums_total(&s, &total) == KC_OK && total.low == UINT64_MAX - 1 && total.high == 1);
    WANT(kc_compact_sums_free(&c) == KC_OK && kc_sums_free(&s) == KC_OK);
}

static void sums_unions(void) {
    kc_sums a = {0}, b = {0}, other = {0}, none = {0};
    kc_compact_sums cb = {0}, r = {0}, no_compact = {0};
    kc_sums_union u = {0};
    kc_state st;
    kc_wide total = {0, 0};
    uint64_t length = 0, united = 5;
    char text[64];
    WANT(kc_sums_new(&a, 12, SEED) == KC_OK && kc_sums_new(&b, 12, SEED) == KC_OK && kc_sums_new(&other, 12, SEED + 1) == KC_OK);
    values(&a, 0, 2000), values(&b, 1000, 2000), values(&other, 1, 1);
    WANT(kc_sums_compact(&b, &cb) == KC_OK && kc_sums_image(&a, a_image, sizeof a_image, &a_length) == KC_OK);
    WANT(kc_sums_union_new(&u, 27, SEED) == KC_INVALID_ARGUMENT && kc_sums_union_new(NULL, 12, SEED) == KC_INVALID_ARGUMENT && u.object == NULL);
    WANT(kc_sums_union_new(&u, 12, SEED) == KC_OK && kc_sums_union_new(&u, 12, SEED) == KC_INVALID_ARGUMENT);
    WANT(kc_sums_union_result(&u, &r) == KC_OK && kc_compact_sums_state(&r, &st) == KC_OK && st.empty == 1 && kc_compact_sums_free(&r) == KC_OK);
    WANT(kc_sums_union_add(&u, &a) == KC_OK && kc_sums_union_add_compact(&u, &cb) == KC_OK && kc_sums_union_add_image(&u, a_image, a_length) == KC_OK);
    WANT(kc_sums_union_add(&u, &other) == KC_INVALID_ARGUMENT && kc_sums_union_add_image(&u, a_image, 9) == KC_INVALID_DATA);
    WANT(kc_sums_union_add(&u, &none) == KC_INVALID_ARGUMENT && kc_sums_union_add_compact(&u, &no_compact) == KC_INVALID_ARGUMENT && kc_sums_union_add_image(&u, NULL, 9) == KC_INVALID_ARGUMENT);
    WANT(kc_sums_union_result(&u, &r) == KC_OK && kc_sums_union_result(&u, &r) == KC_INVALID_ARGUMENT);
    /* 3000 numbers: those of a twice, and those of b once */
    WANT(kc_compact_sums_state(&r, &st) == KC_OK && st.retained == 3000 && st.theta == KC_MAX_THETA && kc_compact_sums_total(&r, &total) == KC_OK);
    WANT(total.high == 0 && total.low == 2 * (1999 * 2000 / 2) + (2999 * 3000 / 2 - 999 * 1000 / 2));
    WANT(kc_total_text(&total, st.theta, 1, text, sizeof text, &length) == KC_OK && length == 9 && memcmp(text, "7997000.0", 9) == 0);
    WANT(kc_sums_union_image(&u, NULL, 0, &united) == KC_TOO_SMALL && kc_compact_sums_image(&r, b_image, sizeof b_image, &length) == KC_OK && united == length);
    WANT(kc_sums_union_image(&u, out, united, &united) == KC_OK && memcmp(out, b_image, united) == 0 && kc_compact_sums_free(&r) == KC_OK);
    /* a sum of 2^64: the union has failed, whatever comes then, until it is reset */
    WANT(kc_sums_add_u64(&a, 1500, UINT64_MAX - 1500) == KC_OK && kc_sums_union_add(&u, &a) == KC_POLICY && kc_sums_union_add_compact(&u, &cb) == KC_FAILED);
    WANT(kc_sums_union_result(&u, &r) == KC_FAILED && kc_sums_union_image(&u, out, sizeof out, &united) == KC_FAILED && r.object == NULL);
    WANT(kc_sums_union_reset(&u) == KC_OK && kc_sums_union_add(&u, &a) == KC_OK && kc_sums_union_result(&u, &r) == KC_OK);
    WANT(kc_compact_sums_total(&r, &total) == KC_OK && total.high == 1 && kc_compact_sums_free(&r) == KC_OK);
    WANT(kc_sums_union_free(&u) == KC_OK && kc_sums_union_add(&u, &a) == KC_INVALID_ARGUMENT && kc_sums_union_add_image(&u, a_image, a_length) == KC_INVALID_ARGUMENT);
    WANT(kc_sums_union_reset(&u) == KC_INVALID_ARGUMENT && kc_sums_union_result(&u, &r) == KC_INVALID_ARGUMENT && kc_sums_union_image(&u, out, sizeof out, &united) == KC_INVALID_ARGUMENT);
    kc_sums_free(&a), kc_sums_free(&b), kc_sums_free(&other), kc_compact_sums_free(&cb);
}

/* The sum that a compact sketch has for a number, or 0 if it doesn't retain its hash. */
static uint64_t sum_of(kc_compact_sums *sketch, uint64_t number) {
    uint64_t hash = 0, count = 0;
    WANT(kc_hash_u64(SEED, number, &hash) == KC_OK && kc_compact_sums_entries(sketch, hashes, counted, 8192, &count) == KC_OK);
    for (uint64_t n = 0; n < count; n++) if (hashes[n] == hash) return counted[n];
    return 0;
}

static void sums_intersections(void) {
    kc_sums a = {0}, b = {0}, other = {0}, empty = {0}, none = {0};
    kc_compact_sums ca = {0}, cb = {0}, r = {0}, no_compact = {0};
    kc_sums_intersection i = {0};
    kc_state st;
    uint64_t length = 0, met = 0;
    WANT(kc_sums_new(&a, 12, SEED) == KC_OK && kc_sums_new(&b, 12, SEED) == KC_OK && kc_sums_new(&other, 12, SEED + 1) == KC_OK && kc_sums_new(&empty, 12, SEED + 1) == KC_OK);
    values(&a, 0, 2000), values(&b, 1000, 2000), values(&other, 1, 1);
    WANT(kc_sums_compact(&a, &ca) == KC_OK && kc_sums_compact(&b, &cb) == KC_OK && kc_sums_image(&a, a_image, sizeof a_image, &a_length) == KC_OK);
    /* the hash of the seed 50541 is 0 */
    WANT(kc_sums_intersection_new(&i, 50541) == KC_INVALID_ARGUMENT && kc_sums_intersection_new(NULL, SEED) == KC_INVALID_ARGUMENT && i.object == NULL);
    WANT(kc_sums_intersection_add(&i, &a) == KC_INVALID_ARGUMENT && kc_sums_intersection_add_compact(&i, &ca) == KC_INVALID_ARGUMENT);
    WANT(kc_sums_intersection_add_image(&i, a_image, a_length) == KC_INVALID_ARGUMENT && kc_sums_intersection_result(&i, &r) == KC_INVALID_ARGUMENT);
    WANT(kc_sums_intersection_new(&i, SEED) == KC_OK && kc_sums_intersection_new(&i, SEED) == KC_INVALID_ARGUMENT);
    WANT(kc_sums_intersection_result(&i, &r) == KC_INVALID_ARGUMENT && r.object == NULL);
    WANT(kc_sums_intersection_add(&i, &a) == KC_OK && kc_sums_intersection_result(&i, &r) == KC_OK && kc_sums_intersection_result(&i, &r) == KC_INVALID_ARGUMENT);
    WANT(kc_compact_sums_image(&r, out, sizeof out, &length) == KC_OK && length == a_length && memcmp(out, a_image, length) == 0 && kc_compact_sums_free(&r) == KC_OK);
    WANT(kc_sums_intersection_add_compact(&i, &cb) == KC_OK && kc_sums_intersection_add_image(&i, a_image, a_length) == KC_OK);
    WANT(kc_sums_intersection_add(&i, &other) == KC_INVALID_ARGUMENT && kc_sums_intersection_add_image(&i, a_image, 9) == KC_INVALID_DATA);
    WANT(kc_sums_intersection_add(&i, &none) == KC_INVALID_ARGUMENT && kc_sums_intersection_add_compact(&i, &no_compact) == KC_INVALID_ARGUMENT);
    WANT(kc_sums_intersection_add(NULL, &a) == KC_INVALID_ARGUMENT && kc_sums_intersection_add(&i, NULL) == KC_INVALID_ARGUMENT && kc_sums_intersection_add_compact(&i, NULL) == KC_INVALID_ARGUMENT);
    WANT(kc_sums_intersection_add_image(&i, NULL, 9) == KC_INVALID_ARGUMENT && kc_sums_intersection_add_image(&i, NULL, 0) == KC_INVALID_DATA && kc_sums_intersection_result(&i, NULL) == KC_INVALID_ARGUMENT);
    /* the numbers from 1000 to 1999: each in a, in b and in a again */
    WANT(kc_sums_intersection_result(&i, &r) == KC_OK && kc_compact_sums_state(&r, &st) == KC_OK && st.retained == 1000 && st.theta == KC_MAX_THETA && st.empty == 0);
    for (uint64_t n = 1000; n < 2000; n++) WANT(sum_of(&r, n) == 3 * n);
    WANT(kc_compact_sums_image(&r, b_image, sizeof b_image, &met) == KC_OK && kc_compact_sums_free(&r) == KC_OK);
    /* a sum of 2^64 is refused, and nothing has changed; a hash that isn't shared may have any sum */
    WANT(kc_sums_add_u64(&b, 1500, UINT64_MAX - 6000 + 1) == KC_OK && kc_sums_compact(&b, &r) == KC_OK && kc_sums_image(&b, out, sizeof out, &length) == KC_OK);
    WANT(kc_sums_intersection_add(&i, &b) == KC_POLICY && kc_sums_intersection_add_compact(&i, &r) == KC_POLICY && kc_sums_intersection_add_image(&i, out, length) == KC_POLICY);
    WANT(kc_compact_sums_free(&r) == KC_OK && kc_sums_intersection_result(&i, &r) == KC_OK && kc_compact_sums_image(&r, out, sizeof out, &length) == KC_OK);
    WANT(length == met && memcmp(out, b_image, met) == 0 && kc_compact_sums_free(&r) == KC_OK);
    WANT(kc_sums_add_u64(&a, 1500, UINT64_MAX - 6000) == KC_OK && kc_sums_add_u64(&a, 7, UINT64_MAX - 7) == KC_OK && kc_sums_intersection_add(&i, &a) == KC_OK);
    WANT(kc_sums_intersection_result(&i, &r) == KC_OK && sum_of(&r, 1500) == UINT64_MAX && sum_of(&r, 1501) == 4 * 1501 && sum_of(&r, 7) == 0 && kc_compact_sums_free(&r) == KC_OK);
    /* empty for good after an empty sketch, of whatever seed */
    WANT(kc_sums_intersection_add(&i, &empty) == KC_OK && kc_sums_intersection_add(&i, &other) == KC_OK && kc_sums_intersection_add(&i, &b) == KC_OK);
    WANT(kc_sums_intersection_result(&i, &r) == KC_OK && kc_compact_sums_state(&r, &st) == KC_OK && st.retained == 0 && st.theta == KC_MAX_THETA && st.empty == 1);
    WANT(kc_compact_sums_free(&r) == KC_OK && kc_sums_intersection_free(&i) == KC_OK && i.object == NULL && kc_sums_intersection_free(&i) == KC_OK && kc_sums_intersection_free(NULL) == KC_INVALID_ARGUMENT);

    WANT(kc_sums_difference(&ca, &cb, SEED, &r) == KC_OK && kc_sums_difference(&ca, &cb, SEED, &r) == KC_INVALID_ARGUMENT);
    WANT(kc_compact_sums_state(&r, &st) == KC_OK && st.retained == 1000 && st.theta == KC_MAX_THETA && st.empty == 0);
    for (uint64_t n = 1; n < 1000; n++) WANT(sum_of(&r, n) == n);
    WANT(sum_of(&r, 1000) == 0 && kc_compact_sums_free(&r) == KC_OK);
    WANT(kc_sums_difference(&cb, &ca, SEED, &r) == KC_OK && sum_of(&r, 999) == 0 && sum_of(&r, 1999) == 0 && sum_of(&r, 2000) == 2000 && kc_compact_sums_free(&r) == KC_OK);
    WANT(kc_sums_difference(&ca, &cb, SEED + 1, &r) == KC_INVALID_ARGUMENT && kc_sums_difference(&ca, &cb, 50541, &r) == KC_INVALID_ARGUMENT && r.object == NULL);
    WANT(kc_sums_difference(&ca, &r, SEED, &r) == KC_INVALID_ARGUMENT && kc_sums_difference(&r, &ca, SEED, &r) == KC_INVALID_ARGUMENT);
    WANT(kc_sums_difference(&ca, &ca, SEED, &r) == KC_OK && sum_of(&r, 999) == 0 && kc_compact_sums_free(&r) == KC_OK);
    WANT(kc_sums_difference(&ca, &no_compact, SEED, &r) == KC_INVALID_ARGUMENT && kc_sums_difference(&no_compact, &ca, SEED, &r) == KC_INVALID_ARGUMENT && r.object == NULL);
    WANT(kc_sums_difference(NULL, &ca, SEED, &r) == KC_INVALID_ARGUMENT && kc_sums_difference(&ca, NULL, SEED, &r) == KC_INVALID_ARGUMENT && kc_sums_difference(&ca, &cb, SEED, NULL) == KC_INVALID_ARGUMENT);
    kc_sums_free(&a), kc_sums_free(&b), kc_sums_free(&other), kc_sums_free(&empty), kc_compact_sums_free(&ca), kc_compact_sums_free(&cb);
}

/* Sums, least and greatest numbers: sketches, unions and intersections of each mode. */
static void modes(void) {
    /* the number of key 5: of its values 3 and 9, of a copy that gets 1 too, and with a sketch that has 7 there */
    static const uint64_t in_sketch[3] = {12, 3, 9}, in_copy[3] = {13, 1, 9}, in_both[3] = {19, 3, 9};
    kc_sums a = {0}, b = {0}, copy = {0};
    kc_compact_sums c = {0}, r = {0};
    kc_sums_union u = {0};
    kc_sums_intersection i = {0};
    uint64_t length = 0;
    WANT(kc_sums_new_by_mode(&a, 12, SEED, 8, KC_MAX_THETA, 3) == KC_INVALID_ARGUMENT && kc_sums_new_by_mode(&a, 12, SEED, 8, KC_MAX_THETA, 256) == KC_INVALID_ARGUMENT);
    WANT(kc_sums_new_by_mode(&a, 12, SEED, 5, KC_MAX_THETA, 1) == KC_INVALID_ARGUMENT && kc_sums_new_by_mode(&a, 27, SEED, 8, KC_MAX_THETA, 1) == KC_INVALID_ARGUMENT);
    WANT(kc_sums_new_by_mode(&a, 12, 50541, 8, KC_MAX_THETA, 1) == KC_INVALID_ARGUMENT && kc_sums_new_by_mode(&a, 12, SEED, 8, 0, 1) == KC_INVALID_ARGUMENT && a.object == NULL);
    WANT(kc_sums_union_new_by_mode(&u, 12, SEED, 8, KC_MAX_THETA, 3) == KC_INVALID_ARGUMENT && kc_sums_union_new_by_mode(&u, 12, SEED, 5, KC_MAX_THETA, 1) == KC_INVALID_ARGUMENT && u.object == NULL);
    WANT(kc_sums_intersection_new_by_mode(&i, SEED, 3) == KC_INVALID_ARGUMENT && kc_sums_intersection_new_by_mode(&i, 50541, 1) == KC_INVALID_ARGUMENT && i.object == NULL);
    WANT(kc_sums_new_by_mode(NULL, 12, SEED, 8, KC_MAX_THETA, 1) == KC_INVALID_ARGUMENT && kc_sums_union_new_by_mode(NULL, 12, SEED, 8, KC_MAX_THETA, 1) == KC_INVALID_ARGUMENT);
    WANT(kc_sums_intersection_new_by_mode(NULL, SEED, 1) == KC_INVALID_ARGUMENT);
    WANT(kc_sums_new(&b, 12, SEED) == KC_OK && kc_sums_add_u64(&b, 5, 7) == KC_OK && kc_sums_add_u64(&b, 8, 1) == KC_OK && kc_sums_image(&b, b_image, sizeof b_image, &b_length) == KC_OK);
    for (uint32_t mode = 0; mode < 3; mode++) {
        WANT(kc_sums_new_by_mode(&a, 12, SEED, 2, KC_MAX_THETA, mode) == KC_OK && kc_sums_new_by_mode(&a, 12, SEED, 2, KC_MAX_THETA, mode) == KC_INVALID_ARGUMENT);
        WANT(kc_sums_add_u64(&a, 5, 3) == KC_OK && kc_sums_add_u64(&a, 5, 9) == KC_OK && kc_sums_add_u64(&a, 6, 4) == KC_OK);
        WANT(kc_sums_compact(&a, &c) == KC_OK && sum_of(&c, 5) == in_sketch[mode] && sum_of(&c, 6) == 4);
        WANT(kc_sums_clone(&a, &copy) == KC_OK && kc_sums_add_u64(&copy, 5, 1) == KC_OK && kc_sums_compact(&copy, &r) == KC_OK);
        WANT(sum_of(&r, 5) == in_copy[mode] && kc_compact_sums_free(&r) == KC_OK && kc_sums_free(&copy) == KC_OK);
        WANT(kc_sums_union_new_by_mode(&u, 12, SEED, 8, KC_MAX_THETA, mode) == KC_OK && kc_sums_union_add_compact(&u, &c) == KC_OK && kc_sums_union_add(&u, &b) == KC_OK);
        WANT(kc_sums_union_result(&u, &r) == KC_OK && sum_of(&r, 5) == in_both[mode] && sum_of(&r, 6) == 4 && sum_of(&r, 8) == 1 && kc_compact_sums_free(&r) == KC_OK);
        WANT(kc_sums_intersection_new_by_mode(&i, SEED, mode) == KC_OK && kc_sums_intersection_add(&i, &a) == KC_OK && kc_sums_intersection_add_image(&i, b_image, b_length) == KC_OK);
        WANT(kc_sums_intersection_result(&i, &r) == KC_OK && sum_of(&r, 5) == in_both[mode] && sum_of(&r, 6) == 0 && kc_compact_sums_free(&r) == KC_OK);
        /* a sum of 2^64 or more is refused, no other number is; a sketch begins anew after a reset, a union too */
        WANT(kc_sums_add_u64(&a, 6, UINT64_MAX) == (mode == 0 ? KC_POLICY : KC_OK) && kc_sums_union_reset(&u) == KC_OK && kc_sums_union_add(&u, &b) == KC_OK);
        WANT(kc_sums_reset(&a) == KC_OK && kc_sums_add_u64(&a, 5, 9) == KC_OK && kc_sums_add_u64(&a, 5, 3) == KC_OK && kc_sums_union_add(&u, &a) == KC_OK);
        WANT(kc_sums_union_result(&u, &r) == KC_OK && sum_of(&r, 5) == in_both[mode] && sum_of(&r, 6) == 0 && kc_compact_sums_free(&r) == KC_OK);
        WANT(kc_sums_union_image(&u, out, sizeof out, &length) == KC_OK && kc_sums_union_free(&u) == KC_OK && kc_sums_intersection_free(&i) == KC_OK);
        WANT(kc_compact_sums_free(&c) == KC_OK && kc_sums_free(&a) == KC_OK);
    }
    WANT(kc_sums_free(&b) == KC_OK);
}

/* Whether two sketches have one state and the same sums, in any order. Both are freed. */
static int have_same_sums(kc_compact_sums *a, kc_compact_sums *b) {
    static uint64_t listed[8192], sums_listed[8192];
    kc_state s, t;
    uint64_t count = 0, other = 0, same = 0;
    WANT(kc_compact_sums_state(a, &s) == KC_OK && kc_compact_sums_state(b, &t) == KC_OK);
    WANT(kc_compact_sums_entries(a, listed, sums_listed, 8192, &count) == KC_OK && kc_compact_sums_entries(b, hashes, counted, 8192, &other) == KC_OK);
    for (uint64_t n = 0; n < count; n++) {
        for (uint64_t m = 0; m < other; m++) same += hashes[m] == listed[n] && counted[m] == sums_listed[n];
    }
    WANT(kc_compact_sums_free(a) == KC_OK && kc_compact_sums_free(b) == KC_OK);
    return memcmp(&s, &t, sizeof s) == 0 && count == other && same == count;
}

/* As `orders`, of sums. */
static void sums_orders(void) {
    kc_sums s = {0}, few = {0}, none = {0};
    kc_compact_sums c = {0}, d = {0}, e = {0}, f = {0};
    kc_sums_union u = {0};
    kc_sums_intersection i = {0};
    kc_state st;
    uint32_t hash = 7;
    uint64_t bytes = 7;
    WANT(kc_sums_new(&s, 10, SEED) == KC_OK && kc_sums_new(&few, 10, SEED) == KC_OK && kc_sums_union_new(&u, 10, SEED) == KC_OK && kc_sums_intersection_new(&i, SEED) == KC_OK);
    values(&s, 0, 20000), values(&few, 0, 1500);
    WANT(kc_sums_compact_with(&s, 2, &c) == KC_INVALID_ARGUMENT && kc_sums_compact_with(&none, 0, &c) == KC_INVALID_ARGUMENT && c.object == NULL);
    WANT(kc_sums_compact_with(&s, 0, &c) == KC_OK && kc_sums_compact_with(&s, 0, &c) == KC_INVALID_ARGUMENT && !are_ordered(&c));
    WANT(kc_sums_compact_with(&s, 1, &d) == KC_OK && are_ordered(&d) && kc_sums_compact(&s, &e) == KC_OK && are_ordered(&e) && have_same_sums(&d, &e));
    WANT(kc_compact_sums_clone(&c, &e) == KC_OK && !are_ordered(&e) && kc_sums_compact(&s, &d) == KC_OK && have_same_sums(&d, &e));
    WANT(kc_sums_union_add(&u, &few) == KC_OK && kc_sums_union_add_compact(&u, &c) == KC_OK && kc_sums_intersection_add(&i, &few) == KC_OK);
    WANT(kc_sums_intersection_result_with(&i, 0, &d) == KC_OK && !are_ordered(&d) && kc_compact_sums_free(&d) == KC_OK && kc_sums_intersection_add_compact(&i, &c) == KC_OK);
    WANT(kc_sums_union_result_with(&u, 2, &d) == KC_INVALID_ARGUMENT && kc_sums_intersection_result_with(&i, 2, &d) == KC_INVALID_ARGUMENT && d.object == NULL);
    WANT(kc_sums_union_result_with(&u, 0, &d) == KC_OK && !are_ordered(&d) && kc_sums_union_result(&u, &e) == KC_OK && are_ordered(&e) && have_same_sums(&d, &e));
    WANT(kc_sums_union_result_with(&u, 1, &d) == KC_OK && are_ordered(&d) && kc_sums_union_result(&u, &e) == KC_OK && have_same_sums(&d, &e));
    WANT(kc_sums_intersection_result_with(&i, 0, &d) == KC_OK && kc_sums_intersection_result(&i, &e) == KC_OK && are_ordered(&e) && have_same_sums(&d, &e));
    WANT(kc_sums_intersection_result_with(&i, 1, &d) == KC_OK && are_ordered(&d) && kc_sums_intersection_result(&i, &e) == KC_OK && have_same_sums(&d, &e));
    WANT(kc_sums_compact(&few, &f) == KC_OK && kc_sums_difference_with(&c, &f, SEED, 2, &d) == KC_INVALID_ARGUMENT && d.object == NULL);
    WANT(kc_sums_difference_with(&c, &f, SEED, 0, &d) == KC_OK && !are_ordered(&d) && kc_sums_difference(&c, &f, SEED, &e) == KC_OK && are_ordered(&e) && have_same_sums(&d, &e));
    WANT(kc_sums_difference_with(&c, &f, SEED, 1, &d) == KC_OK && are_ordered(&d) && kc_sums_updatable_difference(&s, &few, SEED, &e) == KC_OK && are_ordered(&e) && have_same_sums(&d, &e));
    WANT(kc_sums_difference_with(&f, &c, SEED, 0, &d) == KC_OK && are_ordered(&d) && kc_sums_updatable_difference(&few, &s, SEED, &e) == KC_OK && have_same_sums(&d, &e));
    WANT(kc_sums_updatable_difference(&s, &few, SEED + 1, &d) == KC_INVALID_ARGUMENT && kc_sums_updatable_difference(&s, &none, SEED, &d) == KC_INVALID_ARGUMENT && d.object == NULL);
    WANT(kc_sums_updatable_difference(&s, &s, SEED, &d) == KC_OK && kc_compact_sums_state(&d, &st) == KC_OK && st.retained == 0 && kc_compact_sums_free(&d) == KC_OK);
    WANT(kc_compact_sums_seed_hash(&c, &hash) == KC_OK && hash == 0x93cc && kc_compact_sums_seed_hash(&d, &hash) == KC_INVALID_ARGUMENT && kc_compact_sums_is_ordered(&d, &hash) == KC_INVALID_ARGUMENT && hash == 0x93cc);
    WANT(kc_sums_estimated_size(&s, &bytes) == KC_OK && bytes == 24 << 11 && kc_sums_union_estimated_size(&u, &bytes) == KC_OK && bytes == 24 << 11);
    WANT(kc_compact_sums_state(&c, &st) == KC_OK && kc_compact_sums_estimated_size(&c, &bytes) == KC_OK && bytes == 16 * st.retained);
    WANT(kc_sums_intersection_result(&i, &d) == KC_OK && kc_compact_sums_state(&d, &st) == KC_OK && kc_sums_intersection_estimated_size(&i, &bytes) == KC_OK && bytes == 16 * st.retained);
    bytes = 7;
    WANT(kc_sums_estimated_size(&none, &bytes) == KC_INVALID_ARGUMENT && kc_sums_union_free(&u) == KC_OK && kc_sums_union_estimated_size(&u, &bytes) == KC_INVALID_ARGUMENT && bytes == 7);
    WANT(kc_sums_intersection_free(&i) == KC_OK && kc_sums_intersection_estimated_size(&i, &bytes) == KC_INVALID_ARGUMENT && kc_compact_sums_free(&d) == KC_OK && kc_compact_sums_estimated_size(&d, &bytes) == KC_INVALID_ARGUMENT && bytes == 7);
    kc_sums_free(&s), kc_sums_free(&few), kc_compact_sums_free(&c), kc_compact_sums_free(&f);
}

/* A total, a theta, the number of decimals, and the estimate of the total, computed in Python. */
static const struct { kc_wide total; uint64_t theta; uint32_t places; const char *text; } totals[] = {
    {{0, 0}, KC_MAX_THETA, 2, "0.00"},
    {{12345, 0}, KC_MAX_THETA, 0, "12345"},
    {{12345, 0}, 377528331862415411, 5, "301599.95471"},
    {{UINT64_MAX, 1}, 3, 19, "113427455640312821139085915749164777472.3333333333333333333"},
    {{UINT64_MAX, 376}, 377, 3, "170141183460469231713216094464357963194.740"},
    {{7, 12}, 9223372036854775806, 19, "221360928884514619423.0000000000000000059"},
};

static void total_texts(void) {
    kc_wide whole = {7, 7};
    const kc_wide one = {1, 0}, large = {0, 5};
    uint64_t decimals = 7, length = 0;
    char text[64];
    for (size_t n = 0; n < sizeof totals / sizeof *totals; n++) {
        WANT(kc_total_text(&totals[n].total, totals[n].theta, totals[n].places, text, sizeof text, &length) == KC_OK);
        WANT(length == strlen(totals[n].text) && memcmp(text, totals[n].text, length) == 0);
    }
    text[0] = 'x';
    WANT(kc_total_text(&one, KC_MAX_THETA, 2, text, 3, &length) == KC_TOO_SMALL && length == 4 && text[0] == 'x');
    WANT(kc_total_decimal(&one, 0, 3, &whole, &decimals) == KC_INVALID_ARGUMENT && kc_total_decimal(&one, KC_MAX_THETA + 1, 3, &whole, &decimals) == KC_INVALID_ARGUMENT);
    WANT(kc_total_decimal(&large, 5, 3, &whole, &decimals) == KC_INVALID_ARGUMENT && kc_total_decimal(&large, 6, 20, &whole, &decimals) == KC_INVALID_ARGUMENT);
    WANT(whole.low == 7 && decimals == 7 && kc_total_decimal(NULL, 6, 3, &whole, &decimals) == KC_INVALID_ARGUMENT && kc_total_decimal(&whole, 6, 3, &whole, &decimals) == KC_INVALID_ARGUMENT);
    WANT(kc_total_text(NULL, 6, 3, text, sizeof text, &length) == KC_INVALID_ARGUMENT && kc_total(&large, KC_MAX_THETA) > 9.2e19);
}

/* A state, the number of decimals, and the estimate as text, computed in Python. */
static const struct { kc_state state; uint32_t places; const char *text; } texts[] = {
    {{0, KC_MAX_THETA, 1}, 0, "0"},
    {{0, KC_MAX_THETA, 1}, 2, "0.00"},
    {{2, KC_MAX_THETA, 0}, 19, "2.0000000000000000000"},
    {{1, 3, 0}, 1, "3074457345618258602.3"},
    {{4294967295, 1, 0}, 0, "39614081247908796755622232065"},
    {{4294967295, 2, 0}, 3, "19807040623954398377811116032.500"},
    {{4096, 377528331862415411, 0}, 5, "100069.13037"},
};

static void estimates(void) {
    kc_wide whole = {7, 7}, lower, upper;
    uint64_t decimals = 7, length = 0, hash = 0;
    char text[64];
    for (size_t n = 0; n < sizeof texts / sizeof *texts; n++) {
        WANT(kc_estimate_text(&texts[n].state, texts[n].places, text, sizeof text, &length) == KC_OK);
        WANT(length == strlen(texts[n].text) && memcmp(text, texts[n].text, length) == 0);
    }
    text[0] = 'x';
    WANT(kc_estimate_text(&texts[1].state, 2, text, 3, &length) == KC_TOO_SMALL && length == 4 && text[0] == 'x');
    WANT(kc_estimate_decimal(1, 0, 3, &whole, &decimals) == KC_INVALID_ARGUMENT && kc_estimate_decimal(1, 3, 20, &whole, &decimals) == KC_INVALID_ARGUMENT);
    WANT(kc_estimate_decimal(UINT64_C(1) << 32, 3, 0, &whole, &decimals) == KC_INVALID_ARGUMENT && whole.low == 7 && decimals == 7);
    WANT(kc_estimate_numerator(3, &whole) == KC_OK && whole.low == UINT64_C(9223372036854775805) && whole.high == 1);
    WANT(kc_count_bounds(10, KC_MAX_THETA, 2, &lower, &upper) == KC_OK && lower.low == 10 && upper.low == 10 && upper.high == 0);
    WANT(kc_count_bounds(4096, 377528331862415411, 2, &lower, &upper) == KC_OK && lower.low < 100069 && upper.low > 100069 && upper.low < 104000);
    WANT(kc_count_bounds(10, KC_MAX_THETA, 0, &lower, &upper) == KC_INVALID_ARGUMENT && kc_count_bounds(10, KC_MAX_THETA, 4, &lower, &upper) == KC_INVALID_ARGUMENT);
    WANT(kc_count_bounds(10, 0, 1, &lower, &upper) == KC_INVALID_ARGUMENT && kc_count_bounds(10, 1, 1, NULL, &upper) == KC_INVALID_ARGUMENT);
    /* two estimates that a product in place of the quotients would round otherwise */
    WANT(kc_estimate(&(kc_state){4343, UINT64_C(8039073764755694319), 0}) == 4982.8009952683415);
    WANT(kc_estimate(&(kc_state){3815, UINT64_C(8989160369660704887), 0}) == 3914.399440392797);
    /* a number is hashed as its eight bytes; MurmurHash3 of no bytes under seed 0 is 0 */
    WANT(kc_hash_bytes(0, NULL, 0, &hash) == KC_OK && hash == 0);
    uint64_t again = 1;
    WANT(kc_hash_u64(SEED, 5, &hash) == KC_OK && kc_hash_bytes(SEED, "\5\0\0\0\0\0\0", 8, &again) == KC_OK && hash == again);
    /* the public vector under seed 0, without its lowest bit */
    WANT(kc_hash_bytes(0, "The quick brown fox jumps over the lazy dog", 43, &hash) == KC_OK && hash == UINT64_C(0xe34bbc7bbc071b6c) >> 1);
    WANT(kc_hash_bytes(0, NULL, 1, &hash) == KC_INVALID_ARGUMENT && kc_hash_u64(0, 1, NULL) == KC_INVALID_ARGUMENT);
}

/* Numbers of 128 bits, and their texts. */
static const struct { kc_wide number; const char *text; } wides[] = {
    {{0, 0}, "0"},
    {{10, 0}, "10"},
    {{UINT64_MAX, 0}, "18446744073709551615"},
    {{0, 1}, "18446744073709551616"},
    {{UINT64_MAX, UINT64_MAX}, "340282366920938463463374607431768211455"},
};

static void numbers_as_text(void) {
    char text[64];
    uint64_t length = 0;
    for (size_t n = 0; n < sizeof wides / sizeof *wides; n++) {
        size_t wanted = strlen(wides[n].text);
        memset(text, 'x', sizeof text);
        WANT(kc_wide_text(&wides[n].number, text, wanted - 1, &length) == KC_TOO_SMALL && length == wanted && text[0] == 'x');
        WANT(kc_wide_text(&wides[n].number, NULL, 0, &length) == KC_TOO_SMALL && length == wanted);
        WANT(kc_wide_text(&wides[n].number, text, wanted, &length) == KC_OK && length == wanted);
        WANT(memcmp(text, wides[n].text, wanted) == 0 && text[wanted] == 'x');
    }
    WANT(kc_wide_text(NULL, text, 9, &length) == KC_INVALID_ARGUMENT && kc_wide_text(&wides[1].number, NULL, 9, &length) == KC_INVALID_ARGUMENT);
    WANT(kc_wide_text(&wides[1].number, text, 9, NULL) == KC_INVALID_ARGUMENT);
}

/* A count or a total, a theta, and the nearest whole number to the estimate, computed in Python. */
static const struct { kc_wide total; uint64_t theta; const char *text; } nearest[] = {
    {{0, 0}, KC_MAX_THETA, "0"},
    {{2, 0}, KC_MAX_THETA, "2"},
    {{1, 0}, 2, "4611686018427387904"},
    {{1, 0}, 3, "3074457345618258602"},
    {{2, 0}, 3, "6148914691236517205"},
    {{4294967295, 0}, 2, "19807040623954398377811116033"},
    {{4096, 0}, 377528331862415411, "100069"},
    {{UINT64_MAX, 376}, 377, "170141183460469231713216094464357963195"},
    {{7, 12}, 9223372036854775806, "221360928884514619423"},
};

static void rounded(void) {
    kc_wide out = {7, 7}, same = {7, 7};
    char text[64];
    uint64_t length = 0;
    for (size_t n = 0; n < sizeof nearest / sizeof *nearest; n++) {
        WANT(kc_total_rounded(&nearest[n].total, nearest[n].theta, &out) == KC_OK && kc_wide_text(&out, text, sizeof text, &length) == KC_OK);
        WANT(length == strlen(nearest[n].text) && memcmp(text, nearest[n].text, length) == 0);
        if (nearest[n].total.high != 0 || nearest[n].total.low > UINT32_MAX) continue;
        WANT(kc_estimate_rounded(nearest[n].total.low, nearest[n].theta, &same) == KC_OK && memcmp(&same, &out, sizeof out) == 0);
    }
    const kc_wide one = {1, 0}, large = {0, 5};
    out.low = 7, out.high = 7;
    WANT(kc_estimate_rounded(1, 0, &out) == KC_INVALID_ARGUMENT && kc_estimate_rounded(1, KC_MAX_THETA + 1, &out) == KC_INVALID_ARGUMENT);
    WANT(kc_estimate_rounded(UINT64_C(1) << 32, 3, &out) == KC_INVALID_ARGUMENT && kc_estimate_rounded(1, 3, NULL) == KC_INVALID_ARGUMENT);
    WANT(kc_total_rounded(&one, 0, &out) == KC_INVALID_ARGUMENT && kc_total_rounded(&one, KC_MAX_THETA + 1, &out) == KC_INVALID_ARGUMENT);
    WANT(kc_total_rounded(&large, 5, &out) == KC_INVALID_ARGUMENT && kc_total_rounded(NULL, 6, &out) == KC_INVALID_ARGUMENT);
    WANT(kc_total_rounded(&large, 6, NULL) == KC_INVALID_ARGUMENT && out.low == 7 && out.high == 7);
    WANT(kc_total_rounded(&out, 8, &out) == KC_INVALID_ARGUMENT && kc_total_rounded(&large, 6, &out) == KC_OK);
}

/* The image of three keys with a byte changed or with other bytes behind it, and what its preamble then says. The image has 40 bytes, and that
 * of sums 64. Byte 0 has the preamble longs, 1 the version, 2 the family, 3 the type of sums, 5 the flags, and 6 the seed hash. */
static const struct { int place, byte; size_t count; uint32_t flaw, found; uint64_t length; uint32_t sums_flaw, sums_found; uint64_t sums_length; } findings[] = {
    {-1, 0, 0, KC_FLAW_DAMAGED, 0, 40, KC_FLAW_DAMAGED, 0, 64},
    {-1, 0, 1, KC_FLAW_LONGER, 0, 40, KC_FLAW_LONGER, 0, 64},
    {-1, 0, 7, KC_FLAW_SHORT, 0, 0, KC_FLAW_SHORT, 0, 0},
    {-1, 0, 8, KC_FLAW_CUT, 0, 0, KC_FLAW_CUT, 0, 0},
    {-1, 0, 39, KC_FLAW_CUT, 0, 40, KC_FLAW_CUT, 0, 64},
    {2, 9, 0, KC_FLAW_FAMILY, 9, 0, KC_FLAW_DAMAGED, 0, 64},
    {2, 3, 0, KC_FLAW_DAMAGED, 0, 40, KC_FLAW_FAMILY, 3, 0},
    {2, 7, 0, KC_FLAW_FAMILY, 7, 0, KC_FLAW_FAMILY, 7, 0},
    {1, 4, 0, KC_FLAW_VERSION, 4, 0, KC_FLAW_VERSION, 4, 0},
    {1, 2, 0, KC_FLAW_DAMAGED, 0, 40, KC_FLAW_VERSION, 2, 0},
    {5, 0x1b, 0, KC_FLAW_BIG_ENDIAN, 0, 40, KC_FLAW_BIG_ENDIAN, 0, 64},
    {6, 0, 0, KC_FLAW_SEED, 0, 40, KC_FLAW_SEED, 0, 64},
    {0, 0, 0, KC_FLAW_MALFORMED, 0, 0, KC_FLAW_MALFORMED, 0, 0},
    {0, 4, 0, KC_FLAW_MALFORMED, 0, 0, KC_FLAW_MALFORMED, 0, 0},
    {3, 2, 0, KC_FLAW_DAMAGED, 0, 40, KC_FLAW_MALFORMED, 0, 0},
};

static int finds(kc_finding it, uint32_t flaw, uint32_t found, uint64_t length) {
    return it.flaw == flaw && it.found == found && it.length == length;
}

/* Why bytes are no image. */
static void flaws(void) {
    unsigned char image[48], sums_image[72];
    uint64_t length, sums_length;
    kc_theta s = {0};
    kc_sums t = {0};
    kc_finding it = {7, 7, 7};
    WANT(kc_theta_new(&s, 12, SEED) == KC_OK && kc_sums_new(&t, 12, SEED) == KC_OK);
    for (uint64_t n = 1; n <= 3; n++) WANT(kc_theta_update_u64(&s, n) == KC_OK && kc_sums_add_u64(&t, n, n) == KC_OK);
    for (size_t n = 0; n < sizeof findings / sizeof *findings; n++) {
        memset(image, 0, sizeof image), memset(sums_image, 0, sizeof sums_image);
        WANT(kc_theta_image(&s, image, 47, &length) == KC_OK && length == 40 && kc_sums_image(&t, sums_image, 71, &sums_length) == KC_OK && sums_length == 64);
        if (findings[n].place >= 0) image[findings[n].place] = sums_image[findings[n].place] = (unsigned char)findings[n].byte;
        size_t count = findings[n].count;
        WANT(kc_image_flaw(image, count == 0 ? 40 : count == 1 ? 41 : count, SEED, &it) == KC_OK);
        WANT(finds(it, findings[n].flaw, findings[n].found, findings[n].length));
        WANT(kc_sums_image_flaw(sums_image, count == 0 ? 64 : count == 1 ? 65 : count == 39 ? 63 : count, SEED, &it) == KC_OK);
        WANT(finds(it, findings[n].sums_flaw, findings[n].sums_found, findings[n].sums_length));
    }
    WANT(kc_image_flaw("0103030000Cc93ff", 16, SEED, &it) == KC_OK && it.flaw == KC_FLAW_HEXADECIMAL && it.found == 0);
    WANT(kc_sums_image_flaw("0103030000Cc93ff", 16, SEED, &it) == KC_OK && it.flaw == KC_FLAW_HEXADECIMAL && it.found == 0);
    /* one hash and theta 0 */
    static const unsigned char no_theta[] = {3, 3, 3, 0, 0, 0x1a, 0xcc, 0x93, 1, 0, 0, 0, 0, 0, 0, 0, 0, 0, 0, 0, 0, 0, 0, 0, 7, 0, 0, 0, 0, 0, 0, 0};
    WANT(kc_image_flaw(no_theta, sizeof no_theta, SEED, &it) == KC_OK && finds(it, KC_FLAW_THETA, 0, sizeof no_theta));
    /* an empty sketch has no seed that is checked, and its image eight bytes */
    WANT(kc_theta_reset(&s) == KC_OK && kc_theta_image(&s, image, 47, &length) == KC_OK && kc_image_flaw(image, 9, 123, &it) == KC_OK);
    WANT(finds(it, KC_FLAW_LONGER, 0, 8));
    /* refused: the hash of the seed is 0, a null pointer */
    it = (kc_finding){7, 7, 7};
    WANT(kc_image_flaw(image, 8, 50541, &it) == KC_INVALID_ARGUMENT && kc_sums_image_flaw(image, 8, 50541, &it) == KC_INVALID_ARGUMENT);
    WANT(kc_image_flaw(NULL, 8, SEED, &it) == KC_INVALID_ARGUMENT && kc_image_flaw(image, 8, SEED, NULL) == KC_INVALID_ARGUMENT);
    WANT(kc_sums_image_flaw(NULL, 8, SEED, &it) == KC_INVALID_ARGUMENT && kc_sums_image_flaw(image, 8, SEED, NULL) == KC_INVALID_ARGUMENT);
    WANT(finds(it, 7, 7, 7));
    WANT(kc_image_flaw(NULL, 0, SEED, &it) == KC_OK && finds(it, KC_FLAW_SHORT, 0, 0));
    for (uint32_t flaw = KC_FLAW_HEXADECIMAL; flaw <= KC_FLAW_THETA; flaw++) {
        WANT(strlen(kc_flaw_text(flaw)) > 10 && strcmp(kc_flaw_text(flaw), kc_flaw_text(0)) != 0);
    }
    WANT(strcmp(kc_flaw_text(0), kc_flaw_text(KC_FLAW_THETA + 1)) == 0);
    kc_theta_free(&s), kc_sums_free(&t);
}

/* The sketch of a state, an order and hashes, as an image; 0 bytes if it is refused with KC_INVALID_DATA. */
static uint64_t made_of(kc_state state, uint32_t ordered, const uint64_t *some, size_t count, uint64_t seed, unsigned char *to) {
    kc_compact made = {0};
    uint64_t length = 0;
    kc_status status = kc_compact_of_hashes(&made, &state, ordered, some, count, seed);
    WANT(status == KC_OK ? kc_compact_image(&made, to, 1 << 17, &length) == KC_OK : status == KC_INVALID_DATA && made.object == NULL);
    kc_compact_free(&made);
    return length;
}

/* Whether a sketch is made again of its state, order and hashes. */
static int is_made_again(const kc_compact *sketch) {
    static uint64_t listed[8192];
    uint64_t count = 0, length = 0;
    WANT(kc_compact_hashes(sketch, listed, 8192, &count) == KC_OK && kc_compact_image(sketch, out, sizeof out, &length) == KC_OK);
    return made_of(state_of(sketch), (uint32_t)is_ordered(sketch), listed, count, SEED, b_image) == length && memcmp(out, b_image, length) == 0;
}

/* Sketches of hashes. */
static void of_hashes(void) {
    kc_theta s = {0};
    kc_compact c = {0}, d = {0};
    const uint64_t none[] = {0}, three[] = {5, 7, 9}, turned[] = {7, 5, 9}, twice[] = {7, 5, 7}, zero[] = {0, 5, 7};
    const kc_state exact = {3, KC_MAX_THETA, 0}, estimating = {3, 10, 0}, empty = {0, KC_MAX_THETA, 1};
    WANT(kc_theta_new(&s, 12, SEED) == KC_OK && kc_theta_compact(&s, &c) == KC_OK && is_made_again(&c) && kc_compact_free(&c) == KC_OK);
    WANT(kc_theta_update_u64(&s, 1) == KC_OK && kc_theta_compact_with(&s, 0, &c) == KC_OK && is_made_again(&c) && kc_compact_free(&c) == KC_OK);
    for (uint64_t most = 5; most <= 100000; most += 99995) {
        numbers(&s, 0, most);
        for (uint32_t ordered = 0; ordered < 2; ordered++) {
            WANT(kc_theta_compact_with(&s, ordered, &c) == KC_OK && is_made_again(&c) && kc_compact_free(&c) == KC_OK);
        }
    }
    WANT(made_of(exact, 1, three, 3, SEED, out) == 40 && memcmp(out, "\2\3\3\0\0\x1a\xcc\x93\3\0\0\0\0\0\0\0\5\0\0\0\0\0\0\0\7", 25) == 0);
    WANT(made_of(estimating, 0, turned, 3, SEED, out) == 48 && out[0] == 3 && out[5] == 0x0a && out[16] == 10 && out[24] == 7);
    WANT(made_of((kc_state){0, KC_MAX_THETA, 0}, 0, NULL, 0, SEED, out) == 16 && made_of((kc_state){0, 1, 0}, 1, none, 0, SEED, out) == 24 && made_of(empty, 1, NULL, 0, SEED, out) == 8);
    /* no sketch has these: a hash that is 0, repeated or not below theta, hashes that don't ascend, or more or fewer of them */
    WANT(made_of(exact, 0, zero, 3, SEED, out) == 0 && made_of(exact, 1, zero, 3, SEED, out) == 0 && made_of(exact, 0, twice, 3, SEED, out) == 0);
    WANT(made_of((kc_state){3, 9, 0}, 0, turned, 3, SEED, out) == 0 && made_of((kc_state){3, 9, 0}, 1, three, 3, SEED, out) == 0);
    WANT(made_of((kc_state){3, 8, 0}, 0, three, 3, SEED, out) == 0 && made_of(exact, 1, turned, 3, SEED, out) == 0);
    WANT(made_of(exact, 1, three, 2, SEED, out) == 0 && made_of((kc_state){2, KC_MAX_THETA, 0}, 1, three, 3, SEED, out) == 0 && made_of(exact, 1, NULL, 0, SEED, out) == 0);
    /* .. a theta, an order or a mark of the empty sketch that is out of range, and an empty sketch that isn't as the others are */
    WANT(made_of((kc_state){3, 0, 0}, 1, three, 3, SEED, out) == 0 && made_of((kc_state){3, KC_MAX_THETA + 1, 0}, 1, three, 3, SEED, out) == 0);
    WANT(made_of((kc_state){0, 0, 0}, 1, none, 0, SEED, out) == 0 && made_of((kc_state){UINT64_C(1) << 32, KC_MAX_THETA, 0}, 1, none, 0, SEED, out) == 0);
    WANT(made_of(exact, 2, three, 3, SEED, out) == 0 && made_of((kc_state){3, KC_MAX_THETA, 2}, 1, three, 3, SEED, out) == 0);
    WANT(made_of((kc_state){0, KC_MAX_THETA, 2}, 1, none, 0, SEED, out) == 0 && made_of((kc_state){3, KC_MAX_THETA, 1}, 1, three, 3, SEED, out) == 0);
    WANT(made_of(empty, 0, none, 0, SEED, out) == 0 && made_of((kc_state){0, 10, 1}, 1, none, 0, SEED, out) == 0);
    /* .. or a seed whose hash is 0 */
    WANT(made_of(exact, 1, three, 3, 50541, out) == 0 && made_of(empty, 1, none, 0, 50541, out) == 0);
    WANT(kc_compact_of_hashes(&d, &exact, 1, three, 3, SEED) == KC_OK && kc_compact_of_hashes(&d, &exact, 1, three, 3, SEED) == KC_INVALID_ARGUMENT);
    WANT(kc_compact_of_hashes(&c, NULL, 1, three, 3, SEED) == KC_INVALID_ARGUMENT && kc_compact_of_hashes(&c, &exact, 1, NULL, 3, SEED) == KC_INVALID_ARGUMENT);
    WANT(kc_compact_of_hashes(NULL, &exact, 1, three, 3, SEED) == KC_INVALID_ARGUMENT && c.object == NULL && state_of(&d).retained == 3);
    kc_theta_free(&s), kc_compact_free(&d);
}

/* Whether the preamble for tuples of a sketch is the front of an image, which is freed with the sketch. */
static int begins(kc_compact *sketch, const unsigned char *front, size_t count) {
    unsigned char it[24];
    uint64_t length = 9;
    memset(it, 77, sizeof it);
    WANT(kc_compact_tuple_preamble(sketch, NULL, 0, &length) == KC_TOO_SMALL && length == count);
    WANT(kc_compact_tuple_preamble(sketch, it, count - 1, &length) == KC_TOO_SMALL && length == count && it[0] == 77);
    WANT(kc_compact_tuple_preamble(sketch, it, sizeof it, &length) == KC_OK && length == count && (count == 24 || it[count] == 77));
    return kc_compact_free(sketch) == KC_OK && memcmp(it, front, count) == 0;
}

/* The preambles of images of tuple sketches, written and read. */
static void tuple_heads(void) {
    kc_theta s = {0};
    kc_sums t = {0};
    kc_compact c = {0};
    kc_state state = {7, 7, 7}, wanted;
    kc_finding it = {7, 7, 7};
    uint64_t length = 9, start = 9;
    uint32_t ordered = 9;
    WANT(kc_theta_new(&s, 12, SEED) == KC_OK && kc_sums_new(&t, 12, SEED) == KC_OK);
    for (uint64_t n = 0; n <= 100000; n++) {
        if (n == 0 || n == 1 || n == 3 || n == 100000) {
            /* of 8, 8, 16 and 24 bytes, ordered, and but for the first and second not */
            size_t count = n < 2 ? 8 : n == 3 ? 16 : 24;
            WANT(kc_sums_image(&t, a_image, sizeof a_image, &a_length) == KC_OK && kc_theta_compact(&s, &c) == KC_OK && begins(&c, a_image, count));
            WANT(kc_tuple_head(a_image, a_length, SEED, &state, &ordered, &start, &it) == KC_OK && ordered == 1 && start == count && finds(it, 7, 7, 7));
            WANT(kc_theta_state(&s, &wanted) == KC_OK && memcmp(&state, &wanted, sizeof state) == 0);
            if (n > 1) {
                a_image[5] = 0x0a;
                WANT(kc_theta_compact_with(&s, 0, &c) == KC_OK && begins(&c, a_image, count));
                WANT(kc_tuple_head(a_image, count + 8 * state.retained, SEED, &state, &ordered, &start, &it) == KC_OK && ordered == 0 && start == count);
                WANT(memcmp(&state, &wanted, sizeof state) == 0 && finds(it, 7, 7, 7));
                WANT(kc_tuple_head(a_image, count + 8 * state.retained - 1, SEED, &state, &ordered, &start, &it) == KC_INVALID_DATA);
                WANT(finds(it, KC_FLAW_CUT, 0, count + 8 * state.retained) && memcmp(&state, &wanted, sizeof state) == 0 && start == count);
                it = (kc_finding){7, 7, 7};
            }
        }
        WANT(kc_theta_update_u64(&s, n) == KC_OK && kc_sums_add_u64(&t, n, 1) == KC_OK);
    }
    WANT(kc_compact_tuple_preamble(&c, out, 24, &length) == KC_INVALID_ARGUMENT && kc_compact_tuple_preamble(NULL, out, 24, &length) == KC_INVALID_ARGUMENT && length == 9);
    WANT(kc_theta_compact(&s, &c) == KC_OK && kc_compact_tuple_preamble(&c, NULL, 24, &length) == KC_INVALID_ARGUMENT && kc_compact_tuple_preamble(&c, out, 24, NULL) == KC_INVALID_ARGUMENT);
    /* each flaw, of which nothing else is written */
    WANT(kc_sums_reset(&t) == KC_OK);
    for (uint64_t n = 1; n <= 3; n++) WANT(kc_sums_add_u64(&t, n, n) == KC_OK);
    for (size_t n = 0; n < sizeof findings / sizeof *findings; n++) {
        size_t count = findings[n].count;
        uint32_t flaw = findings[n].sums_flaw;
        int is_read = flaw == KC_FLAW_DAMAGED || flaw == KC_FLAW_LONGER || flaw == KC_FLAW_BIG_ENDIAN || count == 39;
        memset(a_image, 0, 72), it = (kc_finding){7, 7, 7}, state = (kc_state){7, 7, 7}, ordered = 9, start = 9;
        WANT(kc_sums_image(&t, a_image, 71, &a_length) == KC_OK && a_length == 64);
        if (findings[n].place >= 0) a_image[findings[n].place] = (unsigned char)findings[n].byte;
        kc_status status = kc_tuple_head(a_image, count == 0 ? 64 : count == 1 ? 65 : count, SEED, &state, &ordered, &start, &it);
        if (count == 39) {
            WANT(status == KC_INVALID_DATA && finds(it, KC_FLAW_CUT, 0, 40));
            it = (kc_finding){7, 7, 7}, status = kc_tuple_head(a_image, 40, SEED, &state, &ordered, &start, &it);
        }
        WANT(is_read ? status == KC_OK && state.retained == 3 && state.theta == KC_MAX_THETA && state.empty == 0 && ordered == 1 && start == 16 && finds(it, 7, 7, 7)
                     : status == KC_INVALID_DATA && finds(it, flaw, findings[n].sums_found, findings[n].sums_length == 64 ? 40 : findings[n].sums_length));
        WANT(is_read || (state.retained == 7 && state.theta == 7 && state.empty == 7 && ordered == 9 && start == 9));
    }
    WANT(kc_tuple_head("0103090100Cc93ff", 16, SEED, &state, &ordered, &start, &it) == KC_INVALID_DATA && it.flaw == KC_FLAW_HEXADECIMAL && it.found == 0);
    WANT(kc_sums_image(&t, a_image, 71, &a_length) == KC_OK && kc_tuple_head(a_image, 64, 50541, &state, &ordered, &start, &it) == KC_INVALID_DATA && finds(it, KC_FLAW_SEED, 0, 40));
    WANT(kc_tuple_head(NULL, 0, SEED, &state, &ordered, &start, &it) == KC_INVALID_DATA && finds(it, KC_FLAW_SHORT, 0, 0));
    it = (kc_finding){7, 7, 7};
    WANT(kc_tuple_head(NULL, 8, SEED, &state, &ordered, &start, &it) == KC_INVALID_ARGUMENT && kc_tuple_head(a_image, 64, SEED, NULL, &ordered, &start, &it) == KC_INVALID_ARGUMENT);
    WANT(kc_tuple_head(a_image, 64, SEED, &state, NULL, &start, &it) == KC_INVALID_ARGUMENT && kc_tuple_head(a_image, 64, SEED, &state, &ordered, NULL, &it) == KC_INVALID_ARGUMENT);
    WANT(kc_tuple_head(a_image, 64, SEED, &state, &ordered, &start, NULL) == KC_INVALID_ARGUMENT && finds(it, 7, 7, 7));
    kc_theta_free(&s), kc_sums_free(&t), kc_compact_free(&c);
}

/* Images that are read whole, and what is found in others. */
static void whole_images(void) {
    unsigned char image[48], sums_image[72];
    uint64_t length, sums_length;
    kc_theta s = {0};
    kc_sums t = {0};
    kc_compact c = {0};
    kc_compact_sums d = {0};
    kc_finding it = {7, 7, 7};
    WANT(kc_theta_new(&s, 12, SEED) == KC_OK && kc_sums_new(&t, 12, SEED) == KC_OK);
    for (uint64_t n = 1; n <= 3; n++) WANT(kc_theta_update_u64(&s, n) == KC_OK && kc_sums_add_u64(&t, n, n) == KC_OK);
    for (size_t n = 0; n < sizeof findings / sizeof *findings; n++) {
        size_t count = findings[n].count;
        memset(image, 0, sizeof image), memset(sums_image, 0, sizeof sums_image);
        WANT(kc_theta_image(&s, image, 47, &length) == KC_OK && kc_sums_image(&t, sums_image, 71, &sums_length) == KC_OK);
        if (findings[n].place >= 0) image[findings[n].place] = sums_image[findings[n].place] = (unsigned char)findings[n].byte;
        /* an image is read in spite of the flag of the highest byte first, and if nothing is wrong */
        int is_read = findings[n].flaw == KC_FLAW_DAMAGED || findings[n].flaw == KC_FLAW_BIG_ENDIAN;
        it = (kc_finding){7, 7, 7};
        /* without flags, version 2 is that of hashes that ascend */
        kc_status status = kc_compact_read_whole(&c, image, count == 0 ? 40 : count == 1 ? 41 : count, SEED, &it);
        WANT(is_read ? status == KC_OK && finds(it, 7, 7, 7) && state_of(&c).retained == 3 && kc_compact_free(&c) == KC_OK
                     : status == KC_INVALID_DATA && c.object == NULL && finds(it, findings[n].flaw, findings[n].found, findings[n].length));
        is_read = findings[n].sums_flaw == KC_FLAW_DAMAGED || findings[n].sums_flaw == KC_FLAW_BIG_ENDIAN;
        it = (kc_finding){7, 7, 7};
        status = kc_compact_sums_read_whole(&d, sums_image, count == 0 ? 64 : count == 1 ? 65 : count == 39 ? 63 : count, SEED, &it);
        WANT(is_read ? status == KC_OK && finds(it, 7, 7, 7) && kc_compact_sums_free(&d) == KC_OK
                     : status == KC_INVALID_DATA && d.object == NULL && finds(it, findings[n].sums_flaw, findings[n].sums_found, findings[n].sums_length));
    }
    /* damaged hashes, a seed whose hash is 0, a handle that has a sketch, null pointers */
    WANT(kc_theta_image(&s, image, 47, &length) == KC_OK && kc_sums_image(&t, sums_image, 71, &sums_length) == KC_OK);
    WANT(kc_compact_read_whole(&c, image, 40, 50541, &it) == KC_INVALID_DATA && finds(it, KC_FLAW_SEED, 0, 40));
    WANT(kc_compact_sums_read_whole(&d, sums_image, 64, 50541, &it) == KC_INVALID_DATA && finds(it, KC_FLAW_SEED, 0, 64));
    memset(image + 16, 0, 8), memset(sums_image + 16, 0, 8);
    WANT(kc_compact_read_whole(&c, image, 40, SEED, &it) == KC_INVALID_DATA && finds(it, KC_FLAW_DAMAGED, 0, 40));
    WANT(kc_compact_sums_read_whole(&d, sums_image, 64, SEED, &it) == KC_INVALID_DATA && finds(it, KC_FLAW_DAMAGED, 0, 64));
    it = (kc_finding){7, 7, 7};
    WANT(kc_theta_compact(&s, &c) == KC_OK && kc_compact_read_whole(&c, image, 40, SEED, &it) == KC_INVALID_ARGUMENT && state_of(&c).retained == 3);
    WANT(kc_sums_compact(&t, &d) == KC_OK && kc_compact_sums_read_whole(&d, sums_image, 64, SEED, &it) == KC_INVALID_ARGUMENT && d.object != NULL);
    WANT(kc_compact_free(&c) == KC_OK && kc_compact_sums_free(&d) == KC_OK && kc_compact_read_whole(NULL, image, 40, SEED, &it) == KC_INVALID_ARGUMENT);
    WANT(kc_compact_read_whole(&c, NULL, 40, SEED, &it) == KC_INVALID_ARGUMENT && kc_compact_read_whole(&c, image, 40, SEED, NULL) == KC_INVALID_ARGUMENT);
    WANT(kc_compact_sums_read_whole(NULL, image, 40, SEED, &it) == KC_INVALID_ARGUMENT && kc_compact_sums_read_whole(&d, NULL, 40, SEED, &it) == KC_INVALID_ARGUMENT);
    WANT(kc_compact_sums_read_whole(&d, image, 40, SEED, NULL) == KC_INVALID_ARGUMENT && finds(it, 7, 7, 7) && c.object == NULL && d.object == NULL);
    kc_theta_free(&s), kc_sums_free(&t);
}

/* The texts of statuses, and the version. */
static void library(void) {
    for (kc_status status = KC_OK; status <= KC_TOO_SMALL; status++) {
        WANT(strlen(kc_status_text(status)) > 10 && strcmp(kc_status_text(status), kc_status_text(KC_TOO_SMALL + 1)) != 0);
    }
    WANT(strcmp(kc_status_text(KC_OUT_OF_MEMORY), "the memory that the call requested was refused") == 0);
    WANT(strcmp(kc_status_text(KC_TOO_SMALL + 1), kc_status_text(UINT32_MAX)) == 0);
    WANT(strcmp(kc_version(), KC_VERSION) == 0);
}

int main(void) {
    sketches();
    settings();
    compacts();
    operators();
    batches();
    union_settings();
    one_hash();
    orders();
    texts_in_pieces();
    sums();
    many_values();
    compact_sums();
    sums_unions();
    sums_intersections();
    modes();
    sums_orders();
    estimates();
    total_texts();
    numbers_as_text();
    rounded();
    flaws();
    of_hashes();
    tuple_heads();
    whole_images();
    library();
    printf("test: %d checks, %d faults\n", checks, faults);
    return faults != 0;
}
