/* How much stack the calls take: each runs on a thread whose stack was painted before, so what it touched is seen afterwards. Prints the
 * deepest. stack_test BYTES fails if that takes more bytes, or less than half as many: so the page C.md has the right number. */
#define _DEFAULT_SOURCE
#include "kaftanclay.h"
#include <pthread.h>
#include <stdio.h>
#include <stdlib.h>
#include <string.h>
#include <sys/mman.h>

#define SEED KC_DEFAULT_SEED
#define STACK ((size_t)8 << 20)
#define PAINT 0xa5
#define COUNT 20000u
#define ROOM (1u << 20)

static int faults;
#define OK(call) do { if ((call) != KC_OK) { printf("stack_test.c:%d: %s\n", __LINE__, #call); faults++; } } while (0)

static kc_theta theta, few, grown, text_sketch;
static kc_compact compact, other, unordered, out;
static kc_text text;
static kc_batch batch;
static kc_union both, result;
static kc_intersection shared;
static kc_sums sums, grown_sums;
static kc_compact_sums compact_sums, other_sums, out_sums;
static kc_sums_union both_sums, result_sums;
static kc_sums_intersection shared_sums;
static kc_state state;
static kc_finding found;
static uint32_t ordered;
static kc_wide wide = {1234567, 1}, lower, upper;
static unsigned char image[ROOM], mixed[ROOM], sums_image[ROOM], written[ROOM];
static uint64_t image_length, mixed_length, sums_length, length, added, decimals, hash;
static uint64_t hashes[COUNT], values[COUNT], ends[COUNT];
static char strings[8 * COUNT], words[64];

/* Hashes from an image, the last first, so that they don't ascend. */
static void turn(void) {
    uint64_t start = 8 * (uint64_t)image[0];
    memcpy(mixed, image, image_length);
    for (uint64_t at = start; at < image_length; at += 8) memcpy(mixed + at, image + image_length - 8 - (at - start), 8);
    mixed[5] &= (unsigned char)~16;
    mixed_length = image_length;
}

static void prepare(void) {
    OK(kc_theta_new(&theta, 14, SEED));
    OK(kc_sums_new(&sums, 14, SEED));
    for (uint64_t i = 0; i < COUNT; i++) {
        OK(kc_hash_u64(SEED, i, &hashes[i]));
        values[i] = i;
        ends[i] = 8 * (i + 1);
        memcpy(strings + 8 * i, i % 3 == 0 ? "abcdefg\n" : "\nlmnopqr", 8);
        memcpy(strings + 8 * i, &i, 3);
        OK(kc_theta_update_u64(&theta, i));
        OK(kc_sums_add_u64(&sums, i + COUNT / 2, i));
    }
    OK(kc_theta_new(&few, 4, SEED));
    OK(kc_theta_update_bytes(&few, "ann", 3));
    OK(kc_theta_image(&theta, image, ROOM, &image_length));
    OK(kc_sums_image(&sums, sums_image, ROOM, &sums_length));
    turn();
    OK(kc_compact_read(&compact, image, image_length, SEED));
    OK(kc_compact_read(&unordered, mixed, mixed_length, SEED));
    OK(kc_theta_compact(&few, &other));
    OK(kc_sums_compact(&sums, &compact_sums));
    OK(kc_sums_compact(&sums, &other_sums));
    OK(kc_union_new(&both, 12, SEED));
    OK(kc_sums_union_new(&both_sums, 12, SEED));
    OK(kc_intersection_new(&shared, SEED));
    OK(kc_sums_intersection_new(&shared_sums, SEED));
    OK(kc_batch_new(&batch, SEED));
    OK(kc_text_new(&text, SEED));
    OK(kc_theta_new(&text_sketch, 10, SEED));
    OK(kc_theta_new(&grown, 11, SEED));
    OK(kc_sums_new(&grown_sums, 11, SEED));
    OK(kc_union_new(&result, 16, SEED));
    OK(kc_sums_union_new(&result_sums, 16, SEED));
    OK(kc_theta_state(&theta, &state));
}

#define FREE_OUT kc_compact_free(&out), kc_compact_sums_free(&out_sums)
#define EACH(call) for (uint64_t i = 0; i < COUNT; i++) OK(call)

/* A name for each, and what runs. They run in this order. */
#define CALLS(X) \
    X(nothing, (void)0) \
    X(theta_update_u64, EACH(kc_theta_update_u64(&grown, i))) \
    X(theta_trim, OK(kc_theta_trim(&grown))) \
    X(theta_update_bytes, EACH(kc_theta_update_bytes(&grown, strings + i, 40))) \
    X(theta_update_hash, EACH(kc_theta_update_hash(&grown, hashes[i] / 2))) \
    X(theta_reset, OK(kc_theta_reset(&grown))) \
    X(theta_update_hashes, OK(kc_theta_update_hashes(&grown, hashes, COUNT))) \
    X(theta_update_strings, OK(kc_theta_update_strings(&grown, strings, sizeof strings, ends, COUNT))) \
    X(theta_update_text, OK(kc_theta_update_text(&text_sketch, &text, strings, sizeof strings - 3))) \
    X(theta_end_text, OK(kc_theta_end_text(&text_sketch, &text))) \
    X(theta_clone, { kc_theta copy = {0}; OK(kc_theta_clone(&theta, &copy)); OK(kc_theta_free(&copy)); }) \
    X(theta_new_with, { kc_theta copy = {0}; OK(kc_theta_new_with(&copy, 14, SEED, 1, KC_MAX_THETA)); OK(kc_theta_free(&copy)); }) \
    X(theta_state, OK(kc_theta_state(&theta, &state))) \
    X(theta_image, OK(kc_theta_image(&theta, written, ROOM, &length))) \
    X(theta_hashes, OK(kc_theta_hashes(&theta, (uint64_t *)(void *)written, ROOM / 8, &length))) \
    X(theta_compact, OK(kc_theta_compact(&theta, &out)); FREE_OUT) \
    X(compact_read, OK(kc_compact_read(&out, image, image_length, SEED)); FREE_OUT) \
    X(compact_read_unordered, OK(kc_compact_read(&out, mixed, mixed_length, SEED)); FREE_OUT) \
    X(compact_read_whole, OK(kc_compact_read_whole(&out, mixed, mixed_length, SEED, &found)); FREE_OUT) \
    X(compact_clone, OK(kc_compact_clone(&compact, &out)); FREE_OUT) \
    X(compact_image, OK(kc_compact_image(&compact, written, ROOM, &length))) \
    X(compact_hashes, OK(kc_compact_hashes(&compact, (uint64_t *)(void *)written, ROOM / 8, &length))) \
    X(compact_of_hashes, OK(kc_compact_of_hashes(&out, &state, 1, (const uint64_t *)(void *)written, (size_t)length, SEED)); FREE_OUT) \
    X(compact_tuple_preamble, OK(kc_compact_tuple_preamble(&compact, written, ROOM, &length))) \
    X(tuple_head, OK(kc_tuple_head(sums_image, sums_length, SEED, &state, &ordered, &length, &found))) \
    X(union_add, OK(kc_union_add(&both, &theta))) \
    X(union_add_few, OK(kc_union_add(&both, &few))) \
    X(union_reset, OK(kc_union_reset(&both))) \
    X(union_add_compact, OK(kc_union_add_compact(&both, &compact))) \
    X(union_add_unordered, OK(kc_union_add_compact(&result, &unordered))) \
    X(union_add_image, OK(kc_union_add_image(&result, mixed, mixed_length))) \
    X(batch_add, OK(kc_batch_add(&batch, &theta))) \
    X(batch_add_compact, OK(kc_batch_add_compact(&batch, &unordered))) \
    X(batch_add_image, for (int n = 0; n < 100; n++) OK(kc_batch_add_image(&batch, image, image_length))) \
    X(union_add_batch, OK(kc_union_add_batch(&result, &batch))) \
    X(union_result, OK(kc_union_result(&result, &out)); FREE_OUT) \
    X(union_image, OK(kc_union_image(&result, written, ROOM, &length))) \
    X(union_lower_lg_k, OK(kc_union_lower_lg_k(&result, 10))) \
    X(intersection_add, OK(kc_intersection_add(&shared, &theta))) \
    X(intersection_add_compact, OK(kc_intersection_add_compact(&shared, &unordered))) \
    X(intersection_add_image, OK(kc_intersection_add_image(&shared, image, image_length))) \
    X(intersection_result, OK(kc_intersection_result(&shared, &out)); FREE_OUT) \
    X(difference, OK(kc_difference(&compact, &other, SEED, &out)); FREE_OUT) \
    X(difference_unordered, OK(kc_difference(&unordered, &other, SEED, &out)); FREE_OUT) \
    X(image_state, OK(kc_image_state(mixed, mixed_length, SEED, &state))) \
    X(images_intersect, OK(kc_images_intersect(image, image_length, mixed, mixed_length, SEED, written, ROOM, &length))) \
    X(images_difference, OK(kc_images_difference(mixed, mixed_length, image, image_length, SEED, written, ROOM, &length))) \
    X(sums_add_u64, EACH(kc_sums_add_u64(&grown_sums, i, i))) \
    X(sums_add_bytes, EACH(kc_sums_add_bytes(&grown_sums, strings + i, 40, 1))) \
    X(sums_add_hashes, OK(kc_sums_add_hashes(&grown_sums, hashes, COUNT, values, COUNT, &added))) \
    X(sums_add_strings, OK(kc_sums_add_strings(&grown_sums, strings, sizeof strings, ends, COUNT, values, COUNT, &added))) \
    X(sums_trim, OK(kc_sums_trim(&grown_sums))) \
    X(sums_clone, { kc_sums copy = {0}; OK(kc_sums_clone(&sums, &copy)); OK(kc_sums_free(&copy)); }) \
    X(sums_total, OK(kc_sums_total(&sums, &wide))) \
    X(sums_image, OK(kc_sums_image(&sums, written, ROOM, &length))) \
    X(sums_entries, OK(kc_sums_entries(&sums, (uint64_t *)(void *)written, (uint64_t *)(void *)written + COUNT, COUNT, &length))) \
    X(sums_compact, OK(kc_sums_compact(&sums, &out_sums)); FREE_OUT) \
    X(compact_sums_read, OK(kc_compact_sums_read(&out_sums, sums_image, sums_length, SEED)); FREE_OUT) \
    X(compact_sums_read_whole, OK(kc_compact_sums_read_whole(&out_sums, sums_image, sums_length, SEED, &found)); FREE_OUT) \
    X(compact_sums_image, OK(kc_compact_sums_image(&compact_sums, written, ROOM, &length))) \
    X(compact_sums_clone, OK(kc_compact_sums_clone(&compact_sums, &out_sums)); FREE_OUT) \
    X(compact_sums_total, OK(kc_compact_sums_total(&compact_sums, &wide))) \
    X(sums_union_add, OK(kc_sums_union_add(&both_sums, &sums))) \
    X(sums_union_add_compact, OK(kc_sums_union_add_compact(&result_sums, &compact_sums))) \
    X(sums_union_add_image, OK(kc_sums_union_add_image(&result_sums, sums_image, sums_length))) \
    X(sums_union_result, OK(kc_sums_union_result(&result_sums, &out_sums)); FREE_OUT) \
    X(sums_union_image, OK(kc_sums_union_image(&result_sums, written, ROOM, &length))) \
    X(sums_union_lower_lg_k, OK(kc_sums_union_lower_lg_k(&result_sums, 10))) \
    X(sums_intersection_add, OK(kc_sums_intersection_add(&shared_sums, &sums))) \
    X(sums_intersection_add_compact, OK(kc_sums_intersection_add_compact(&shared_sums, &other_sums))) \
    X(sums_intersection_add_image, OK(kc_sums_intersection_add_image(&shared_sums, sums_image, sums_length))) \
    X(sums_intersection_result, OK(kc_sums_intersection_result(&shared_sums, &out_sums)); FREE_OUT) \
    X(sums_difference, OK(kc_sums_difference(&compact_sums, &other_sums, SEED, &out_sums)); FREE_OUT) \
    X(hash_bytes, OK(kc_hash_bytes(SEED, strings, sizeof strings, &hash))) \
    X(count_bounds, OK(kc_count_bounds(4096, KC_MAX_THETA / 17, 3, &lower, &upper))) \
    X(estimate_decimal, OK(kc_estimate_decimal(4096, KC_MAX_THETA / 17, 19, &lower, &decimals))) \
    X(estimate_text, OK(kc_estimate_text(&state, 19, words, sizeof words, &length))) \
    X(total_text, OK(kc_total_text(&wide, KC_MAX_THETA / 17, 19, words, sizeof words, &length))) \
    X(total_rounded, OK(kc_total_rounded(&wide, KC_MAX_THETA / 17, &lower))) \
    X(wide_text, OK(kc_wide_text(&wide, words, sizeof words, &length)))

#define FUNCTION(name, ...) static void run_##name(void) { __VA_ARGS__; }
CALLS(FUNCTION)
#define ROW(name, ...) {#name, run_##name},
static const struct { const char *name; void (*run)(void); } calls[] = {CALLS(ROW)};
enum { NUMBER = sizeof calls / sizeof *calls };

static void *run_one(void *at) {
    calls[*(const size_t *)at].run();
    return NULL;
}

/* The bytes of a painted stack that a call and its thread touched. */
static size_t touched(unsigned char *stack, size_t at) {
    pthread_t thread;
    pthread_attr_t settings;
    size_t below = 0;
    memset(stack, PAINT, STACK);
    if (pthread_attr_init(&settings) != 0 || pthread_attr_setstack(&settings, stack, STACK) != 0) return STACK;
    if (pthread_create(&thread, &settings, run_one, &at) != 0 || pthread_join(thread, NULL) != 0) return STACK;
    pthread_attr_destroy(&settings);
    while (below < STACK && stack[below] == PAINT) below++;
    return STACK - below;
}

int main(int count, char **arguments) {
    unsigned char *stack = mmap(NULL, STACK, PROT_READ | PROT_WRITE, MAP_PRIVATE | MAP_ANONYMOUS, -1, 0);
    size_t none = 0, most = 0, deepest = 0, limit = count > 1 ? strtoull(arguments[1], NULL, 10) : 0;
    if (stack == MAP_FAILED) return 1;
    prepare();
    for (size_t at = 0; at < NUMBER; at++) {
        size_t bytes = touched(stack, at);
        if (at == 0) none = bytes;
        bytes -= bytes < none ? bytes : none;
        if (limit == 0) printf("%8zu kc_%s\n", bytes, calls[at].name);
        if (bytes > most) most = bytes, deepest = at;
    }
    printf("stack_test: %d calls, the deepest, kc_%s, takes %zu bytes of stack\n", NUMBER - 1, calls[deepest].name, most);
    if (limit != 0 && (most > limit || 2 * most < limit)) {
        printf("stack_test: that isn't at most %zu, or is less than half of it\n", limit);
        faults++;
    }
    return faults != 0;
}
