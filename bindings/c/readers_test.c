/* Calls that take a handle as const only read its object: here the memory of all objects is read-only meanwhile, so a call that
 * writes a byte of one ends the test. Two threads make these calls on the same handles at once, and each gets the same bytes. */
#define _DEFAULT_SOURCE
#include "kaftanclay.h"
#include <pthread.h>
#include <stdio.h>
#include <stdlib.h>
#include <string.h>
#include <sys/mman.h>

#define SEED KC_DEFAULT_SEED
#define ROOM (1u << 17)
#define TURNS 20
#define WANT(c) do { p->checks++; if (!(c)) { printf("readers_test.c:%d: %s\n", __LINE__, #c); p->faults++; } } while (0)

/* While objects are built, their memory is a part of one mapping. */
#define MAPPED ((size_t)1 << 26)
static unsigned char *mapping;
static size_t used;
static int is_building;

void *__real_malloc(size_t size);
void *__real_realloc(void *old, size_t size);
void __real_free(void *old);

static int is_mapped(const void *at) { return mapping != NULL && (const unsigned char *)at >= mapping && (const unsigned char *)at < mapping + MAPPED; }

void *__wrap_malloc(size_t size) {
    if (!is_building) return __real_malloc(size);
    size_t whole = (size + 31) & ~(size_t)15;
    if (MAPPED - used < whole) return NULL;
    unsigned char *at = mapping + used;
    used += whole;
    *(size_t *)(void *)at = size;
    return at + 16;
}

void *__wrap_realloc(void *old, size_t size) {
    if (!is_building && !is_mapped(old)) return __real_realloc(old, size);
    void *at = __wrap_malloc(size);
    size_t before = old != NULL ? *(size_t *)(void *)((unsigned char *)old - 16) : 0;
    if (at != NULL && before != 0) memcpy(at, old, before < size ? before : size);
    return at;
}

void __wrap_free(void *old) {
    if (!is_mapped(old)) __real_free(old);
}

/* What all threads read. */
static kc_theta theta, few;
static kc_compact first, second;
static kc_union both;
static kc_batch batch;
static kc_intersection shared;
static kc_sums sums;
static kc_compact_sums first_sums, second_sums;
static kc_sums_union both_sums;
static kc_sums_intersection shared_sums;

typedef struct {
    int faults, checks;
    unsigned char bytes[40][ROOM];
    uint64_t lengths[40];
    int images;
} part;

static int built(void) {
    kc_status s = kc_theta_new(&theta, 10, SEED) | kc_theta_new(&few, 12, SEED) | kc_union_new(&both, 11, SEED) | kc_batch_new(&batch, SEED) |
                  kc_intersection_new(&shared, SEED) | kc_sums_new(&sums, 10, SEED) | kc_sums_union_new(&both_sums, 11, SEED) |
                  kc_sums_intersection_new(&shared_sums, SEED);
    for (uint64_t n = 0; n < 5000; n++) {
        s |= kc_theta_update_u64(&theta, n) | kc_sums_add_u64(&sums, n, n + 1);
        if (n % 100 == 0) s |= kc_theta_update_u64(&few, n);
    }
    s |= kc_theta_compact(&theta, &first) | kc_theta_compact(&few, &second) | kc_sums_compact(&sums, &first_sums) | kc_sums_reset(&sums);
    for (uint64_t n = 2000; n < 3000; n++) s |= kc_sums_add_u64(&sums, n, 3);
    s |= kc_sums_compact(&sums, &second_sums);
    s |= kc_union_add(&both, &theta) | kc_union_add_compact(&both, &second) | kc_batch_add(&batch, &few) | kc_batch_add_compact(&batch, &first);
    s |= kc_intersection_add_compact(&shared, &first) | kc_intersection_add(&shared, &few);
    s |= kc_sums_union_add(&both_sums, &sums) | kc_sums_union_add_compact(&both_sums, &first_sums);
    s |= kc_sums_intersection_add(&shared_sums, &sums) | kc_sums_intersection_add_compact(&shared_sums, &first_sums);
    return s == KC_OK;
}

static void keep(part *p, kc_compact *made) {
    WANT(kc_compact_image(made, p->bytes[p->images], ROOM, &p->lengths[p->images]) == KC_OK && kc_compact_free(made) == KC_OK);
    p->images++;
}

static void keep_sums(part *p, kc_compact_sums *made) {
    WANT(kc_compact_sums_image(made, p->bytes[p->images], ROOM, &p->lengths[p->images]) == KC_OK && kc_compact_sums_free(made) == KC_OK);
    p->images++;
}

/* Theta sketches, and what is made of them. */
static void read_theta(part *p) {
    kc_theta copy = {0};
    kc_compact made = {0};
    kc_union u = {0};
    kc_batch several = {0};
    kc_intersection common = {0};
    kc_state state = {0, 0, 0}, of_compact = {0, 0, 0};
    uint32_t hash = 0, order = 0;
    uint64_t size = 0;
    WANT(kc_theta_state(&theta, &state) == KC_OK && kc_compact_state(&first, &of_compact) == KC_OK);
    WANT(state.retained == of_compact.retained && state.theta == of_compact.theta && state.retained >= 1024);
    WANT(kc_theta_image(&theta, p->bytes[p->images], ROOM, &p->lengths[p->images]) == KC_OK);
    p->images++;
    WANT(kc_theta_clone(&theta, &copy) == KC_OK && kc_theta_compact(&copy, &made) == KC_OK && kc_theta_free(&copy) == KC_OK);
    keep(p, &made);
    WANT(kc_compact_clone(&first, &made) == KC_OK);
    keep(p, &made);
    WANT(kc_difference(&first, &second, SEED, &made) == KC_OK);
    keep(p, &made);
    WANT(kc_difference(&first, &first, SEED, &made) == KC_OK && kc_compact_state(&made, &state) == KC_OK && state.retained == 0);
    keep(p, &made);
    WANT(kc_theta_difference(&theta, &few, SEED, &made) == KC_OK);
    keep(p, &made);
    WANT(kc_theta_difference(&few, &few, SEED, &made) == KC_OK && kc_compact_state(&made, &state) == KC_OK && state.retained == 0);
    keep(p, &made);
    WANT(kc_theta_compact_with(&theta, 0, &made) == KC_OK && kc_compact_seed_hash(&first, &hash) == KC_OK && kc_compact_is_ordered(&first, &order) == KC_OK && hash == 0x93cc && order == 1);
    keep(p, &made);
    WANT(kc_theta_estimated_size(&theta, &size) == KC_OK && kc_compact_estimated_size(&first, &size) == KC_OK && size == 8 * of_compact.retained);
    WANT(kc_union_estimated_size(&both, &size) == KC_OK && kc_intersection_estimated_size(&shared, &size) == KC_OK);
    WANT(kc_union_result(&both, &made) == KC_OK);
    keep(p, &made);
    WANT(kc_union_image(&both, p->bytes[p->images], ROOM, &p->lengths[p->images]) == KC_OK);
    p->images++;
    WANT(kc_intersection_result(&shared, &made) == KC_OK);
    keep(p, &made);
    WANT(kc_batch_new(&several, SEED) == KC_OK && kc_batch_add(&several, &few) == KC_OK && kc_batch_add_compact(&several, &second) == KC_OK);
    WANT(kc_union_new(&u, 12, SEED) == KC_OK && kc_union_add_batch(&u, &batch) == KC_OK && kc_union_add_batch(&u, &several) == KC_OK);
    WANT(kc_union_add(&u, &theta) == KC_OK && kc_union_add_compact(&u, &first) == KC_OK && kc_union_result(&u, &made) == KC_OK);
    WANT(kc_batch_free(&several) == KC_OK && kc_union_free(&u) == KC_OK);
    keep(p, &made);
    WANT(kc_intersection_new(&common, SEED) == KC_OK && kc_intersection_add(&common, &few) == KC_OK && kc_intersection_add_compact(&common, &first) == KC_OK);
    WANT(kc_intersection_result(&common, &made) == KC_OK && kc_intersection_free(&common) == KC_OK);
    keep(p, &made);
}

/* Sketches of sums, likewise. */
static void read_sums(part *p) {
    static const size_t room = 5000;
    uint64_t *numbers = malloc(2 * room * sizeof *numbers), count = 0, size = 0;
    uint32_t hash = 0, order = 0;
    kc_sums copy = {0};
    kc_compact_sums made = {0};
    kc_sums_union u = {0};
    kc_sums_intersection common = {0};
    kc_state state = {0, 0, 0}, of_compact = {0, 0, 0};
    kc_wide total = {0, 0}, of_form = {0, 0};
    WANT(kc_sums_state(&sums, &state) == KC_OK && kc_compact_sums_state(&second_sums, &of_compact) == KC_OK && state.retained == of_compact.retained);
    WANT(kc_sums_total(&sums, &total) == KC_OK && kc_compact_sums_total(&second_sums, &of_form) == KC_OK && total.low == of_form.low);
    WANT(numbers != NULL && kc_compact_sums_entries(&first_sums, numbers, numbers + room, room, &count) == KC_OK && count >= 1024);
    free(numbers);
    WANT(kc_sums_image(&sums, p->bytes[p->images], ROOM, &p->lengths[p->images]) == KC_OK);
    p->images++;
    WANT(kc_sums_clone(&sums, &copy) == KC_OK && kc_sums_compact(&copy, &made) == KC_OK && kc_sums_free(&copy) == KC_OK);
    keep_sums(p, &made);
    WANT(kc_sums_difference(&first_sums, &second_sums, SEED, &made) == KC_OK);
    keep_sums(p, &made);
    WANT(kc_sums_difference(&first_sums, &first_sums, SEED, &made) == KC_OK && kc_compact_sums_state(&made, &state) == KC_OK && state.retained == 0);
    keep_sums(p, &made);
    WANT(kc_sums_updatable_difference(&sums, &sums, SEED, &made) == KC_OK && kc_compact_sums_state(&made, &state) == KC_OK && state.retained == 0);
    keep_sums(p, &made);
    WANT(kc_sums_compact_with(&sums, 0, &made) == KC_OK && kc_compact_sums_seed_hash(&first_sums, &hash) == KC_OK && kc_compact_sums_is_ordered(&first_sums, &order) == KC_OK && hash == 0x93cc && order == 1);
    keep_sums(p, &made);
    WANT(kc_sums_estimated_size(&sums, &size) == KC_OK && kc_compact_sums_estimated_size(&second_sums, &size) == KC_OK && size == 16 * of_compact.retained);
    WANT(kc_sums_union_estimated_size(&both_sums, &size) == KC_OK && kc_sums_intersection_estimated_size(&shared_sums, &size) == KC_OK);
    WANT(kc_sums_union_result(&both_sums, &made) == KC_OK);
    keep_sums(p, &made);
    WANT(kc_sums_union_image(&both_sums, p->bytes[p->images], ROOM, &p->lengths[p->images]) == KC_OK);
    p->images++;
    WANT(kc_sums_intersection_result(&shared_sums, &made) == KC_OK);
    keep_sums(p, &made);
    WANT(kc_sums_union_new(&u, 12, SEED) == KC_OK && kc_sums_union_add(&u, &sums) == KC_OK && kc_sums_union_add_compact(&u, &first_sums) == KC_OK);
    WANT(kc_sums_union_result(&u, &made) == KC_OK && kc_sums_union_free(&u) == KC_OK);
    keep_sums(p, &made);
    WANT(kc_sums_intersection_new(&common, SEED) == KC_OK && kc_sums_intersection_add(&common, &sums) == KC_OK);
    WANT(kc_sums_intersection_add_compact(&common, &second_sums) == KC_OK && kc_sums_intersection_result(&common, &made) == KC_OK);
    WANT(kc_sums_intersection_free(&common) == KC_OK);
    keep_sums(p, &made);
}

/* What an array takes of shared sketches, a shared compact form's image, and values that needn't be ordered. */
static void read_more_of_theta(part *p) {
    static const size_t room = 5000;
    uint64_t *numbers = malloc(room * sizeof *numbers), count = 0;
    kc_compact made = {0};
    WANT(numbers != NULL && kc_theta_hashes(&theta, numbers, room, &count) == KC_OK && count >= 1024);
    WANT(kc_compact_hashes(&first, numbers, room, &count) == KC_OK && count >= 1024 && numbers[0] < numbers[1]);
    WANT(kc_compact_tuple_preamble(&first, numbers, 24, &count) == KC_OK && count >= 16);
    free(numbers);
    WANT(kc_compact_image(&first, p->bytes[p->images], ROOM, &p->lengths[p->images]) == KC_OK);
    p->images++;
    WANT(kc_union_result_with(&both, 0, &made) == KC_OK);
    keep(p, &made);
    WANT(kc_intersection_result_with(&shared, 0, &made) == KC_OK);
    keep(p, &made);
    WANT(kc_difference_with(&first, &second, SEED, 0, &made) == KC_OK);
    keep(p, &made);
}

/* Of sums likewise. */
static void read_more_of_sums(part *p) {
    static const size_t room = 5000;
    uint64_t *numbers = malloc(2 * room * sizeof *numbers), count = 0;
    kc_compact_sums made = {0};
    WANT(numbers != NULL && kc_sums_entries(&sums, numbers, numbers + room, room, &count) == KC_OK && count >= 900 && numbers[room] == 3);
    free(numbers);
    WANT(kc_compact_sums_image(&first_sums, p->bytes[p->images], ROOM, &p->lengths[p->images]) == KC_OK);
    p->images++;
    WANT(kc_compact_sums_clone(&first_sums, &made) == KC_OK);
    keep_sums(p, &made);
    WANT(kc_sums_union_result_with(&both_sums, 0, &made) == KC_OK);
    keep_sums(p, &made);
    WANT(kc_sums_intersection_result_with(&shared_sums, 0, &made) == KC_OK);
    keep_sums(p, &made);
    WANT(kc_sums_difference_with(&first_sums, &second_sums, SEED, 0, &made) == KC_OK);
    keep_sums(p, &made);
}

static void *read_all(void *of) {
    part *p = of;
    for (int turn = 0; turn < TURNS; turn++) {
        p->images = 0;
        read_theta(p);
        read_more_of_theta(p);
        read_sums(p);
        read_more_of_sums(p);
    }
    return NULL;
}

static part parts[3];

int main(void) {
    pthread_t threads[2];
    part *p = &parts[2];
    mapping = mmap(NULL, MAPPED, PROT_READ | PROT_WRITE, MAP_PRIVATE | MAP_ANONYMOUS, -1, 0);
    if (mapping == MAP_FAILED) return 1;
    is_building = 1;
    WANT(built());
    is_building = 0;
    WANT(mprotect(mapping, MAPPED, PROT_READ) == 0);
    for (int n = 0; n < 2; n++) WANT(pthread_create(&threads[n], NULL, read_all, &parts[n]) == 0);
    for (int n = 0; n < 2; n++) WANT(pthread_join(threads[n], NULL) == 0);
    read_all(p);
    for (int n = 0; n < 2; n++) {
        WANT(parts[n].images == p->images);
        for (int i = 0; i < p->images; i++)
            WANT(parts[n].lengths[i] == p->lengths[i] && memcmp(parts[n].bytes[i], p->bytes[i], p->lengths[i]) == 0);
    }
    WANT(munmap(mapping, MAPPED) == 0);
    int faults = 0, checks = 0;
    for (int n = 0; n < 3; n++) faults += parts[n].faults, checks += parts[n].checks;
    printf("readers_test: %d checks, %d faults\n", checks, faults);
    return faults != 0;
}
