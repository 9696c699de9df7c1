/* Two threads, each with a sketch of its own, and then one thread that unites what they made. */
#include "kaftanclay.h"
#include <pthread.h>
#include <stdio.h>

#define SEED KC_DEFAULT_SEED
#define COUNT 1000000u

typedef struct {
    uint64_t first;
    kc_theta sketch;
    kc_sums sums;
    int faults;
} part;

static void *fill(void *of) {
    part *p = of;
    p->faults += kc_theta_new(&p->sketch, 14, SEED) != KC_OK || kc_sums_new(&p->sums, 12, SEED) != KC_OK;
    for (uint64_t n = p->first; n < p->first + COUNT; n++) {
        p->faults += kc_theta_update_u64(&p->sketch, n) != KC_OK || kc_sums_add_u64(&p->sums, n % 1000, 1) != KC_OK;
    }
    return NULL;
}

int main(void) {
    part parts[2] = {{0, {0}, {0}, 0}, {COUNT / 2, {0}, {0}, 0}};
    pthread_t threads[2];
    kc_union u = {0};
    kc_sums_union su = {0};
    kc_compact r = {0};
    kc_compact_sums sr = {0};
    kc_state st = {0, 1, 0};
    kc_wide total = {0, 0};
    int faults = kc_union_new(&u, 14, SEED) != KC_OK || kc_sums_union_new(&su, 12, SEED) != KC_OK;
    for (int n = 0; n < 2; n++) faults += pthread_create(&threads[n], NULL, fill, &parts[n]) != 0;
    for (int n = 0; n < 2; n++) faults += pthread_join(threads[n], NULL) != 0;
    for (int n = 0; n < 2; n++) {
        faults += parts[n].faults + (kc_union_add(&u, &parts[n].sketch) != KC_OK) + (kc_sums_union_add(&su, &parts[n].sums) != KC_OK);
        faults += kc_theta_free(&parts[n].sketch) != KC_OK || kc_sums_free(&parts[n].sums) != KC_OK;
    }
    faults += kc_union_result(&u, &r) != KC_OK || kc_compact_state(&r, &st) != KC_OK;
    faults += kc_sums_union_result(&su, &sr) != KC_OK || kc_compact_sums_total(&sr, &total) != KC_OK;
    double estimate = kc_estimate(&st);
    faults += estimate < 1.45 * COUNT || estimate > 1.55 * COUNT || total.low != 2 * COUNT || total.high != 0;
    kc_union_free(&u), kc_compact_free(&r), kc_sums_union_free(&su), kc_compact_sums_free(&sr);
    printf("threads_test: %d faults\n", faults);
    return faults != 0;
}
