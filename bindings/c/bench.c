/* Nanoseconds of processor time for each update. */
#include "kaftanclay.h"
#include <stdio.h>
#include <stdlib.h>
#include <time.h>

#define COUNT 10000000u
static uint64_t hashes[COUNT];

static double seconds(void) {
    struct timespec t;
    clock_gettime(CLOCK_PROCESS_CPUTIME_ID, &t);
    return (double)t.tv_sec + 1e-9 * (double)t.tv_nsec;
}

static void report(const char *what, double began, kc_theta *sketch) {
    kc_state state = {0, 1, 0};
    double took = seconds() - began;
    kc_theta_state(sketch, &state);
    printf("%-28s %6.2f ns  estimate %.0f\n", what, 1e9 * took / COUNT, kc_estimate(&state));
    kc_theta_free(sketch);
}

int main(void) {
    kc_theta s = {0};
    double began;
    for (uint64_t n = 0; n < COUNT; n++) kc_hash_u64(KC_DEFAULT_SEED, n, &hashes[n]);
    for (int lg_k = 12; lg_k <= 20; lg_k += 8) {
        printf("lg_k %d\n", lg_k);
        kc_theta_new(&s, (uint8_t)lg_k, KC_DEFAULT_SEED), began = seconds();
        for (uint64_t n = 0; n < COUNT; n++) kc_theta_update_hash(&s, hashes[n]);
        report("new hashes, one a call", began, &s);
        kc_theta_new(&s, (uint8_t)lg_k, KC_DEFAULT_SEED), began = seconds();
        for (uint64_t n = 0; n < COUNT; n += 250) kc_theta_update_hashes(&s, hashes + n, 250);
        report("new hashes, 250 a call", began, &s);
        kc_theta_new(&s, (uint8_t)lg_k, KC_DEFAULT_SEED), began = seconds();
        for (uint64_t n = 0; n < COUNT; n++) kc_theta_update_u64(&s, n);
        report("numbers", began, &s);
        kc_theta_new(&s, (uint8_t)lg_k, KC_DEFAULT_SEED), began = seconds();
        for (uint64_t n = 0; n < COUNT; n += 4000)
            for (uint64_t m = 0; m < 4000; m++) kc_theta_update_hash(&s, hashes[m]);
        report("4000 hashes again and again", began, &s);
        kc_theta_new(&s, (uint8_t)lg_k, KC_DEFAULT_SEED), began = seconds();
        for (uint64_t n = 0; n < COUNT; n += 4000)
            for (uint64_t m = 0; m < 4000; m += 250) kc_theta_update_hashes(&s, hashes + m, 250);
        report("the same, 250 a call", began, &s);
    }
    return 0;
}
