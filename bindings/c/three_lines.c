/* Prints the image of the lines ann, bob and cid in hexadecimal. */
#include "kaftanclay.h"
#include <stdio.h>

int main(void) {
    static const uint64_t ends[] = {3, 6, 9};
    unsigned char image[64];
    uint64_t length = 0;
    kc_theta sketch = {0};
    if (kc_theta_new(&sketch, 12, KC_DEFAULT_SEED) != KC_OK) return 1;
    if (kc_theta_update_strings(&sketch, "annbobcid", 9, ends, 3) != KC_OK) return 1;
    if (kc_theta_image(&sketch, image, sizeof image, &length) != KC_OK) return 1;
    for (uint64_t i = 0; i < length; i++) printf("%02x", image[i]);
    printf("\n");
    kc_theta_free(&sketch);
    return 0;
}
