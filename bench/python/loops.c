/* The loops of bench/python/run.py in C: a line for each case and lg_k, with nanoseconds of processor time for each key, line or image,
 * the least of so many rounds. Arguments: the number of keys, the rounds, and a file of lines. */
#include <fcntl.h>
#include <kaftanclay.h>
#include <stdio.h>
#include <stdlib.h>
#include <time.h>
#include <unistd.h>

enum { IMAGES = 1000, LENGTH = 12, AT_A_CALL = 1024, BLOCK = 1 << 18, ROOM = 1 << 16 };

static size_t count;
static char *texts, *lines_file;
static uint64_t ends[AT_A_CALL];
static unsigned char *images[2][IMAGES];
static uint64_t lengths[2][IMAGES];

static void require(kc_status status) {
    if (status == KC_OK) return;
    fprintf(stderr, "loops: a call was refused with status %u\n", status);
    exit(1);
}

static double nanoseconds(void) {
    struct timespec t;
    clock_gettime(CLOCK_PROCESS_CPUTIME_ID, &t);
    return 1e9 * (double)t.tv_sec + (double)t.tv_nsec;
}

static const char *text_of(size_t n) { return texts + LENGTH * n; }

static void add_bytes(kc_theta *s) {
    for (size_t n = 0; n < count; n++) require(kc_theta_update_bytes(s, text_of(n), LENGTH));
}

static void add_numbers(kc_theta *s) {
    for (size_t n = 0; n < count; n++) require(kc_theta_update_u64(s, n));
}

static void add_strings(kc_theta *s) {
    for (size_t n = 0; n < count; n += AT_A_CALL) {
        size_t some = count - n < AT_A_CALL ? count - n : AT_A_CALL;
        require(kc_theta_update_strings(s, text_of(n), LENGTH * some, ends, some));
    }
}

static void add_lines(kc_theta *s) {
    static unsigned char block[BLOCK];
    kc_text text = {0};
    int file = open(lines_file, O_RDONLY);
    ssize_t found;
    require(kc_text_new(&text, KC_DEFAULT_SEED));
    while ((found = read(file, block, BLOCK)) > 0) require(kc_theta_update_text(s, &text, block, (size_t)found));
    require(kc_theta_end_text(s, &text));
    kc_text_free(&text);
    close(file);
}

static double time_of_theta(void (*fill)(kc_theta *), uint8_t lg_k) {
    kc_theta s = {0};
    require(kc_theta_new(&s, lg_k, KC_DEFAULT_SEED));
    double start = nanoseconds();
    fill(&s);
    double spent = nanoseconds() - start;
    kc_theta_free(&s);
    return spent / (double)count;
}

static double time_of_sums(uint8_t lg_k) {
    kc_sums s = {0};
    require(kc_sums_new(&s, lg_k, KC_DEFAULT_SEED));
    double start = nanoseconds();
    for (size_t n = 0; n < count; n++) require(kc_sums_add_bytes(&s, text_of(n), LENGTH, 1));
    double spent = nanoseconds() - start;
    kc_sums_free(&s);
    return spent / (double)count;
}

static double time_of_union(int size, int is_batch, uint8_t lg_k) {
    kc_union u = {0};
    kc_batch b = {0};
    require(kc_union_new(&u, lg_k, KC_DEFAULT_SEED));
    double start = nanoseconds();
    require(kc_batch_new(&b, KC_DEFAULT_SEED));
    for (size_t n = 0; n < IMAGES; n++)
        require(is_batch ? kc_batch_add_image(&b, images[size][n], lengths[size][n]) : kc_union_add_image(&u, images[size][n], lengths[size][n]));
    if (is_batch) require(kc_union_add_batch(&u, &b));
    kc_batch_free(&b);
    double spent = nanoseconds() - start;
    kc_union_free(&u);
    return spent / IMAGES;
}

static void make_images(void) {
    static unsigned char room[ROOM];
    for (uint64_t size = 0; size < 2; size++) {
        for (uint64_t n = 0; n < IMAGES; n++) {
            uint64_t keys = size == 0 ? 100 : 10000;
            kc_theta s = {0};
            require(kc_theta_new(&s, 12, KC_DEFAULT_SEED));
            for (uint64_t key = 0; key < keys; key++) require(kc_theta_update_u64(&s, keys * n + key));
            require(kc_theta_trim(&s));
            require(kc_theta_image(&s, room, ROOM, &lengths[size][n]));
            images[size][n] = malloc(lengths[size][n]);
            if (images[size][n] == NULL) exit(1);
            for (uint64_t at = 0; at < lengths[size][n]; at++) images[size][n][at] = room[at];
            kc_theta_free(&s);
        }
    }
}

static double time_of(int which, uint8_t lg_k) {
    if (which == 0) return time_of_theta(add_bytes, lg_k);
    if (which == 1) return time_of_theta(add_numbers, lg_k);
    if (which == 2) return time_of_theta(add_strings, lg_k);
    if (which == 3) return time_of_theta(add_lines, lg_k);
    if (which == 4) return time_of_sums(lg_k);
    return time_of_union((which - 5) / 2, (which - 5) % 2, lg_k);
}

int main(int words, char **word) {
    static const char *const names[] = {"`kc_theta_update_bytes`, in a loop", "`kc_theta_update_u64`, in a loop", "`kc_theta_update_strings`, 1024 a call",
        "`kc_theta_update_text`, a line", "`kc_sums_add_bytes`, in a loop", "`kc_union_add_image` of an image of 100 hashes, in a loop",
        "`kc_batch_add_image` of one, and `kc_union_add_batch` once", "`kc_union_add_image` of an image of 4096 hashes, in a loop",
        "`kc_batch_add_image` of one of these, and `kc_union_add_batch` once"};
    static const uint8_t sizes[] = {12, 20};
    if (words != 4) return 2;
    count = strtoul(word[1], NULL, 10), lines_file = word[3];
    texts = malloc(LENGTH * count + 1);
    if (texts == NULL) return 1;
    for (size_t n = 0; n < count; n++) sprintf(texts + LENGTH * n, "user%08lu", (unsigned long)n % 100000000);
    for (uint64_t n = 0; n < AT_A_CALL; n++) ends[n] = LENGTH * (n + 1);
    make_images();
    for (size_t which = 0; which < sizeof names / sizeof *names; which++)
        for (size_t size = 0; size < 2; size++) {
            double least = time_of((int)which, sizes[size]);
            for (int rounds = atoi(word[2]); rounds > 1; rounds--) {
                double spent = time_of((int)which, sizes[size]);
                if (spent < least) least = spent;
            }
            printf("%s\t%d\t%f\n", names[which], sizes[size], least);
        }
    return 0;
}
