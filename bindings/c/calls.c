/* The calls of kaftanclay.h. Each tests its pointers for null, and that two that may not be one variable are two, and then calls
 * the proved export of its name with the prefix kcp_. Nothing else is done here. Made by make_calls.py from the exports of
 * crates/c_library: change those.
 *
 * A handle is const if the export only reads its object. The export gets a reader, a copy of the handle that this call alone has;
 * by its contract the object is lent to as many readers as there are, so calls at once may read one handle. */
#include "proved.h"

_Static_assert(sizeof(kc_theta) == 8, "the layout of the proved library");
_Static_assert(sizeof(kc_compact) == 8, "the layout of the proved library");
_Static_assert(sizeof(kc_text) == 8, "the layout of the proved library");
_Static_assert(sizeof(kc_batch) == 8, "the layout of the proved library");
_Static_assert(sizeof(kc_union) == 8, "the layout of the proved library");
_Static_assert(sizeof(kc_intersection) == 8, "the layout of the proved library");
_Static_assert(sizeof(kc_sums) == 8, "the layout of the proved library");
_Static_assert(sizeof(kc_compact_sums) == 8, "the layout of the proved library");
_Static_assert(sizeof(kc_sums_union) == 8, "the layout of the proved library");
_Static_assert(sizeof(kc_sums_intersection) == 8, "the layout of the proved library");
_Static_assert(sizeof(kc_state) == 24, "the layout of the proved library");
_Static_assert(sizeof(kc_wide) == 16, "the layout of the proved library");
_Static_assert(sizeof(kc_finding) == 16, "the layout of the proved library");
_Static_assert(offsetof(kc_state, retained) == 0, "the layout of the proved library");
_Static_assert(offsetof(kc_state, theta) == 8, "the layout of the proved library");
_Static_assert(offsetof(kc_state, empty) == 16, "the layout of the proved library");
_Static_assert(offsetof(kc_wide, low) == 0, "the layout of the proved library");
_Static_assert(offsetof(kc_wide, high) == 8, "the layout of the proved library");
_Static_assert(offsetof(kc_finding, flaw) == 0, "the layout of the proved library");
_Static_assert(offsetof(kc_finding, found) == 4, "the layout of the proved library");
_Static_assert(offsetof(kc_finding, length) == 8, "the layout of the proved library");
_Static_assert(sizeof(size_t) == 8, "the layout of the proved library");

#define REFUSE_UNLESS(condition) \
    do { if (!(condition)) return KC_INVALID_ARGUMENT; } while (0)

/* A buffer may be null if its count is 0; the proved calls get another pointer then, each buffer of output its own. */
static uint64_t nothing[4];
#define IS_BUFFER(at, count) ((at) != NULL || (count) == 0)
#define INPUT(at) ((at) != NULL ? (const uint8_t *)(at) : (const uint8_t *)nothing)
#define OUTPUT(at, number) ((at) != NULL ? (uint8_t *)(at) : (uint8_t *)(nothing + (number)))
#define NUMBERS(at, number) ((at) != NULL ? (at) : nothing + (number))

/* ---- Theta sketches that take updates ---- */

kc_status kc_theta_new(kc_theta *sketch, uint32_t lg_k, uint64_t seed) {
    REFUSE_UNLESS(sketch != NULL);
    return kcp_theta_new(sketch, lg_k, seed);
}

kc_status kc_theta_new_with(kc_theta *sketch, uint32_t lg_k, uint64_t seed, uint32_t resize_factor,
                            uint64_t starting_theta) {
    REFUSE_UNLESS(sketch != NULL);
    return kcp_theta_new_with(sketch, lg_k, seed, resize_factor, starting_theta);
}

kc_status kc_theta_clone(const kc_theta *sketch, kc_theta *out) {
    REFUSE_UNLESS(sketch != NULL && out != NULL && sketch != out);
    kc_theta sketch_reader = *sketch;
    return kcp_theta_clone(&sketch_reader, out);
}

kc_status kc_theta_free(kc_theta *sketch) {
    REFUSE_UNLESS(sketch != NULL);
    kcp_theta_free(sketch);
    return KC_OK;
}

kc_status kc_theta_update_hash(kc_theta *sketch, uint64_t hash) {
    REFUSE_UNLESS(sketch != NULL);
    return kcp_theta_update_hash(sketch, hash);
}

kc_status kc_theta_insert_hash(kc_theta *sketch, uint64_t hash, kc_state *out) {
    REFUSE_UNLESS(sketch != NULL && out != NULL);
    return kcp_theta_insert_hash(sketch, hash, out);
}

kc_status kc_theta_update_u64(kc_theta *sketch, uint64_t number) {
    REFUSE_UNLESS(sketch != NULL);
    return kcp_theta_update_u64(sketch, number);
}

kc_status kc_theta_update_bytes(kc_theta *sketch, const void *bytes, size_t count) {
    REFUSE_UNLESS(sketch != NULL && IS_BUFFER(bytes, count));
    return kcp_theta_update_bytes(sketch, INPUT(bytes), count);
}

kc_status kc_theta_update_hashes(kc_theta *sketch, const uint64_t *hashes, size_t count) {
    REFUSE_UNLESS(sketch != NULL && IS_BUFFER(hashes, count));
    return kcp_theta_update_hashes(sketch, NUMBERS(hashes, 0), count);
}

kc_status kc_theta_trim(kc_theta *sketch) {
    REFUSE_UNLESS(sketch != NULL);
    return kcp_theta_trim(sketch);
}

kc_status kc_theta_reset(kc_theta *sketch) {
    REFUSE_UNLESS(sketch != NULL);
    return kcp_theta_reset(sketch);
}

kc_status kc_theta_state(const kc_theta *sketch, kc_state *out) {
    REFUSE_UNLESS(sketch != NULL && out != NULL);
    kc_theta sketch_reader = *sketch;
    return kcp_theta_state(&sketch_reader, out);
}

kc_status kc_theta_image(const kc_theta *sketch, void *out, size_t room, uint64_t *length) {
    REFUSE_UNLESS(sketch != NULL && IS_BUFFER(out, room) && length != NULL);
    kc_theta sketch_reader = *sketch;
    return kcp_theta_image(&sketch_reader, OUTPUT(out, 0), room, length);
}

kc_status kc_theta_compact(const kc_theta *sketch, kc_compact *out) {
    REFUSE_UNLESS(sketch != NULL && out != NULL);
    kc_theta sketch_reader = *sketch;
    return kcp_theta_compact(&sketch_reader, out);
}

kc_status kc_theta_hashes(const kc_theta *sketch, uint64_t *hashes, size_t room, uint64_t *count) {
    REFUSE_UNLESS(sketch != NULL && IS_BUFFER(hashes, room) && count != NULL);
    kc_theta sketch_reader = *sketch;
    return kcp_theta_hashes(&sketch_reader, NUMBERS(hashes, 0), room, count);
}

kc_status kc_theta_compact_with(const kc_theta *sketch, uint32_t ordered, kc_compact *out) {
    REFUSE_UNLESS(sketch != NULL && out != NULL);
    kc_theta sketch_reader = *sketch;
    return kcp_theta_compact_with(&sketch_reader, ordered, out);
}

kc_status kc_theta_difference(const kc_theta *first, const kc_theta *second, uint64_t seed, kc_compact *out) {
    REFUSE_UNLESS(first != NULL && second != NULL && out != NULL);
    kc_theta first_reader = *first;
    kc_theta second_reader = *second;
    return kcp_theta_difference(&first_reader, &second_reader, seed, out);
}

kc_status kc_theta_estimated_size(const kc_theta *sketch, uint64_t *bytes) {
    REFUSE_UNLESS(sketch != NULL && bytes != NULL);
    kc_theta sketch_reader = *sketch;
    return kcp_theta_estimated_size(&sketch_reader, bytes);
}

kc_status kc_theta_update_strings(kc_theta *sketch, const void *bytes, size_t bytes_count, const uint64_t *ends,
                                  size_t ends_count) {
    REFUSE_UNLESS(sketch != NULL && IS_BUFFER(bytes, bytes_count) && IS_BUFFER(ends, ends_count));
    return kcp_theta_update_strings(sketch, INPUT(bytes), bytes_count, NUMBERS(ends, 0), ends_count);
}

/* ---- The lines of a text ---- */

kc_status kc_text_new(kc_text *text, uint64_t seed) {
    REFUSE_UNLESS(text != NULL);
    return kcp_text_new(text, seed);
}

kc_status kc_text_free(kc_text *text) {
    REFUSE_UNLESS(text != NULL);
    kcp_text_free(text);
    return KC_OK;
}

kc_status kc_theta_update_text(kc_theta *sketch, kc_text *text, const void *piece, size_t count) {
    REFUSE_UNLESS(sketch != NULL && text != NULL && IS_BUFFER(piece, count));
    return kcp_theta_update_text(sketch, text, INPUT(piece), count);
}

kc_status kc_theta_end_text(kc_theta *sketch, kc_text *text) {
    REFUSE_UNLESS(sketch != NULL && text != NULL);
    return kcp_theta_end_text(sketch, text);
}

/* ---- Compact theta sketches ---- */

kc_status kc_compact_read(kc_compact *sketch, const void *image, size_t count, uint64_t seed) {
    REFUSE_UNLESS(sketch != NULL && IS_BUFFER(image, count));
    return kcp_compact_read(sketch, INPUT(image), count, seed);
}

kc_status kc_compact_read_whole(kc_compact *sketch, const void *image, size_t count, uint64_t seed, kc_finding *found) {
    REFUSE_UNLESS(sketch != NULL && IS_BUFFER(image, count) && found != NULL);
    return kcp_compact_read_whole(sketch, INPUT(image), count, seed, found);
}

kc_status kc_compact_of_hashes(kc_compact *sketch, const kc_state *state, uint32_t ordered, const uint64_t *hashes,
                               size_t count, uint64_t seed) {
    REFUSE_UNLESS(sketch != NULL && state != NULL && IS_BUFFER(hashes, count));
    return kcp_compact_of_hashes(sketch, state, ordered, NUMBERS(hashes, 0), count, seed);
}

kc_status kc_compact_free(kc_compact *sketch) {
    REFUSE_UNLESS(sketch != NULL);
    kcp_compact_free(sketch);
    return KC_OK;
}

kc_status kc_compact_clone(const kc_compact *sketch, kc_compact *out) {
    REFUSE_UNLESS(sketch != NULL && out != NULL && sketch != out);
    kc_compact sketch_reader = *sketch;
    return kcp_compact_clone(&sketch_reader, out);
}

kc_status kc_compact_state(const kc_compact *sketch, kc_state *out) {
    REFUSE_UNLESS(sketch != NULL && out != NULL);
    kc_compact sketch_reader = *sketch;
    return kcp_compact_state(&sketch_reader, out);
}

kc_status kc_compact_image(const kc_compact *sketch, void *out, size_t room, uint64_t *length) {
    REFUSE_UNLESS(sketch != NULL && IS_BUFFER(out, room) && length != NULL);
    kc_compact sketch_reader = *sketch;
    return kcp_compact_image(&sketch_reader, OUTPUT(out, 0), room, length);
}

kc_status kc_compact_tuple_preamble(const kc_compact *sketch, void *out, size_t room, uint64_t *length) {
    REFUSE_UNLESS(sketch != NULL && IS_BUFFER(out, room) && length != NULL);
    kc_compact sketch_reader = *sketch;
    return kcp_compact_tuple_preamble(&sketch_reader, OUTPUT(out, 0), room, length);
}

kc_status kc_compact_hashes(const kc_compact *sketch, uint64_t *hashes, size_t room, uint64_t *count) {
    REFUSE_UNLESS(sketch != NULL && IS_BUFFER(hashes, room) && count != NULL);
    kc_compact sketch_reader = *sketch;
    return kcp_compact_hashes(&sketch_reader, NUMBERS(hashes, 0), room, count);
}

kc_status kc_compact_seed_hash(const kc_compact *sketch, uint32_t *out) {
    REFUSE_UNLESS(sketch != NULL && out != NULL);
    kc_compact sketch_reader = *sketch;
    return kcp_compact_seed_hash(&sketch_reader, out);
}

kc_status kc_compact_is_ordered(const kc_compact *sketch, uint32_t *out) {
    REFUSE_UNLESS(sketch != NULL && out != NULL);
    kc_compact sketch_reader = *sketch;
    return kcp_compact_is_ordered(&sketch_reader, out);
}

kc_status kc_compact_estimated_size(const kc_compact *sketch, uint64_t *bytes) {
    REFUSE_UNLESS(sketch != NULL && bytes != NULL);
    kc_compact sketch_reader = *sketch;
    return kcp_compact_estimated_size(&sketch_reader, bytes);
}

/* ---- Unions ---- */

kc_status kc_union_new(kc_union *u, uint32_t lg_k, uint64_t seed) {
    REFUSE_UNLESS(u != NULL);
    return kcp_union_new(u, lg_k, seed);
}

kc_status kc_union_new_with(kc_union *u, uint32_t lg_k, uint64_t seed, uint32_t resize_factor, uint64_t starting_theta) {
    REFUSE_UNLESS(u != NULL);
    return kcp_union_new_with(u, lg_k, seed, resize_factor, starting_theta);
}

kc_status kc_union_free(kc_union *u) {
    REFUSE_UNLESS(u != NULL);
    kcp_union_free(u);
    return KC_OK;
}

kc_status kc_union_add(kc_union *u, const kc_theta *sketch) {
    REFUSE_UNLESS(u != NULL && sketch != NULL);
    kc_theta sketch_reader = *sketch;
    return kcp_union_add(u, &sketch_reader);
}

kc_status kc_union_add_compact(kc_union *u, const kc_compact *sketch) {
    REFUSE_UNLESS(u != NULL && sketch != NULL);
    kc_compact sketch_reader = *sketch;
    return kcp_union_add_compact(u, &sketch_reader);
}

kc_status kc_union_add_image(kc_union *u, const void *image, size_t count) {
    REFUSE_UNLESS(u != NULL && IS_BUFFER(image, count));
    return kcp_union_add_image(u, INPUT(image), count);
}

kc_status kc_union_result(const kc_union *u, kc_compact *out) {
    REFUSE_UNLESS(u != NULL && out != NULL);
    kc_union u_reader = *u;
    return kcp_union_result(&u_reader, out);
}

kc_status kc_union_image(const kc_union *u, void *out, size_t room, uint64_t *length) {
    REFUSE_UNLESS(u != NULL && IS_BUFFER(out, room) && length != NULL);
    kc_union u_reader = *u;
    return kcp_union_image(&u_reader, OUTPUT(out, 0), room, length);
}

kc_status kc_union_reset(kc_union *u) {
    REFUSE_UNLESS(u != NULL);
    return kcp_union_reset(u);
}

kc_status kc_union_lower_lg_k(kc_union *u, uint32_t lg_k) {
    REFUSE_UNLESS(u != NULL);
    return kcp_union_lower_lg_k(u, lg_k);
}

kc_status kc_union_result_with(const kc_union *u, uint32_t ordered, kc_compact *out) {
    REFUSE_UNLESS(u != NULL && out != NULL);
    kc_union u_reader = *u;
    return kcp_union_result_with(&u_reader, ordered, out);
}

kc_status kc_union_estimated_size(const kc_union *u, uint64_t *bytes) {
    REFUSE_UNLESS(u != NULL && bytes != NULL);
    kc_union u_reader = *u;
    return kcp_union_estimated_size(&u_reader, bytes);
}

/* ---- Many sketches at once ---- */

kc_status kc_batch_new(kc_batch *batch, uint64_t seed) {
    REFUSE_UNLESS(batch != NULL);
    return kcp_batch_new(batch, seed);
}

kc_status kc_batch_free(kc_batch *batch) {
    REFUSE_UNLESS(batch != NULL);
    kcp_batch_free(batch);
    return KC_OK;
}

kc_status kc_batch_add(kc_batch *batch, const kc_theta *sketch) {
    REFUSE_UNLESS(batch != NULL && sketch != NULL);
    kc_theta sketch_reader = *sketch;
    return kcp_batch_add(batch, &sketch_reader);
}

kc_status kc_batch_add_compact(kc_batch *batch, const kc_compact *sketch) {
    REFUSE_UNLESS(batch != NULL && sketch != NULL);
    kc_compact sketch_reader = *sketch;
    return kcp_batch_add_compact(batch, &sketch_reader);
}

kc_status kc_batch_add_image(kc_batch *batch, const void *image, size_t count) {
    REFUSE_UNLESS(batch != NULL && IS_BUFFER(image, count));
    return kcp_batch_add_image(batch, INPUT(image), count);
}

kc_status kc_batch_reset(kc_batch *batch) {
    REFUSE_UNLESS(batch != NULL);
    return kcp_batch_reset(batch);
}

kc_status kc_union_add_batch(kc_union *u, const kc_batch *batch) {
    REFUSE_UNLESS(u != NULL && batch != NULL);
    kc_batch batch_reader = *batch;
    return kcp_union_add_batch(u, &batch_reader);
}

/* ---- Intersections and differences ---- */

kc_status kc_intersection_new(kc_intersection *intersection, uint64_t seed) {
    REFUSE_UNLESS(intersection != NULL);
    return kcp_intersection_new(intersection, seed);
}

kc_status kc_intersection_free(kc_intersection *intersection) {
    REFUSE_UNLESS(intersection != NULL);
    kcp_intersection_free(intersection);
    return KC_OK;
}

kc_status kc_intersection_add(kc_intersection *intersection, const kc_theta *sketch) {
    REFUSE_UNLESS(intersection != NULL && sketch != NULL);
    kc_theta sketch_reader = *sketch;
    return kcp_intersection_add(intersection, &sketch_reader);
}

kc_status kc_intersection_add_compact(kc_intersection *intersection, const kc_compact *sketch) {
    REFUSE_UNLESS(intersection != NULL && sketch != NULL);
    kc_compact sketch_reader = *sketch;
    return kcp_intersection_add_compact(intersection, &sketch_reader);
}

kc_status kc_intersection_add_image(kc_intersection *intersection, const void *image, size_t count) {
    REFUSE_UNLESS(intersection != NULL && IS_BUFFER(image, count));
    return kcp_intersection_add_image(intersection, INPUT(image), count);
}

kc_status kc_intersection_result(const kc_intersection *intersection, kc_compact *out) {
    REFUSE_UNLESS(intersection != NULL && out != NULL);
    kc_intersection intersection_reader = *intersection;
    return kcp_intersection_result(&intersection_reader, out);
}

kc_status kc_intersection_result_with(const kc_intersection *intersection, uint32_t ordered, kc_compact *out) {
    REFUSE_UNLESS(intersection != NULL && out != NULL);
    kc_intersection intersection_reader = *intersection;
    return kcp_intersection_result_with(&intersection_reader, ordered, out);
}

kc_status kc_intersection_estimated_size(const kc_intersection *intersection, uint64_t *bytes) {
    REFUSE_UNLESS(intersection != NULL && bytes != NULL);
    kc_intersection intersection_reader = *intersection;
    return kcp_intersection_estimated_size(&intersection_reader, bytes);
}

kc_status kc_difference(const kc_compact *first, const kc_compact *second, uint64_t seed, kc_compact *out) {
    REFUSE_UNLESS(first != NULL && second != NULL && out != NULL && first != out && second != out);
    kc_compact first_reader = *first;
    kc_compact second_reader = *second;
    return kcp_difference(&first_reader, &second_reader, seed, out);
}

kc_status kc_difference_with(const kc_compact *first, const kc_compact *second, uint64_t seed, uint32_t ordered,
                             kc_compact *out) {
    REFUSE_UNLESS(first != NULL && second != NULL && out != NULL && first != out && second != out);
    kc_compact first_reader = *first;
    kc_compact second_reader = *second;
    return kcp_difference_with(&first_reader, &second_reader, seed, ordered, out);
}

/* ---- Images alone ---- */

kc_status kc_image_state(const void *image, size_t count, uint64_t seed, kc_state *out) {
    REFUSE_UNLESS(IS_BUFFER(image, count) && out != NULL);
    return kcp_image_state(INPUT(image), count, seed, out);
}

kc_status kc_images_intersect(const void *first, size_t first_count, const void *second, size_t second_count,
                              uint64_t seed, void *out, size_t room, uint64_t *length) {
    REFUSE_UNLESS(IS_BUFFER(first, first_count) && IS_BUFFER(second, second_count) && IS_BUFFER(out, room) && length !=
                  NULL);
    return kcp_images_intersect(INPUT(first), first_count, INPUT(second), second_count, seed, OUTPUT(out, 0), room, length);
}

kc_status kc_images_difference(const void *first, size_t first_count, const void *second, size_t second_count,
                               uint64_t seed, void *out, size_t room, uint64_t *length) {
    REFUSE_UNLESS(IS_BUFFER(first, first_count) && IS_BUFFER(second, second_count) && IS_BUFFER(out, room) && length !=
                  NULL);
    return kcp_images_difference(INPUT(first), first_count, INPUT(second), second_count, seed, OUTPUT(out, 0), room, length);
}

kc_status kc_image_flaw(const void *image, size_t count, uint64_t seed, kc_finding *out) {
    REFUSE_UNLESS(IS_BUFFER(image, count) && out != NULL);
    return kcp_image_flaw(INPUT(image), count, seed, out);
}

kc_status kc_sums_image_flaw(const void *image, size_t count, uint64_t seed, kc_finding *out) {
    REFUSE_UNLESS(IS_BUFFER(image, count) && out != NULL);
    return kcp_sums_image_flaw(INPUT(image), count, seed, out);
}

kc_status kc_tuple_head(const void *image, size_t count, uint64_t seed, kc_state *state, uint32_t *ordered,
                        uint64_t *start, kc_finding *found) {
    REFUSE_UNLESS(IS_BUFFER(image, count) && state != NULL && ordered != NULL && start != NULL && found != NULL);
    return kcp_tuple_head(INPUT(image), count, seed, state, ordered, start, found);
}

/* ---- Tuple sketches of sums ---- */

kc_status kc_sums_new(kc_sums *sums, uint32_t lg_k, uint64_t seed) {
    REFUSE_UNLESS(sums != NULL);
    return kcp_sums_new(sums, lg_k, seed);
}

kc_status kc_sums_new_with(kc_sums *sums, uint32_t lg_k, uint64_t seed, uint32_t resize_factor,
                           uint64_t starting_theta) {
    REFUSE_UNLESS(sums != NULL);
    return kcp_sums_new_with(sums, lg_k, seed, resize_factor, starting_theta);
}

kc_status kc_sums_new_by_mode(kc_sums *sums, uint32_t lg_k, uint64_t seed, uint32_t resize_factor,
                              uint64_t starting_theta, uint32_t mode) {
    REFUSE_UNLESS(sums != NULL);
    return kcp_sums_new_by_mode(sums, lg_k, seed, resize_factor, starting_theta, mode);
}

kc_status kc_sums_clone(const kc_sums *sums, kc_sums *out) {
    REFUSE_UNLESS(sums != NULL && out != NULL && sums != out);
    kc_sums sums_reader = *sums;
    return kcp_sums_clone(&sums_reader, out);
}

kc_status kc_sums_free(kc_sums *sums) {
    REFUSE_UNLESS(sums != NULL);
    kcp_sums_free(sums);
    return KC_OK;
}

kc_status kc_sums_add_hash(kc_sums *sums, uint64_t hash, uint64_t value) {
    REFUSE_UNLESS(sums != NULL);
    return kcp_sums_add_hash(sums, hash, value);
}

kc_status kc_sums_add_u64(kc_sums *sums, uint64_t number, uint64_t value) {
    REFUSE_UNLESS(sums != NULL);
    return kcp_sums_add_u64(sums, number, value);
}

kc_status kc_sums_add_bytes(kc_sums *sums, const void *bytes, size_t count, uint64_t value) {
    REFUSE_UNLESS(sums != NULL && IS_BUFFER(bytes, count));
    return kcp_sums_add_bytes(sums, INPUT(bytes), count, value);
}

kc_status kc_sums_trim(kc_sums *sums) {
    REFUSE_UNLESS(sums != NULL);
    return kcp_sums_trim(sums);
}

kc_status kc_sums_reset(kc_sums *sums) {
    REFUSE_UNLESS(sums != NULL);
    return kcp_sums_reset(sums);
}

kc_status kc_sums_state(const kc_sums *sums, kc_state *out) {
    REFUSE_UNLESS(sums != NULL && out != NULL);
    kc_sums sums_reader = *sums;
    return kcp_sums_state(&sums_reader, out);
}

kc_status kc_sums_image(const kc_sums *sums, void *out, size_t room, uint64_t *length) {
    REFUSE_UNLESS(sums != NULL && IS_BUFFER(out, room) && length != NULL);
    kc_sums sums_reader = *sums;
    return kcp_sums_image(&sums_reader, OUTPUT(out, 0), room, length);
}

kc_status kc_sums_compact(const kc_sums *sums, kc_compact_sums *out) {
    REFUSE_UNLESS(sums != NULL && out != NULL);
    kc_sums sums_reader = *sums;
    return kcp_sums_compact(&sums_reader, out);
}

kc_status kc_sums_total(const kc_sums *sums, kc_wide *out) {
    REFUSE_UNLESS(sums != NULL && out != NULL);
    kc_sums sums_reader = *sums;
    return kcp_sums_total(&sums_reader, out);
}

kc_status kc_sums_entries(const kc_sums *sums, uint64_t *hashes, uint64_t *values, size_t room, uint64_t *count) {
    REFUSE_UNLESS(sums != NULL && IS_BUFFER(hashes, room) && IS_BUFFER(values, room) && (room == 0 || hashes != values)
                  && count != NULL);
    kc_sums sums_reader = *sums;
    return kcp_sums_entries(&sums_reader, NUMBERS(hashes, 0), room, NUMBERS(values, 1), room, count);
}

kc_status kc_sums_compact_with(const kc_sums *sums, uint32_t ordered, kc_compact_sums *out) {
    REFUSE_UNLESS(sums != NULL && out != NULL);
    kc_sums sums_reader = *sums;
    return kcp_sums_compact_with(&sums_reader, ordered, out);
}

kc_status kc_sums_updatable_difference(const kc_sums *first, const kc_sums *second, uint64_t seed,
                                       kc_compact_sums *out) {
    REFUSE_UNLESS(first != NULL && second != NULL && out != NULL);
    kc_sums first_reader = *first;
    kc_sums second_reader = *second;
    return kcp_sums_updatable_difference(&first_reader, &second_reader, seed, out);
}

kc_status kc_sums_estimated_size(const kc_sums *sums, uint64_t *bytes) {
    REFUSE_UNLESS(sums != NULL && bytes != NULL);
    kc_sums sums_reader = *sums;
    return kcp_sums_estimated_size(&sums_reader, bytes);
}

kc_status kc_sums_add_hashes(kc_sums *sums, const uint64_t *hashes, size_t hashes_count, const uint64_t *values,
                             size_t values_count, uint64_t *added) {
    REFUSE_UNLESS(sums != NULL && IS_BUFFER(hashes, hashes_count) && IS_BUFFER(values, values_count) && added != NULL);
    return kcp_sums_add_hashes(sums, NUMBERS(hashes, 0), hashes_count, NUMBERS(values, 0), values_count, added);
}

kc_status kc_sums_add_strings(kc_sums *sums, const void *bytes, size_t bytes_count, const uint64_t *ends,
                              size_t ends_count, const uint64_t *values, size_t values_count, uint64_t *added) {
    REFUSE_UNLESS(sums != NULL && IS_BUFFER(bytes, bytes_count) && IS_BUFFER(ends, ends_count) && IS_BUFFER(values,
                  values_count) && added != NULL);
    return kcp_sums_add_strings(sums, INPUT(bytes), bytes_count, NUMBERS(ends, 0), ends_count, NUMBERS(values, 0), values_count, added);
}

/* ---- Compact tuple sketches of sums ---- */

kc_status kc_compact_sums_read(kc_compact_sums *sums, const void *image, size_t count, uint64_t seed) {
    REFUSE_UNLESS(sums != NULL && IS_BUFFER(image, count));
    return kcp_compact_sums_read(sums, INPUT(image), count, seed);
}

kc_status kc_compact_sums_read_whole(kc_compact_sums *sums, const void *image, size_t count, uint64_t seed,
                                     kc_finding *found) {
    REFUSE_UNLESS(sums != NULL && IS_BUFFER(image, count) && found != NULL);
    return kcp_compact_sums_read_whole(sums, INPUT(image), count, seed, found);
}

kc_status kc_compact_sums_free(kc_compact_sums *sums) {
    REFUSE_UNLESS(sums != NULL);
    kcp_compact_sums_free(sums);
    return KC_OK;
}

kc_status kc_compact_sums_clone(const kc_compact_sums *sums, kc_compact_sums *out) {
    REFUSE_UNLESS(sums != NULL && out != NULL && sums != out);
    kc_compact_sums sums_reader = *sums;
    return kcp_compact_sums_clone(&sums_reader, out);
}

kc_status kc_compact_sums_state(const kc_compact_sums *sums, kc_state *out) {
    REFUSE_UNLESS(sums != NULL && out != NULL);
    kc_compact_sums sums_reader = *sums;
    return kcp_compact_sums_state(&sums_reader, out);
}

kc_status kc_compact_sums_image(const kc_compact_sums *sums, void *out, size_t room, uint64_t *length) {
    REFUSE_UNLESS(sums != NULL && IS_BUFFER(out, room) && length != NULL);
    kc_compact_sums sums_reader = *sums;
    return kcp_compact_sums_image(&sums_reader, OUTPUT(out, 0), room, length);
}

kc_status kc_compact_sums_entries(const kc_compact_sums *sums, uint64_t *hashes, uint64_t *values, size_t room,
                                  uint64_t *count) {
    REFUSE_UNLESS(sums != NULL && IS_BUFFER(hashes, room) && IS_BUFFER(values, room) && (room == 0 || hashes != values)
                  && count != NULL);
    kc_compact_sums sums_reader = *sums;
    return kcp_compact_sums_entries(&sums_reader, NUMBERS(hashes, 0), room, NUMBERS(values, 1), room, count);
}

kc_status kc_compact_sums_total(const kc_compact_sums *sums, kc_wide *out) {
    REFUSE_UNLESS(sums != NULL && out != NULL);
    kc_compact_sums sums_reader = *sums;
    return kcp_compact_sums_total(&sums_reader, out);
}

kc_status kc_compact_sums_seed_hash(const kc_compact_sums *sums, uint32_t *out) {
    REFUSE_UNLESS(sums != NULL && out != NULL);
    kc_compact_sums sums_reader = *sums;
    return kcp_compact_sums_seed_hash(&sums_reader, out);
}

kc_status kc_compact_sums_is_ordered(const kc_compact_sums *sums, uint32_t *out) {
    REFUSE_UNLESS(sums != NULL && out != NULL);
    kc_compact_sums sums_reader = *sums;
    return kcp_compact_sums_is_ordered(&sums_reader, out);
}

kc_status kc_compact_sums_estimated_size(const kc_compact_sums *sums, uint64_t *bytes) {
    REFUSE_UNLESS(sums != NULL && bytes != NULL);
    kc_compact_sums sums_reader = *sums;
    return kcp_compact_sums_estimated_size(&sums_reader, bytes);
}

/* ---- Unions of tuple sketches of sums ---- */

kc_status kc_sums_union_new(kc_sums_union *u, uint32_t lg_k, uint64_t seed) {
    REFUSE_UNLESS(u != NULL);
    return kcp_sums_union_new(u, lg_k, seed);
}

kc_status kc_sums_union_new_with(kc_sums_union *u, uint32_t lg_k, uint64_t seed, uint32_t resize_factor,
                                 uint64_t starting_theta) {
    REFUSE_UNLESS(u != NULL);
    return kcp_sums_union_new_with(u, lg_k, seed, resize_factor, starting_theta);
}

kc_status kc_sums_union_new_by_mode(kc_sums_union *u, uint32_t lg_k, uint64_t seed, uint32_t resize_factor,
                                    uint64_t starting_theta, uint32_t mode) {
    REFUSE_UNLESS(u != NULL);
    return kcp_sums_union_new_by_mode(u, lg_k, seed, resize_factor, starting_theta, mode);
}

kc_status kc_sums_union_free(kc_sums_union *u) {
    REFUSE_UNLESS(u != NULL);
    kcp_sums_union_free(u);
    return KC_OK;
}

kc_status kc_sums_union_add(kc_sums_union *u, const kc_sums *sketch) {
    REFUSE_UNLESS(u != NULL && sketch != NULL);
    kc_sums sketch_reader = *sketch;
    return kcp_sums_union_add(u, &sketch_reader);
}

kc_status kc_sums_union_add_compact(kc_sums_union *u, const kc_compact_sums *sketch) {
    REFUSE_UNLESS(u != NULL && sketch != NULL);
    kc_compact_sums sketch_reader = *sketch;
    return kcp_sums_union_add_compact(u, &sketch_reader);
}

kc_status kc_sums_union_add_image(kc_sums_union *u, const void *image, size_t count) {
    REFUSE_UNLESS(u != NULL && IS_BUFFER(image, count));
    return kcp_sums_union_add_image(u, INPUT(image), count);
}

kc_status kc_sums_union_result(const kc_sums_union *u, kc_compact_sums *out) {
    REFUSE_UNLESS(u != NULL && out != NULL);
    kc_sums_union u_reader = *u;
    return kcp_sums_union_result(&u_reader, out);
}

kc_status kc_sums_union_image(const kc_sums_union *u, void *out, size_t room, uint64_t *length) {
    REFUSE_UNLESS(u != NULL && IS_BUFFER(out, room) && length != NULL);
    kc_sums_union u_reader = *u;
    return kcp_sums_union_image(&u_reader, OUTPUT(out, 0), room, length);
}

kc_status kc_sums_union_reset(kc_sums_union *u) {
    REFUSE_UNLESS(u != NULL);
    return kcp_sums_union_reset(u);
}

kc_status kc_sums_union_lower_lg_k(kc_sums_union *u, uint32_t lg_k) {
    REFUSE_UNLESS(u != NULL);
    return kcp_sums_union_lower_lg_k(u, lg_k);
}

kc_status kc_sums_union_result_with(const kc_sums_union *u, uint32_t ordered, kc_compact_sums *out) {
    REFUSE_UNLESS(u != NULL && out != NULL);
    kc_sums_union u_reader = *u;
    return kcp_sums_union_result_with(&u_reader, ordered, out);
}

kc_status kc_sums_union_estimated_size(const kc_sums_union *u, uint64_t *bytes) {
    REFUSE_UNLESS(u != NULL && bytes != NULL);
    kc_sums_union u_reader = *u;
    return kcp_sums_union_estimated_size(&u_reader, bytes);
}

/* ---- Intersections and differences of tuple sketches of sums ---- */

kc_status kc_sums_intersection_new(kc_sums_intersection *intersection, uint64_t seed) {
    REFUSE_UNLESS(intersection != NULL);
    return kcp_sums_intersection_new(intersection, seed);
}

kc_status kc_sums_intersection_new_by_mode(kc_sums_intersection *intersection, uint64_t seed, uint32_t mode) {
    REFUSE_UNLESS(intersection != NULL);
    return kcp_sums_intersection_new_by_mode(intersection, seed, mode);
}

kc_status kc_sums_intersection_free(kc_sums_intersection *intersection) {
    REFUSE_UNLESS(intersection != NULL);
    kcp_sums_intersection_free(intersection);
    return KC_OK;
}

kc_status kc_sums_intersection_add(kc_sums_intersection *intersection, const kc_sums *sketch) {
    REFUSE_UNLESS(intersection != NULL && sketch != NULL);
    kc_sums sketch_reader = *sketch;
    return kcp_sums_intersection_add(intersection, &sketch_reader);
}

kc_status kc_sums_intersection_add_compact(kc_sums_intersection *intersection, const kc_compact_sums *sketch) {
    REFUSE_UNLESS(intersection != NULL && sketch != NULL);
    kc_compact_sums sketch_reader = *sketch;
    return kcp_sums_intersection_add_compact(intersection, &sketch_reader);
}

kc_status kc_sums_intersection_add_image(kc_sums_intersection *intersection, const void *image, size_t count) {
    REFUSE_UNLESS(intersection != NULL && IS_BUFFER(image, count));
    return kcp_sums_intersection_add_image(intersection, INPUT(image), count);
}

kc_status kc_sums_intersection_result(const kc_sums_intersection *intersection, kc_compact_sums *out) {
    REFUSE_UNLESS(intersection != NULL && out != NULL);
    kc_sums_intersection intersection_reader = *intersection;
    return kcp_sums_intersection_result(&intersection_reader, out);
}

kc_status kc_sums_intersection_result_with(const kc_sums_intersection *intersection, uint32_t ordered,
                                           kc_compact_sums *out) {
    REFUSE_UNLESS(intersection != NULL && out != NULL);
    kc_sums_intersection intersection_reader = *intersection;
    return kcp_sums_intersection_result_with(&intersection_reader, ordered, out);
}

kc_status kc_sums_intersection_estimated_size(const kc_sums_intersection *intersection, uint64_t *bytes) {
    REFUSE_UNLESS(intersection != NULL && bytes != NULL);
    kc_sums_intersection intersection_reader = *intersection;
    return kcp_sums_intersection_estimated_size(&intersection_reader, bytes);
}

kc_status kc_sums_difference(const kc_compact_sums *first, const kc_compact_sums *second, uint64_t seed,
                             kc_compact_sums *out) {
    REFUSE_UNLESS(first != NULL && second != NULL && out != NULL && first != out && second != out);
    kc_compact_sums first_reader = *first;
    kc_compact_sums second_reader = *second;
    return kcp_sums_difference(&first_reader, &second_reader, seed, out);
}

kc_status kc_sums_difference_with(const kc_compact_sums *first, const kc_compact_sums *second, uint64_t seed,
                                  uint32_t ordered, kc_compact_sums *out) {
    REFUSE_UNLESS(first != NULL && second != NULL && out != NULL && first != out && second != out);
    kc_compact_sums first_reader = *first;
    kc_compact_sums second_reader = *second;
    return kcp_sums_difference_with(&first_reader, &second_reader, seed, ordered, out);
}

/* ---- Hashes ---- */

kc_status kc_hash_bytes(uint64_t seed, const void *bytes, size_t count, uint64_t *hash) {
    REFUSE_UNLESS(IS_BUFFER(bytes, count) && hash != NULL);
    *hash = kcp_hash_bytes(seed, INPUT(bytes), count);
    return KC_OK;
}

kc_status kc_hash_u64(uint64_t seed, uint64_t number, uint64_t *hash) {
    REFUSE_UNLESS(hash != NULL);
    *hash = kcp_hash_u64(seed, number);
    return KC_OK;
}

kc_status kc_seed_hash(uint64_t seed, uint32_t *out) {
    REFUSE_UNLESS(out != NULL);
    return kcp_seed_hash(seed, out);
}

/* ---- Estimates ---- */

kc_status kc_estimate_numerator(uint64_t retained, kc_wide *out) {
    REFUSE_UNLESS(out != NULL);
    kcp_estimate_numerator(retained, out);
    return KC_OK;
}

kc_status kc_estimate_decimal(uint64_t retained, uint64_t theta, uint32_t places, kc_wide *whole, uint64_t *decimals) {
    REFUSE_UNLESS(whole != NULL && decimals != NULL);
    return kcp_estimate_decimal(retained, theta, places, whole, decimals);
}

kc_status kc_estimate_text(const kc_state *state, uint32_t places, char *text, size_t room, uint64_t *length) {
    REFUSE_UNLESS(state != NULL && IS_BUFFER(text, room) && length != NULL);
    return kcp_estimate_text(state, places, OUTPUT(text, 0), room, length);
}

kc_status kc_estimate_rounded(uint64_t retained, uint64_t theta, kc_wide *out) {
    REFUSE_UNLESS(out != NULL);
    return kcp_estimate_rounded(retained, theta, out);
}

kc_status kc_count_bounds(uint64_t retained, uint64_t theta, uint32_t deviations, kc_wide *lower, kc_wide *upper) {
    REFUSE_UNLESS(lower != NULL && upper != NULL && lower != upper);
    return kcp_count_bounds(retained, theta, deviations, lower, upper);
}

kc_status kc_total_decimal(const kc_wide *total, uint64_t theta, uint32_t places, kc_wide *whole, uint64_t *decimals) {
    REFUSE_UNLESS(total != NULL && whole != NULL && total != whole && decimals != NULL);
    return kcp_total_decimal(total, theta, places, whole, decimals);
}

kc_status kc_total_text(const kc_wide *total, uint64_t theta, uint32_t places, char *text, size_t room,
                        uint64_t *length) {
    REFUSE_UNLESS(total != NULL && IS_BUFFER(text, room) && length != NULL);
    return kcp_total_text(total, theta, places, OUTPUT(text, 0), room, length);
}

kc_status kc_total_rounded(const kc_wide *total, uint64_t theta, kc_wide *out) {
    REFUSE_UNLESS(total != NULL && out != NULL && total != out);
    return kcp_total_rounded(total, theta, out);
}

kc_status kc_wide_text(const kc_wide *number, char *text, size_t room, uint64_t *length) {
    REFUSE_UNLESS(number != NULL && IS_BUFFER(text, room) && length != NULL);
    return kcp_wide_text(number, OUTPUT(text, 0), room, length);
}

/* ---- The library ---- */

const char *kc_status_text(kc_status status) {
    switch (status) {
    case KC_OK: return "the call did what it promises";
    case KC_INVALID_ARGUMENT: return "a null pointer, a handle without an object or one that has one already, a number out of range, a sketch of another seed";
    case KC_INVALID_DATA: return "the bytes begin with no sketch of this seed";
    case KC_OUT_OF_MEMORY: return "the memory that the call requested was refused";
    case KC_POLICY: return "a sum would be 2^64 or more";
    case KC_FAILED: return "memory or a sum was refused in an earlier merge; the union refuses all sketches until it is reset";
    case KC_TOO_SMALL: return "the buffer is too small; *length is the room that is needed";
    default: return "a number that is no status of this library";
    }
}

const char *kc_flaw_text(uint32_t flaw) {
    switch (flaw) {
    case KC_FLAW_HEXADECIMAL: return "they begin with 16 hexadecimal digits: turn the digits into bytes";
    case KC_FLAW_SHORT: return "there are fewer than eight bytes";
    case KC_FLAW_FAMILY: return "the image is of another family of sketches, which is `found`: 3 is that of theta sketches, 9 of tuple sketches";
    case KC_FLAW_VERSION: return "the image is of a version that is not read, which is `found`; version 4 is compressed";
    case KC_FLAW_BIG_ENDIAN: return "the image is flagged as one of numbers with the highest byte first";
    case KC_FLAW_SEED: return "the image has another seed hash, and is not that of an empty sketch";
    case KC_FLAW_CUT: return "the image is longer than the bytes, or they end within its preamble";
    case KC_FLAW_LONGER: return "bytes follow the image";
    case KC_FLAW_DAMAGED: return "the hashes or the summaries are not valid; it is also written for bytes without a flaw";
    case KC_FLAW_MALFORMED: return "the preamble has not 1 to 3 longs, or the image is of a sketch type that is not read";
    case KC_FLAW_THETA: return "theta is 0 or greater than 2^63 - 1";
    default: return "a number that is no flaw of an image";
    }
}

const char *kc_version(void) { return KC_VERSION; }
