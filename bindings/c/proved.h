/* The exports of the proved library: what calls.c calls. No pointer is null, no two handles are one variable. A slice of
 * Rattle is a pointer and a count; a Global takes no argument. A handle that is read is a copy of the caller's, which no
 * other call has. Made by make_calls.py. */
#ifndef KAFTANCLAY_PROVED_H
#define KAFTANCLAY_PROVED_H
#include "kaftanclay.h"

kc_status kcp_theta_new(kc_theta *sketch, uint32_t lg_k, uint64_t seed);
kc_status kcp_theta_new_with(kc_theta *sketch, uint32_t lg_k, uint64_t seed, uint32_t resize_factor,
                             uint64_t starting_theta);
kc_status kcp_theta_clone(kc_theta *sketch, kc_theta *out);
void kcp_theta_free(kc_theta *sketch);
kc_status kcp_theta_update_hash(kc_theta *sketch, uint64_t hash);
kc_status kcp_theta_insert_hash(kc_theta *sketch, uint64_t hash, kc_state *out);
kc_status kcp_theta_update_u64(kc_theta *sketch, uint64_t number);
kc_status kcp_theta_update_bytes(kc_theta *sketch, const uint8_t *bytes, size_t count);
kc_status kcp_theta_update_hashes(kc_theta *sketch, const uint64_t *hashes, size_t count);
kc_status kcp_theta_trim(kc_theta *sketch);
kc_status kcp_theta_reset(kc_theta *sketch);
kc_status kcp_theta_state(kc_theta *sketch, kc_state *out);
kc_status kcp_theta_image(kc_theta *sketch, uint8_t *out, size_t out_room, uint64_t *length);
kc_status kcp_theta_compact(kc_theta *sketch, kc_compact *out);
kc_status kcp_theta_hashes(kc_theta *sketch, uint64_t *hashes, size_t hashes_room, uint64_t *count);
kc_status kcp_theta_compact_with(kc_theta *sketch, uint32_t ordered, kc_compact *out);
kc_status kcp_theta_difference(kc_theta *first, kc_theta *second, uint64_t seed, kc_compact *out);
kc_status kcp_theta_estimated_size(kc_theta *sketch, uint64_t *bytes);
kc_status kcp_theta_update_strings(kc_theta *sketch, const uint8_t *bytes, size_t bytes_count, const uint64_t *ends,
                                   size_t ends_count);

kc_status kcp_text_new(kc_text *text, uint64_t seed);
void kcp_text_free(kc_text *text);
kc_status kcp_theta_update_text(kc_theta *sketch, kc_text *text, const uint8_t *piece, size_t count);
kc_status kcp_theta_end_text(kc_theta *sketch, kc_text *text);

kc_status kcp_compact_read(kc_compact *sketch, const uint8_t *image, size_t count, uint64_t seed);
kc_status kcp_compact_read_whole(kc_compact *sketch, const uint8_t *image, size_t count, uint64_t seed,
                                 kc_finding *found);
kc_status kcp_compact_of_hashes(kc_compact *sketch, const kc_state *state, uint32_t ordered, const uint64_t *hashes,
                                size_t count, uint64_t seed);
void kcp_compact_free(kc_compact *sketch);
kc_status kcp_compact_clone(kc_compact *sketch, kc_compact *out);
kc_status kcp_compact_state(kc_compact *sketch, kc_state *out);
kc_status kcp_compact_image(kc_compact *sketch, uint8_t *out, size_t out_room, uint64_t *length);
kc_status kcp_compact_tuple_preamble(kc_compact *sketch, uint8_t *out, size_t out_room, uint64_t *length);
kc_status kcp_compact_hashes(kc_compact *sketch, uint64_t *hashes, size_t hashes_room, uint64_t *count);
kc_status kcp_compact_seed_hash(kc_compact *sketch, uint32_t *out);
kc_status kcp_compact_is_ordered(kc_compact *sketch, uint32_t *out);
kc_status kcp_compact_estimated_size(kc_compact *sketch, uint64_t *bytes);

kc_status kcp_union_new(kc_union *u, uint32_t lg_k, uint64_t seed);
kc_status kcp_union_new_with(kc_union *u, uint32_t lg_k, uint64_t seed, uint32_t resize_factor,
                             uint64_t starting_theta);
void kcp_union_free(kc_union *u);
kc_status kcp_union_add(kc_union *u, kc_theta *sketch);
kc_status kcp_union_add_compact(kc_union *u, kc_compact *sketch);
kc_status kcp_union_add_image(kc_union *u, const uint8_t *image, size_t count);
kc_status kcp_union_result(kc_union *u, kc_compact *out);
kc_status kcp_union_image(kc_union *u, uint8_t *out, size_t out_room, uint64_t *length);
kc_status kcp_union_reset(kc_union *u);
kc_status kcp_union_lower_lg_k(kc_union *u, uint32_t lg_k);
kc_status kcp_union_result_with(kc_union *u, uint32_t ordered, kc_compact *out);
kc_status kcp_union_estimated_size(kc_union *u, uint64_t *bytes);

kc_status kcp_batch_new(kc_batch *batch, uint64_t seed);
void kcp_batch_free(kc_batch *batch);
kc_status kcp_batch_add(kc_batch *batch, kc_theta *sketch);
kc_status kcp_batch_add_compact(kc_batch *batch, kc_compact *sketch);
kc_status kcp_batch_add_image(kc_batch *batch, const uint8_t *image, size_t count);
kc_status kcp_batch_reset(kc_batch *batch);
kc_status kcp_union_add_batch(kc_union *u, kc_batch *batch);

kc_status kcp_intersection_new(kc_intersection *intersection, uint64_t seed);
void kcp_intersection_free(kc_intersection *intersection);
kc_status kcp_intersection_add(kc_intersection *intersection, kc_theta *sketch);
kc_status kcp_intersection_add_compact(kc_intersection *intersection, kc_compact *sketch);
kc_status kcp_intersection_add_image(kc_intersection *intersection, const uint8_t *image, size_t count);
kc_status kcp_intersection_result(kc_intersection *intersection, kc_compact *out);
kc_status kcp_intersection_result_with(kc_intersection *intersection, uint32_t ordered, kc_compact *out);
kc_status kcp_intersection_estimated_size(kc_intersection *intersection, uint64_t *bytes);
kc_status kcp_difference(kc_compact *first, kc_compact *second, uint64_t seed, kc_compact *out);
kc_status kcp_difference_with(kc_compact *first, kc_compact *second, uint64_t seed, uint32_t ordered, kc_compact *out);

kc_status kcp_image_state(const uint8_t *image, size_t count, uint64_t seed, kc_state *out);
kc_status kcp_images_intersect(const uint8_t *first, size_t first_count, const uint8_t *second, size_t second_count,
                               uint64_t seed, uint8_t *out, size_t out_room, uint64_t *length);
kc_status kcp_images_difference(const uint8_t *first, size_t first_count, const uint8_t *second, size_t second_count,
                                uint64_t seed, uint8_t *out, size_t out_room, uint64_t *length);
kc_status kcp_image_flaw(const uint8_t *image, size_t count, uint64_t seed, kc_finding *out);
kc_status kcp_sums_image_flaw(const uint8_t *image, size_t count, uint64_t seed, kc_finding *out);
kc_status kcp_tuple_head(const uint8_t *image, size_t count, uint64_t seed, kc_state *state, uint32_t *ordered,
                         uint64_t *start, kc_finding *found);

kc_status kcp_sums_new(kc_sums *sums, uint32_t lg_k, uint64_t seed);
kc_status kcp_sums_new_with(kc_sums *sums, uint32_t lg_k, uint64_t seed, uint32_t resize_factor,
                            uint64_t starting_theta);
kc_status kcp_sums_new_by_mode(kc_sums *sums, uint32_t lg_k, uint64_t seed, uint32_t resize_factor,
                               uint64_t starting_theta, uint32_t mode);
kc_status kcp_sums_clone(kc_sums *sums, kc_sums *out);
void kcp_sums_free(kc_sums *sums);
kc_status kcp_sums_add_hash(kc_sums *sums, uint64_t hash, uint64_t value);
kc_status kcp_sums_add_u64(kc_sums *sums, uint64_t number, uint64_t value);
kc_status kcp_sums_add_bytes(kc_sums *sums, const uint8_t *bytes, size_t count, uint64_t value);
kc_status kcp_sums_trim(kc_sums *sums);
kc_status kcp_sums_reset(kc_sums *sums);
kc_status kcp_sums_state(kc_sums *sums, kc_state *out);
kc_status kcp_sums_image(kc_sums *sums, uint8_t *out, size_t out_room, uint64_t *length);
kc_status kcp_sums_compact(kc_sums *sums, kc_compact_sums *out);
kc_status kcp_sums_total(kc_sums *sums, kc_wide *out);
kc_status kcp_sums_entries(kc_sums *sums, uint64_t *hashes, size_t hashes_room, uint64_t *values, size_t values_room,
                           uint64_t *count);
kc_status kcp_sums_compact_with(kc_sums *sums, uint32_t ordered, kc_compact_sums *out);
kc_status kcp_sums_updatable_difference(kc_sums *first, kc_sums *second, uint64_t seed, kc_compact_sums *out);
kc_status kcp_sums_estimated_size(kc_sums *sums, uint64_t *bytes);
kc_status kcp_sums_add_hashes(kc_sums *sums, const uint64_t *hashes, size_t hashes_count, const uint64_t *values,
                              size_t values_count, uint64_t *added);
kc_status kcp_sums_add_strings(kc_sums *sums, const uint8_t *bytes, size_t bytes_count, const uint64_t *ends,
                               size_t ends_count, const uint64_t *values, size_t values_count, uint64_t *added);

kc_status kcp_compact_sums_read(kc_compact_sums *sums, const uint8_t *image, size_t count, uint64_t seed);
kc_status kcp_compact_sums_read_whole(kc_compact_sums *sums, const uint8_t *image, size_t count, uint64_t seed,
                                      kc_finding *found);
void kcp_compact_sums_free(kc_compact_sums *sums);
kc_status kcp_compact_sums_clone(kc_compact_sums *sums, kc_compact_sums *out);
kc_status kcp_compact_sums_state(kc_compact_sums *sums, kc_state *out);
kc_status kcp_compact_sums_image(kc_compact_sums *sums, uint8_t *out, size_t out_room, uint64_t *length);
kc_status kcp_compact_sums_entries(kc_compact_sums *sums, uint64_t *hashes, size_t hashes_room, uint64_t *values,
                                   size_t values_room, uint64_t *count);
kc_status kcp_compact_sums_total(kc_compact_sums *sums, kc_wide *out);
kc_status kcp_compact_sums_seed_hash(kc_compact_sums *sums, uint32_t *out);
kc_status kcp_compact_sums_is_ordered(kc_compact_sums *sums, uint32_t *out);
kc_status kcp_compact_sums_estimated_size(kc_compact_sums *sums, uint64_t *bytes);

kc_status kcp_sums_union_new(kc_sums_union *u, uint32_t lg_k, uint64_t seed);
kc_status kcp_sums_union_new_with(kc_sums_union *u, uint32_t lg_k, uint64_t seed, uint32_t resize_factor,
                                  uint64_t starting_theta);
kc_status kcp_sums_union_new_by_mode(kc_sums_union *u, uint32_t lg_k, uint64_t seed, uint32_t resize_factor,
                                     uint64_t starting_theta, uint32_t mode);
void kcp_sums_union_free(kc_sums_union *u);
kc_status kcp_sums_union_add(kc_sums_union *u, kc_sums *sketch);
kc_status kcp_sums_union_add_compact(kc_sums_union *u, kc_compact_sums *sketch);
kc_status kcp_sums_union_add_image(kc_sums_union *u, const uint8_t *image, size_t count);
kc_status kcp_sums_union_result(kc_sums_union *u, kc_compact_sums *out);
kc_status kcp_sums_union_image(kc_sums_union *u, uint8_t *out, size_t out_room, uint64_t *length);
kc_status kcp_sums_union_reset(kc_sums_union *u);
kc_status kcp_sums_union_lower_lg_k(kc_sums_union *u, uint32_t lg_k);
kc_status kcp_sums_union_result_with(kc_sums_union *u, uint32_t ordered, kc_compact_sums *out);
kc_status kcp_sums_union_estimated_size(kc_sums_union *u, uint64_t *bytes);

kc_status kcp_sums_intersection_new(kc_sums_intersection *intersection, uint64_t seed);
kc_status kcp_sums_intersection_new_by_mode(kc_sums_intersection *intersection, uint64_t seed, uint32_t mode);
void kcp_sums_intersection_free(kc_sums_intersection *intersection);
kc_status kcp_sums_intersection_add(kc_sums_intersection *intersection, kc_sums *sketch);
kc_status kcp_sums_intersection_add_compact(kc_sums_intersection *intersection, kc_compact_sums *sketch);
kc_status kcp_sums_intersection_add_image(kc_sums_intersection *intersection, const uint8_t *image, size_t count);
kc_status kcp_sums_intersection_result(kc_sums_intersection *intersection, kc_compact_sums *out);
kc_status kcp_sums_intersection_result_with(kc_sums_intersection *intersection, uint32_t ordered, kc_compact_sums *out);
kc_status kcp_sums_intersection_estimated_size(kc_sums_intersection *intersection, uint64_t *bytes);
kc_status kcp_sums_difference(kc_compact_sums *first, kc_compact_sums *second, uint64_t seed, kc_compact_sums *out);
kc_status kcp_sums_difference_with(kc_compact_sums *first, kc_compact_sums *second, uint64_t seed, uint32_t ordered,
                                   kc_compact_sums *out);

uint64_t kcp_hash_bytes(uint64_t seed, const uint8_t *bytes, size_t count);
uint64_t kcp_hash_u64(uint64_t seed, uint64_t number);
kc_status kcp_seed_hash(uint64_t seed, uint32_t *out);

void kcp_estimate_numerator(uint64_t retained, kc_wide *out);
kc_status kcp_estimate_decimal(uint64_t retained, uint64_t theta, uint32_t places, kc_wide *whole, uint64_t *decimals);
kc_status kcp_estimate_text(const kc_state *state, uint32_t places, uint8_t *text, size_t text_room, uint64_t *length);
kc_status kcp_estimate_rounded(uint64_t retained, uint64_t theta, kc_wide *out);
kc_status kcp_count_bounds(uint64_t retained, uint64_t theta, uint32_t deviations, kc_wide *lower, kc_wide *upper);
kc_status kcp_total_decimal(const kc_wide *total, uint64_t theta, uint32_t places, kc_wide *whole, uint64_t *decimals);
kc_status kcp_total_text(const kc_wide *total, uint64_t theta, uint32_t places, uint8_t *text, size_t text_room,
                         uint64_t *length);
kc_status kcp_total_rounded(const kc_wide *total, uint64_t theta, kc_wide *out);
kc_status kcp_wide_text(const kc_wide *number, uint8_t *text, size_t text_room, uint64_t *length);

#endif
