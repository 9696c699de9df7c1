/* What the extensions for databases share: the state of an aggregate over a group of rows, the reader of an image, and the texts
 * that they print. Nothing here knows a database.
 *
 * An answer depends on the rows of a group alone, not on their order or on how they were split over workers: unions are trimmed to
 * their nominal entries, and an intersection keeps its exact sketches apart (see meet_add). All sketches are of KC_DEFAULT_SEED.
 *
 * A group of tuple sketches has a mode, KC_SUM, KC_MIN or KC_MAX: whether the summary of a key is the sum, the least or the greatest of
 * its values, or of its summaries in several sketches. An image doesn't record it. Theta sketches have no summaries, so the mode of their
 * groups has no effect. */
#ifndef KAFTANCLAY_GROUPS_H
#define KAFTANCLAY_GROUPS_H
#include <kaftanclay.h>

/* The binary logarithm of the nominal entries if none is passed, and its range. */
enum { DEFAULT_LG_K = 12, LEAST_LG_K = 4, GREATEST_LG_K = 26 };

/* What a message says of the words of modes, and the mode of a word: returns whether it is one of them. */
#define MODES "'sum', 'min' or 'max'"
int mode_of(const char *word, size_t length, uint8_t *mode);
/* The word of a mode. */
const char *word_of(uint8_t mode);

/* The least lg_k, from DEFAULT_LG_K on, of a union that keeps so many hashes; at most GREATEST_LG_K. An image doesn't record its lg_k. */
uint8_t lg_k_for(uint64_t retained);

/* The lg_k of a union that keeps as many hashes as its largest sketch retains: 2^lg_k_for(these). Which one is the largest is known at
 * the end, so nothing may be cut before: sketches that retain at most 2^SMALL_LG_K hashes are united with so many nominal entries, and
 * the others, by themselves, with 2^GREATEST_LG_K. The result is the union of both, cut. If there are others, the small ones may have
 * been cut to 2^SMALL_LG_K before. */
enum { BY_LARGEST = 255, SMALL_LG_K = 16, PIECES = 2 };

/* The union of keys and sketches. Keys are inserted into `rows`, sketches are merged into `parts`; each is made at its first use. Begin
 * with {0}, and set lg_k and the mode before the first call: lg_k to a number from LEAST_LG_K to GREATEST_LG_K or, for sketches alone,
 * BY_LARGEST. */
typedef struct {
    kc_theta rows;
    kc_union parts[PIECES]; /* with BY_LARGEST the first is of small sketches, the second of others; else all are in the first */
    uint8_t lg_k;
    uint8_t largest; /* with BY_LARGEST the lg_k that the largest sketch needs; 0 before the first sketch */
    uint8_t mode;
} union_group;

/* Insert a key. Refused with KC_OUT_OF_MEMORY, and with KC_INVALID_ARGUMENT if lg_k is out of range. */
kc_status union_add_bytes(union_group *group, const void *bytes, size_t count);
kc_status union_add_number(union_group *group, uint64_t number);
/* Merges a sketch, refused as the calls above are. */
kc_status union_add_sketch(union_group *group, kc_compact *sketch);
/* Makes the union as an ordered compact sketch, trimmed to its nominal entries; without keys and sketches the empty one. The group may go
 * on afterwards. Refused with KC_OUT_OF_MEMORY. */
kc_status union_result(union_group *group, kc_compact *out);
/* The same, faster: nothing may be added to the group afterwards, but this may be called again. After KC_OUT_OF_MEMORY it is only freed. */
kc_status union_end(union_group *group, kc_compact *out);
/* The pieces of a union, from 0 to PIECES - 1, from which another of the same lg_k and mode goes on: whether it has one, that piece as a
 * sketch, and the merge of one. `largest` is not in them. */
int union_has_piece(const union_group *group, int place);
kc_status union_piece(union_group *group, int place, kc_compact *out);
kc_status union_add_piece(union_group *group, int place, kc_compact *sketch);
/* Says whether a sketch is its own union with the keys of a group, which has no sketches: it retains all of them that are below its theta,
 * and no more hashes than the group would. That is faster than the union. Refused with KC_OUT_OF_MEMORY. */
kc_status union_holds(union_group *group, kc_compact *sketch, int *holds);
void union_free(union_group *group);

/* The intersection of sketches. Begin with {0}, and set the mode before the first call. */
enum { EXACT, SAMPLED };
typedef struct {
    kc_intersection parts[PIECES]; /* of the sketches whose theta is KC_MAX_THETA, the empty ones among them, and of the others */
    uint8_t mode;
} meet_group;

/* Intersects with a sketch, refused with KC_OUT_OF_MEMORY. An intersection in one piece would be the empty sketch only if exact sketches
 * without a common hash come before the first sampled one, so it would depend on the order; two pieces don't. */
kc_status meet_add(meet_group *group, kc_compact *sketch);
/* Whether the group has a sketch, and so a result. */
int meet_has_result(const meet_group *group);
/* Makes the intersection as an ordered compact sketch: the empty one if the exact sketches have no common hash. Refused with
 * KC_OUT_OF_MEMORY, and with KC_INVALID_ARGUMENT without a sketch. */
kc_status meet_result(meet_group *group, kc_compact *out);
/* The pieces of an intersection: whether it has one, and that piece as a sketch, which another merges by meet_add. */
int meet_has_piece(const meet_group *group, int place);
kc_status meet_piece(meet_group *group, int place, kc_compact *out);
void meet_free(meet_group *group);

/* The union of keys with values, and of tuple sketches, which combines the summaries of a key by the mode. Its calls are those of
 * union_group; with KC_SUM they are also refused with KC_POLICY if the sum of a key would be 2^64 or more, and then the group has failed. */
typedef struct {
    kc_sums rows;
    kc_sums_union parts[PIECES];
    uint8_t lg_k;
    uint8_t largest;
    uint8_t mode;
} sums_group;

/* Add a value at a key. */
kc_status sums_add_bytes(sums_group *group, const void *bytes, size_t count, uint64_t value);
kc_status sums_add_number(sums_group *group, uint64_t number, uint64_t value);
kc_status sums_add_sketch(sums_group *group, kc_compact_sums *sketch);
kc_status sums_result(sums_group *group, kc_compact_sums *out);
kc_status sums_end(sums_group *group, kc_compact_sums *out);
int sums_has_piece(const sums_group *group, int place);
kc_status sums_piece(sums_group *group, int place, kc_compact_sums *out);
kc_status sums_add_piece(sums_group *group, int place, kc_compact_sums *sketch);
/* The same; but of a key that the sketch has the summary may change, so none may be below its theta. */
kc_status sums_holds(sums_group *group, kc_compact_sums *sketch, int *holds);
void sums_free(sums_group *group);

/* The intersection of tuple sketches, which combines the summaries of a key by the mode, and its calls, as those of meet_group. With KC_SUM
 * sums_meet_add and sums_meet_result are also refused with KC_POLICY if the sum of a key would be 2^64 or more; nothing has changed then. */
typedef struct {
    kc_sums_intersection parts[PIECES];
    uint8_t mode;
} sums_meet_group;
kc_status sums_meet_add(sums_meet_group *group, kc_compact_sums *sketch);
int sums_meet_has_result(const sums_meet_group *group);
kc_status sums_meet_result(sums_meet_group *group, kc_compact_sums *out);
int sums_meet_has_piece(const sums_meet_group *group, int place);
kc_status sums_meet_piece(sums_meet_group *group, int place, kc_compact_sums *out);
void sums_meet_free(sums_meet_group *group);

/* Reads the one sketch that the bytes are the image of. If they are none, returns KC_INVALID_DATA and sets *flaw to the reason, which
 * completes a sentence: "the image is cut short". */
kc_status read_image(const void *image, size_t count, kc_compact *out, const char **flaw);
kc_status read_sums(const void *image, size_t count, kc_compact_sums *out, const char **flaw);

/* Makes the hashes of a sketch ascend. Refused with KC_OUT_OF_MEMORY. */
kc_status meet_order(kc_compact *sketch);
kc_status sums_meet_order(kc_compact_sums *sketch);

/* Room for the texts of these calls. */
enum { DESCRIPTION_ROOM = 256 };
/* Writes what `distinct show` prints of a sketch: its count, whether that is exact, bounds by two standard deviations of an estimate, how
 * many hashes it retains, and theta. Returns the length of the text, which has a final 0 byte; or -1 if no sketch has this state. */
int describe_state(const kc_state *state, char *text);
/* Writes the same of the keys of a tuple sketch, and the estimate of its total, to the nearest whole number, likewise. */
int describe_sums(const kc_state *state, const kc_wide *total, char *text);
/* Writes bounds as a JSON array, such as [180,349], likewise. */
int describe_bounds(kc_wide lower, kc_wide upper, char *text);
/* The nearest floating-point number to a number of 128 bits. */
double number_of(kc_wide n);
#endif
