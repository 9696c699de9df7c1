/* Theta sketches, and tuple sketches of sums of 64 bits, for C.
 *
 * A theta sketch estimates how many distinct values a stream has. It retains the hashes of the values that are below
 * its theta; if they become too many, it lowers theta and drops the greatest hashes. The estimate is
 * retained * KC_MAX_THETA / theta.
 *
 * Handles. An object is kept in a handle, a variable of one of the types below that have it as their only member. Begin
 * each with {0}, which has no object. A call that makes an object puts it into such a handle, and is refused with
 * KC_INVALID_ARGUMENT if the handle has one already. The free calls take the object out again, so freeing twice does
 * nothing. Don't copy a handle: two copies would own one object. A call that takes a handle as const only reads its
 * object.
 *
 * Statuses. A call returns KC_OK, or the reason why it was refused; kc_status_text has the reason in words. A call that
 * is refused changes nothing, neither an object nor an output, except where its comment says otherwise.
 * KC_INVALID_ARGUMENT is also the status of a null pointer, and of a handle without an object. A buffer of input may be
 * null if its count is 0. No call stops the process.
 *
 * Buffers of output. A call that writes bytes writes their number to *length. If the buffer has no room for them, the
 * status is KC_TOO_SMALL, the buffer is as before, and *length is the room that is needed. So call with a room of 0
 * first (the buffer may then be null), allocate, and call again.
 *
 * Seeds. Sketches are merged only if their seeds have one seed hash. KC_DEFAULT_SEED is the seed that all
 * implementations of the DataSketches format use if no other is passed. The seed of an empty sketch is never checked.
 *
 * Threads. Calls that take a handle as const may use it at the same time, and one call may take it twice. While a call
 * runs that takes a handle otherwise, no other uses it. No two arguments of a call may overlap, except those that are
 * const.
 */
/* Made by bindings/c/make_calls.py from the exports of crates/c_library: change those. */
#ifndef KAFTANCLAY_H
#define KAFTANCLAY_H
#include <stddef.h>
#include <stdint.h>
#ifdef __cplusplus
extern "C" {
#endif

#define KC_VERSION "0.2.0"
#define KC_DEFAULT_SEED UINT64_C(9001)
#define KC_MAX_THETA UINT64_C(9223372036854775807)

typedef uint32_t kc_status;
enum {
    KC_OK = 0,               /* the call did what it promises */
    KC_INVALID_ARGUMENT = 1, /* a null pointer, a handle without an object or one that has one already, a number out of
                              * range, a sketch of another seed */
    KC_INVALID_DATA = 2,     /* the bytes begin with no sketch of this seed */
    KC_OUT_OF_MEMORY = 3,    /* the memory that the call requested was refused */
    KC_POLICY = 4,           /* a sum would be 2^64 or more */
    KC_FAILED = 5,           /* memory or a sum was refused in an earlier merge; the union refuses all sketches until it
                              * is reset */
    KC_TOO_SMALL = 6         /* the buffer is too small; *length is the room that is needed */
};

/* Why bytes are not one image. */
enum {
    KC_FLAW_HEXADECIMAL = 1, /* they begin with 16 hexadecimal digits: turn the digits into bytes */
    KC_FLAW_SHORT = 2,       /* there are fewer than eight bytes */
    KC_FLAW_FAMILY = 3,      /* the image is of another family of sketches, which is `found`: 3 is that of theta
                              * sketches, 9 of tuple sketches */
    KC_FLAW_VERSION = 4,     /* the image is of a version that is not read, which is `found`; version 4 is compressed */
    KC_FLAW_BIG_ENDIAN = 5,  /* the image is flagged as one of numbers with the highest byte first */
    KC_FLAW_SEED = 6,        /* the image has another seed hash, and is not that of an empty sketch */
    KC_FLAW_CUT = 7,         /* the image is longer than the bytes, or they end within its preamble */
    KC_FLAW_LONGER = 8,      /* bytes follow the image */
    KC_FLAW_DAMAGED = 9,     /* the hashes or the summaries are not valid; it is also written for bytes without a
                              * flaw */
    KC_FLAW_MALFORMED = 10,  /* the preamble has not 1 to 3 longs, or the image is of a sketch type that is not read */
    KC_FLAW_THETA = 11       /* theta is 0 or greater than 2^63 - 1 */
};

/* What a tuple sketch keeps of the values of a key. */
enum {
    KC_SUM = 0, /* the sum of the values of a key */
    KC_MIN = 1, /* the least value of a key */
    KC_MAX = 2  /* the greatest value of a key */
};

typedef struct { void *object; } kc_theta;             /* a theta sketch that takes updates */
typedef struct { void *object; } kc_compact;           /* a compact theta sketch, which never changes */
typedef struct { void *object; } kc_text;              /* a text whose lines update a sketch */
typedef struct { void *object; } kc_batch;             /* a batch of theta sketches */
typedef struct { void *object; } kc_union;             /* a union of theta sketches */
typedef struct { void *object; } kc_intersection;      /* an intersection of theta sketches */
typedef struct { void *object; } kc_sums;              /* a tuple sketch whose summaries are sums of 64 bits */
typedef struct { void *object; } kc_compact_sums;      /* a compact tuple sketch of sums, which never changes */
typedef struct { void *object; } kc_sums_union;        /* a union of tuple sketches of sums */
typedef struct { void *object; } kc_sums_intersection; /* an intersection of tuple sketches of sums */

/* The state of a sketch, from which its estimate follows. */
typedef struct {
    uint64_t retained; /* how many hashes it retains, fewer than 2^32 */
    uint64_t theta;    /* from 1 to KC_MAX_THETA, which is that of an empty sketch */
    uint64_t empty;    /* 1 if no update was accepted, or an operator returned the empty sketch; else 0 */
} kc_state;

/* A number of 128 bits: low + 2^64 * high. */
typedef struct {
    uint64_t low;  /* the number modulo 2^64 */
    uint64_t high; /* the number divided by 2^64, rounded down */
} kc_wide;

/* What the preamble of bytes says of the image that they begin. */
typedef struct {
    uint32_t flaw;   /* why they are not one image, from 1 to 11: the first of the flaws that applies */
    uint32_t found;  /* the byte of the family or of the version that is at fault; else 0 */
    uint64_t length; /* how many bytes the image has by its preamble, at least 8; 0 if that isn't known */
} kc_finding;

/* ---- Theta sketches that take updates ---- */

/* Makes an empty sketch of 2^lg_k nominal entries. Refused with KC_INVALID_ARGUMENT if lg_k isn't from 4 to 26 or the
 * hash of the seed is 0, and with KC_OUT_OF_MEMORY. */
kc_status kc_theta_new(kc_theta *sketch, uint32_t lg_k, uint64_t seed);
/* Makes a sketch whose slots grow by a resize factor, 1, 2, 4 or 8 (kc_theta_new takes 8), and that begins at a theta
 * from 1 to KC_MAX_THETA, also after a reset. With the factor 1 it has all of its slots from the start. No value
 * depends on the factor. Refused as kc_theta_new is, and with KC_INVALID_ARGUMENT if the factor or the theta is out of
 * range. */
kc_status kc_theta_new_with(kc_theta *sketch, uint32_t lg_k, uint64_t seed, uint32_t resize_factor,
                            uint64_t starting_theta);
/* Copies a sketch, with its theta and settings, into another handle. Refused with KC_OUT_OF_MEMORY. */
kc_status kc_theta_clone(const kc_theta *sketch, kc_theta *out);
/* Frees the sketch of a handle, if it has one. */
kc_status kc_theta_free(kc_theta *sketch);
/* Updates a sketch with a hash of 63 bits. A hash that is 0 or at least theta is not retained, but the sketch is
 * nonempty afterwards. Refused with KC_OUT_OF_MEMORY, only for a new hash below theta. */
kc_status kc_theta_update_hash(kc_theta *sketch, uint64_t hash);
/* Updates a sketch with a hash, as kc_theta_update_hash does, and writes the state after it, as kc_theta_state does. If
 * theta is as before the call, the hash was new exactly if one more is retained. Refused as kc_theta_update_hash is. */
kc_status kc_theta_insert_hash(kc_theta *sketch, uint64_t hash, kc_state *out);
/* Updates a sketch with a number, by the hash of its eight bytes, the lowest first: the hash of the other
 * implementations. Refused as kc_theta_update_hash is. */
kc_status kc_theta_update_u64(kc_theta *sketch, uint64_t number);
/* Updates a sketch with bytes, by their hash: the hash of the other implementations. A string of no bytes is a value
 * too. Refused as kc_theta_update_hash is. */
kc_status kc_theta_update_bytes(kc_theta *sketch, const void *bytes, size_t count);
/* Updates a sketch with many hashes in their order, each as kc_theta_update_hash does; a few hundred per call are fast.
 * Without hashes nothing changes. Refused with KC_OUT_OF_MEMORY at a new hash below theta; then exactly the hashes
 * before it have been inserted, and the same call may be repeated. */
kc_status kc_theta_update_hashes(kc_theta *sketch, const uint64_t *hashes, size_t count);
/* If the sketch retains more than its k = 2^lg_k nominal entries, lowers theta to the (k+1)th smallest hash and keeps
 * the k hashes below it. Refused with KC_OUT_OF_MEMORY, only if it retains more. */
kc_status kc_theta_trim(kc_theta *sketch);
/* Makes a sketch empty again, as when it was new. */
kc_status kc_theta_reset(kc_theta *sketch);
/* Writes the sketch's state: how many hashes it retains, its theta, and whether it is empty. */
kc_status kc_theta_state(const kc_theta *sketch, kc_state *out);
/* Writes the image of the sketch's ordered compact form, in the DataSketches format. Refused with KC_OUT_OF_MEMORY. */
kc_status kc_theta_image(const kc_theta *sketch, void *out, size_t room, uint64_t *length);
/* Makes the sketch's ordered compact form, of the same value, untrimmed. Refused with KC_OUT_OF_MEMORY. */
kc_status kc_theta_compact(const kc_theta *sketch, kc_compact *out);
/* Writes the sketch's hashes, each once in no particular order, to an array of `room` numbers, and their number to
 * *count. If room is less, the status is KC_TOO_SMALL, the array is as before, and *count is the room that is
 * needed. */
kc_status kc_theta_hashes(const kc_theta *sketch, uint64_t *hashes, size_t room, uint64_t *count);
/* Makes the sketch's compact form, as kc_theta_compact does. If `ordered` is 1, its hashes ascend; if it is 0, they are
 * in any order, which is faster, and it is ordered only if it is empty or has one hash at the greatest theta. Refused
 * with KC_INVALID_ARGUMENT if `ordered` is neither 0 nor 1, and with KC_OUT_OF_MEMORY. */
kc_status kc_theta_compact_with(const kc_theta *sketch, uint32_t ordered, kc_compact *out);
/* Makes the difference of two sketches, as kc_difference does of compact ones. */
kc_status kc_theta_difference(const kc_theta *first, const kc_theta *second, uint64_t seed, kc_compact *out);
/* Writes how many bytes the slots of the sketch take, 8 for each of 32 to 2^(lg_k + 1) slots, free ones included. */
kc_status kc_theta_estimated_size(const kc_theta *sketch, uint64_t *bytes);
/* Updates a sketch with byte strings in their order, each by its hash. They lie one after another in `bytes`, the first
 * from offset 0, and ends[i] is the offset of the end of string i. The call allocates eight bytes per string. Refused
 * with KC_INVALID_ARGUMENT if an end is below the one before it or past the bytes. Refused with KC_OUT_OF_MEMORY; then
 * only the first strings have been inserted, perhaps none, and the same call may be repeated. */
kc_status kc_theta_update_strings(kc_theta *sketch, const void *bytes, size_t bytes_count, const uint64_t *ends,
                                  size_t ends_count);

/* ---- The lines of a text ---- */

/* Begins a text and puts it into a handle. Its lines are hashed whole, without the LF that ends each, under this seed.
 * Refused with KC_INVALID_ARGUMENT if the handle has a text already, and with KC_OUT_OF_MEMORY; then the handle is as
 * before. */
kc_status kc_text_new(kc_text *text, uint64_t seed);
/* Frees the text of a handle. A handle without one stays as it is. */
kc_status kc_text_free(kc_text *text);
/* Updates a sketch with the lines that end in the next piece of a text, each by its hash. A text may be cut into pieces
 * anywhere, also within a line: the text keeps the state of its open line's hash. Once the text is ended, exactly the
 * lines of all its pieces have been inserted, as kc_theta_update_bytes inserts each. Other updates may come in between.
 * Refused with KC_INVALID_ARGUMENT if a handle has no object or the text is of another seed than the sketch; then
 * nothing has changed. Refused with KC_OUT_OF_MEMORY; then exactly some first lines of the piece have been inserted,
 * perhaps none, the text is as before, and the same call may be repeated. */
kc_status kc_theta_update_text(kc_theta *sketch, kc_text *text, const void *piece, size_t count);
/* Ends a text: updates the sketch with a last line that no LF ends, if it has a byte. The handle is then ready for
 * another text. Refused with KC_INVALID_ARGUMENT if a handle has no object or the text is of another seed than the
 * sketch, and with KC_OUT_OF_MEMORY; then nothing has changed, and the same call may be repeated. */
kc_status kc_theta_end_text(kc_theta *sketch, kc_text *text);

/* ---- Compact theta sketches ---- */

/* Reads the sketch that the bytes begin with, under this seed; bytes after it are ignored. Serial versions 1, 2 and 3
 * are read. Refused with KC_INVALID_DATA if the bytes begin with no sketch of this seed, and with KC_OUT_OF_MEMORY. */
kc_status kc_compact_read(kc_compact *sketch, const void *image, size_t count, uint64_t seed);
/* Reads the sketch that the bytes are, all of them, under this seed. Refused with KC_INVALID_DATA if the bytes are no
 * sketch of this seed, or others follow it; then why is written to *found, as kc_image_flaw does. Refused with
 * KC_OUT_OF_MEMORY. */
kc_status kc_compact_read_whole(kc_compact *sketch, const void *image, size_t count, uint64_t seed, kc_finding *found);
/* Makes the sketch of a state, as kc_compact_state writes it, and of hashes in their order, which kc_compact_hashes
 * writes; `ordered` is what kc_compact_is_ordered writes. Refused with KC_INVALID_DATA if no sketch of this seed has
 * them: a hash is 0, repeated, or not below theta, they don't ascend though `ordered` is 1, they are not as many as the
 * state retains, or a number is out of range. Refused with KC_OUT_OF_MEMORY. */
kc_status kc_compact_of_hashes(kc_compact *sketch, const kc_state *state, uint32_t ordered, const uint64_t *hashes,
                               size_t count, uint64_t seed);
/* Frees the sketch of a handle, if it has one. */
kc_status kc_compact_free(kc_compact *sketch);
/* Copies a sketch into another handle. Refused with KC_OUT_OF_MEMORY. */
kc_status kc_compact_clone(const kc_compact *sketch, kc_compact *out);
/* Writes the sketch's state, as kc_theta_state does. */
kc_status kc_compact_state(const kc_compact *sketch, kc_state *out);
/* Writes the sketch's image, in the DataSketches format. Refused with KC_OUT_OF_MEMORY. */
kc_status kc_compact_image(const kc_compact *sketch, void *out, size_t room, uint64_t *length);
/* Writes the preamble of the image of a tuple sketch with the sketch's hashes, of 8, 16 or 24 bytes. The entries follow
 * it in the order of the hashes: each is a hash of eight bytes, the lowest first, and then a summary of your own. */
kc_status kc_compact_tuple_preamble(const kc_compact *sketch, void *out, size_t room, uint64_t *length);
/* Writes the sketch's hashes, in the order of its image, as kc_theta_hashes does. */
kc_status kc_compact_hashes(const kc_compact *sketch, uint64_t *hashes, size_t room, uint64_t *count);
/* Writes the hash of the sketch's seed, of 16 bits, as kc_seed_hash does. */
kc_status kc_compact_seed_hash(const kc_compact *sketch, uint32_t *out);
/* Writes 1 if the sketch is ordered: its hashes ascend; otherwise 0, and they are in any order. */
kc_status kc_compact_is_ordered(const kc_compact *sketch, uint32_t *out);
/* Writes how many bytes the sketch's hashes take, 8 for each. */
kc_status kc_compact_estimated_size(const kc_compact *sketch, uint64_t *bytes);

/* ---- Unions ---- */

/* Makes a union of 2^lg_k nominal entries. Its value has the hashes of all its sketches below their least theta; if
 * these are more than k = 2^lg_k, the k least, and its theta is the (k+1)th. Refused as kc_theta_new is. */
kc_status kc_union_new(kc_union *u, uint32_t lg_k, uint64_t seed);
/* Makes a union with a resize factor and a starting theta, as kc_theta_new_with makes a sketch. */
kc_status kc_union_new_with(kc_union *u, uint32_t lg_k, uint64_t seed, uint32_t resize_factor, uint64_t starting_theta);
/* Frees the union of a handle, if it has one. */
kc_status kc_union_free(kc_union *u);
/* Merges a sketch that takes updates into the union. An empty sketch changes nothing. Refused with KC_INVALID_ARGUMENT
 * for a sketch of another seed, and with KC_FAILED if the union has failed, whatever the sketch; then nothing has
 * changed. Refused with KC_OUT_OF_MEMORY; then the union has failed until it is reset. */
kc_status kc_union_add(kc_union *u, const kc_theta *sketch);
/* Merges a compact sketch into the union, as kc_union_add does. */
kc_status kc_union_add_compact(kc_union *u, const kc_compact *sketch);
/* Merges the sketch that the bytes begin with, read under the union's seed, as kc_union_add does. Refused with
 * KC_INVALID_DATA if the bytes begin with no sketch of this seed, also by a union that has failed, and otherwise as
 * kc_union_add is; but if memory runs out while the image is read, nothing has changed. */
kc_status kc_union_add_image(kc_union *u, const void *image, size_t count);
/* Makes the union's value as an ordered compact sketch. Refused with KC_FAILED if the union has failed, and with
 * KC_OUT_OF_MEMORY. */
kc_status kc_union_result(const kc_union *u, kc_compact *out);
/* Writes the image of that sketch, refused as kc_union_result is. */
kc_status kc_union_image(const kc_union *u, void *out, size_t room, uint64_t *length);
/* Makes the union empty again, as when it was new, and ends a failure. */
kc_status kc_union_reset(kc_union *u);
/* Lowers the union to 2^lg_k nominal entries, lg_k from 4 to its own: its value is cut to those, and later values have
 * no more, also after a reset. With its own lg_k nothing changes. Refused with KC_FAILED if the union has failed, else
 * with KC_INVALID_ARGUMENT if lg_k is out of range, and with KC_OUT_OF_MEMORY. */
kc_status kc_union_lower_lg_k(kc_union *u, uint32_t lg_k);
/* Makes the union's value as a compact sketch, as kc_union_result does, ordered or not, as in kc_theta_compact_with.
 * Refused as kc_union_result is, and with KC_INVALID_ARGUMENT if `ordered` is neither 0 nor 1. */
kc_status kc_union_result_with(const kc_union *u, uint32_t ordered, kc_compact *out);
/* Writes how many bytes the slots of the union take, as kc_theta_estimated_size does, and the lists of its hashes, if
 * it has gone over to lists. */
kc_status kc_union_estimated_size(const kc_union *u, uint64_t *bytes);

/* ---- Many sketches at once ---- */

/* Makes a batch without sketches and puts it into a handle. Images will be read under this seed. Refused with
 * KC_INVALID_ARGUMENT if the handle has a batch already, and with KC_OUT_OF_MEMORY; then the handle is as before. */
kc_status kc_batch_new(kc_batch *batch, uint64_t seed);
/* Frees the batch of a handle, with its sketches. A handle without one stays as it is. */
kc_status kc_batch_free(kc_batch *batch);
/* Puts a copy of a sketch that takes updates into a batch, its ordered compact form. The sketch doesn't change, and
 * later updates don't change the copy. Its seed is checked when the batch is merged. Refused with KC_INVALID_ARGUMENT
 * if a handle has no object, and with KC_OUT_OF_MEMORY; then the batch has the same sketches as before. */
kc_status kc_batch_add(kc_batch *batch, const kc_theta *sketch);
/* Puts a copy of a compact sketch into a batch, as kc_batch_add does. */
kc_status kc_batch_add_compact(kc_batch *batch, const kc_compact *sketch);
/* Puts the sketch that the bytes begin with into a batch, read under the batch's seed. Refused with KC_INVALID_DATA if
 * the bytes begin with no sketch of this seed, and otherwise as kc_batch_add is; then the batch has the same sketches
 * as before. */
kc_status kc_batch_add_image(kc_batch *batch, const void *image, size_t count);
/* Takes all sketches out of a batch. Refused with KC_INVALID_ARGUMENT if the handle has no batch. */
kc_status kc_batch_reset(kc_batch *batch);
/* Merges all sketches of a batch into a union, which then has the value of one kc_union_add after another. The batch
 * doesn't change. Empty sketches change nothing, and their seeds are not checked. Refused with KC_INVALID_ARGUMENT if a
 * handle has no object or a sketch is of another seed, and with KC_FAILED if the union has failed, whatever the
 * sketches; then none is merged and nothing has changed. Refused with KC_OUT_OF_MEMORY: if memory runs out in the
 * merge, the union has failed until it is reset; if it runs out before, none is merged and nothing has changed. */
kc_status kc_union_add_batch(kc_union *u, const kc_batch *batch);

/* ---- Intersections and differences ---- */

/* Makes an intersection, which has no value before its first sketch. Refused with KC_INVALID_ARGUMENT if the hash of
 * the seed is 0, and with KC_OUT_OF_MEMORY. */
kc_status kc_intersection_new(kc_intersection *intersection, uint64_t seed);
/* Frees the intersection of a handle, if it has one. */
kc_status kc_intersection_free(kc_intersection *intersection);
/* Intersects with a sketch that takes updates: the value keeps the hashes that all sketches share below their least
 * theta. It is empty for good once a sketch is, or once sketches that have hashes share none while theta is
 * KC_MAX_THETA; it then accepts every sketch. Refused with KC_INVALID_ARGUMENT for a sketch of another seed, and with
 * KC_OUT_OF_MEMORY; nothing has changed then. */
kc_status kc_intersection_add(kc_intersection *intersection, const kc_theta *sketch);
/* Intersects with a compact sketch, as kc_intersection_add does. */
kc_status kc_intersection_add_compact(kc_intersection *intersection, const kc_compact *sketch);
/* Intersects with the sketch that the bytes begin with, read under the intersection's seed, as kc_intersection_add
 * does. Refused with KC_INVALID_DATA if the bytes begin with no sketch of this seed, and otherwise as
 * kc_intersection_add is; nothing has changed then. */
kc_status kc_intersection_add_image(kc_intersection *intersection, const void *image, size_t count);
/* Makes the intersection's value as an ordered compact sketch. Refused with KC_INVALID_ARGUMENT before the first
 * sketch, and with KC_OUT_OF_MEMORY. */
kc_status kc_intersection_result(const kc_intersection *intersection, kc_compact *out);
/* Makes the intersection's value as a compact sketch, as kc_intersection_result does, ordered or not, as in
 * kc_theta_compact_with. Refused as kc_intersection_result is, and with KC_INVALID_ARGUMENT if `ordered` is neither 0
 * nor 1. */
kc_status kc_intersection_result_with(const kc_intersection *intersection, uint32_t ordered, kc_compact *out);
/* Writes how many bytes the hashes of the intersection's value take, 8 for each; 0 before the first sketch. */
kc_status kc_intersection_estimated_size(const kc_intersection *intersection, uint64_t *bytes);
/* Makes the difference of two sketches, as an ordered compact sketch: the hashes of the first that the second lacks,
 * below the lesser theta. Pass three different handles. Refused with KC_INVALID_ARGUMENT if the hash of the seed is 0,
 * and, unless the first sketch is empty, if one that isn't empty is of another seed; and with KC_OUT_OF_MEMORY. With an
 * empty first sketch the difference is empty, and the second sketch may be of any seed. */
kc_status kc_difference(const kc_compact *first, const kc_compact *second, uint64_t seed, kc_compact *out);
/* Makes the difference of two sketches, as kc_difference does; it is ordered if `ordered` is 1, or if the first sketch
 * is. Refused as kc_difference is, and with KC_INVALID_ARGUMENT if `ordered` is neither 0 nor 1. */
kc_status kc_difference_with(const kc_compact *first, const kc_compact *second, uint64_t seed, uint32_t ordered,
                             kc_compact *out);

/* ---- Images alone ---- */

/* Writes the state of the sketch that the bytes begin with, read under this seed. Refused with KC_INVALID_DATA if the
 * bytes begin with no sketch of this seed, and with KC_OUT_OF_MEMORY. */
kc_status kc_image_state(const void *image, size_t count, uint64_t seed, kc_state *out);
/* Writes the image of the intersection of the sketches that two images begin with, read under this seed. Refused as
 * kc_image_state is. */
kc_status kc_images_intersect(const void *first, size_t first_count, const void *second, size_t second_count,
                              uint64_t seed, void *out, size_t room, uint64_t *length);
/* Writes the image of their difference, which has the hashes of the first that the second lacks. Refused as
 * kc_image_state is. */
kc_status kc_images_difference(const void *first, size_t first_count, const void *second, size_t second_count,
                               uint64_t seed, void *out, size_t room, uint64_t *length);
/* Writes why the bytes are not one image of a theta sketch of this seed, and how long the image is that they begin.
 * Call it for bytes that a call refused with KC_INVALID_DATA, or to learn whether bytes follow an image that was read:
 * it reads the preamble alone, and so finds no flaw in the hashes. Refused with KC_INVALID_ARGUMENT if the hash of the
 * seed is 0. */
kc_status kc_image_flaw(const void *image, size_t count, uint64_t seed, kc_finding *out);
/* Writes the same of bytes that are not one image of a tuple sketch of sums. */
kc_status kc_sums_image_flaw(const void *image, size_t count, uint64_t seed, kc_finding *out);
/* Writes what the preamble of the image of a tuple sketch says, whose summaries may have any length: the state of the
 * sketch; 1 to *ordered if its hashes ascend, else 0; and at which byte its first entry begins. The bytes have at least
 * eight for each entry, those of its hash. Refused with KC_INVALID_DATA if the preamble is not that of a tuple sketch
 * of this seed, or the bytes are too few; then why is written to *found, as kc_image_flaw does, with the least length
 * that the image may have. */
kc_status kc_tuple_head(const void *image, size_t count, uint64_t seed, kc_state *state, uint32_t *ordered,
                        uint64_t *start, kc_finding *found);

/* ---- Tuple sketches of sums ---- */

/* Makes an empty sketch, as kc_theta_new does. */
kc_status kc_sums_new(kc_sums *sums, uint32_t lg_k, uint64_t seed);
/* Makes a sketch with a resize factor and a starting theta, as kc_theta_new_with does. */
kc_status kc_sums_new_with(kc_sums *sums, uint32_t lg_k, uint64_t seed, uint32_t resize_factor,
                           uint64_t starting_theta);
/* Makes a sketch of a mode, otherwise as kc_sums_new_with does. Beside each hash it keeps the sum of its values for
 * KC_SUM, as other sketches do, the least of them for KC_MIN, and the greatest for KC_MAX. Refused with
 * KC_INVALID_ARGUMENT for another mode too. */
kc_status kc_sums_new_by_mode(kc_sums *sums, uint32_t lg_k, uint64_t seed, uint32_t resize_factor,
                              uint64_t starting_theta, uint32_t mode);
/* Copies a sketch, with its sums, its theta and settings, into another handle. Refused with KC_OUT_OF_MEMORY. */
kc_status kc_sums_clone(const kc_sums *sums, kc_sums *out);
/* Frees the sketch of a handle, if it has one. */
kc_status kc_sums_free(kc_sums *sums);
/* Adds a value to the sum of a hash, which is 0 at first; or keeps the less or the greater of both, if that is the
 * sketch's mode. A hash that is 0 or at least theta is not retained, but the sketch is nonempty afterwards. Refused
 * with KC_POLICY if a sum would be 2^64 or more, and with KC_OUT_OF_MEMORY, only for a new hash below theta. */
kc_status kc_sums_add_hash(kc_sums *sums, uint64_t hash, uint64_t value);
/* Adds a value to the sum of a number, by its hash as in kc_theta_update_u64. Refused as kc_sums_add_hash is. */
kc_status kc_sums_add_u64(kc_sums *sums, uint64_t number, uint64_t value);
/* Adds a value to the sum of bytes, by their hash as in kc_theta_update_bytes. Refused as kc_sums_add_hash is. */
kc_status kc_sums_add_bytes(kc_sums *sums, const void *bytes, size_t count, uint64_t value);
/* Cuts a sketch to its nominal entries, as kc_theta_trim does. */
kc_status kc_sums_trim(kc_sums *sums);
/* Makes a sketch empty again, as when it was new. */
kc_status kc_sums_reset(kc_sums *sums);
/* Writes the sketch's state, as kc_theta_state does. */
kc_status kc_sums_state(const kc_sums *sums, kc_state *out);
/* Writes the image of the sketch's ordered compact form: after each hash the eight bytes of its sum, the lowest first.
 * Refused with KC_OUT_OF_MEMORY. */
kc_status kc_sums_image(const kc_sums *sums, void *out, size_t room, uint64_t *length);
/* Makes the sketch's ordered compact form, of the same value, untrimmed. Refused with KC_OUT_OF_MEMORY. */
kc_status kc_sums_compact(const kc_sums *sums, kc_compact_sums *out);
/* Writes the total of a sketch, the sum of its sums, below 2^96. The estimate of the total of all values that were
 * added is this total * KC_MAX_THETA / theta (kc_total, kc_total_decimal, kc_total_rounded, kc_total_text). */
kc_status kc_sums_total(const kc_sums *sums, kc_wide *out);
/* Writes the hashes of the sketch and their sums, each hash once in no particular order, as kc_compact_sums_entries
 * does. */
kc_status kc_sums_entries(const kc_sums *sums, uint64_t *hashes, uint64_t *values, size_t room, uint64_t *count);
/* Makes the sketch's compact form, ordered or not, as kc_theta_compact_with does. */
kc_status kc_sums_compact_with(const kc_sums *sums, uint32_t ordered, kc_compact_sums *out);
/* Makes the difference of two sketches, as kc_sums_difference does of compact ones. */
kc_status kc_sums_updatable_difference(const kc_sums *first, const kc_sums *second, uint64_t seed,
                                       kc_compact_sums *out);
/* Writes how many bytes the slots of the sketch take, as kc_theta_estimated_size does; a slot takes 24. */
kc_status kc_sums_estimated_size(const kc_sums *sums, uint64_t *bytes);
/* Adds many values to the sums of as many hashes in their order, each as kc_sums_add_hash does, and writes how many
 * were added. Refused as kc_sums_add_hash is, at the first value that call would refuse; then exactly the *added values
 * before it were added. Refused with KC_INVALID_ARGUMENT if there are more hashes than values, or fewer; then none was
 * added. */
kc_status kc_sums_add_hashes(kc_sums *sums, const uint64_t *hashes, size_t hashes_count, const uint64_t *values,
                             size_t values_count, uint64_t *added);
/* Adds many values to the sums of as many byte strings in their order, each by its hash as in kc_theta_update_strings,
 * and writes how many were added. The strings lie one after another in `bytes`, and `ends` has where each ends. Refused
 * as kc_sums_add_hashes is; and with KC_INVALID_ARGUMENT if an end is below the one before it or past the bytes, and
 * with KC_OUT_OF_MEMORY if memory for the hashes is refused; then none was added. */
kc_status kc_sums_add_strings(kc_sums *sums, const void *bytes, size_t bytes_count, const uint64_t *ends,
                              size_t ends_count, const uint64_t *values, size_t values_count, uint64_t *added);

/* ---- Compact tuple sketches of sums ---- */

/* Reads the sketch that the bytes begin with, under this seed, as kc_compact_read does. */
kc_status kc_compact_sums_read(kc_compact_sums *sums, const void *image, size_t count, uint64_t seed);
/* Reads the sketch that the bytes are, all of them, under this seed, as kc_compact_read_whole does. */
kc_status kc_compact_sums_read_whole(kc_compact_sums *sums, const void *image, size_t count, uint64_t seed,
                                     kc_finding *found);
/* Frees the sketch of a handle, if it has one. */
kc_status kc_compact_sums_free(kc_compact_sums *sums);
/* Copies a sketch into another handle. Refused with KC_OUT_OF_MEMORY. */
kc_status kc_compact_sums_clone(const kc_compact_sums *sums, kc_compact_sums *out);
/* Writes the sketch's state, as kc_theta_state does. */
kc_status kc_compact_sums_state(const kc_compact_sums *sums, kc_state *out);
/* Writes the sketch's image, as kc_sums_image does. */
kc_status kc_compact_sums_image(const kc_compact_sums *sums, void *out, size_t room, uint64_t *length);
/* Writes the hashes of the sketch and their sums, in the order of the image, to two arrays of `room` numbers each, and
 * their number to *count. If room is less, the status is KC_TOO_SMALL, the arrays are as before, and *count is the room
 * that is needed. */
kc_status kc_compact_sums_entries(const kc_compact_sums *sums, uint64_t *hashes, uint64_t *values, size_t room,
                                  uint64_t *count);
/* Writes the total of a sketch, as kc_sums_total does. */
kc_status kc_compact_sums_total(const kc_compact_sums *sums, kc_wide *out);
/* Writes the hash of the sketch's seed, of 16 bits, as kc_compact_seed_hash does. */
kc_status kc_compact_sums_seed_hash(const kc_compact_sums *sums, uint32_t *out);
/* Writes 1 if the sketch is ordered, and otherwise 0, as kc_compact_is_ordered does. */
kc_status kc_compact_sums_is_ordered(const kc_compact_sums *sums, uint32_t *out);
/* Writes how many bytes the sketch's hashes and sums take, 16 for each pair. */
kc_status kc_compact_sums_estimated_size(const kc_compact_sums *sums, uint64_t *bytes);

/* ---- Unions of tuple sketches of sums ---- */

/* Makes a union of 2^lg_k nominal entries, refused as kc_theta_new is. Its value is that of a union of theta sketches,
 * and beside each hash the sum of the sums of all sketches. */
kc_status kc_sums_union_new(kc_sums_union *u, uint32_t lg_k, uint64_t seed);
/* Makes a union with a resize factor and a starting theta, as kc_theta_new_with makes a sketch. */
kc_status kc_sums_union_new_with(kc_sums_union *u, uint32_t lg_k, uint64_t seed, uint32_t resize_factor,
                                 uint64_t starting_theta);
/* Makes a union of a mode, otherwise as kc_sums_union_new_with does. Beside each hash it keeps the sum of the numbers
 * of all sketches for KC_SUM, as other unions do, the least of them for KC_MIN, and the greatest for KC_MAX, whatever
 * the modes of its sketches. Refused with KC_INVALID_ARGUMENT for another mode too. */
kc_status kc_sums_union_new_by_mode(kc_sums_union *u, uint32_t lg_k, uint64_t seed, uint32_t resize_factor,
                                    uint64_t starting_theta, uint32_t mode);
/* Frees the union of a handle, if it has one. */
kc_status kc_sums_union_free(kc_sums_union *u);
/* Merges a sketch that takes updates into the union, as kc_union_add does. Refused as that call is; and with KC_POLICY
 * if the sums of one hash are 2^64 or more together, after which the union has failed until it is reset. */
kc_status kc_sums_union_add(kc_sums_union *u, const kc_sums *sketch);
/* Merges a compact sketch into the union, as kc_sums_union_add does. */
kc_status kc_sums_union_add_compact(kc_sums_union *u, const kc_compact_sums *sketch);
/* Merges the sketch that the bytes begin with, as kc_union_add_image does. Refused as that call and kc_sums_union_add
 * are. */
kc_status kc_sums_union_add_image(kc_sums_union *u, const void *image, size_t count);
/* Makes the union's value as an ordered compact sketch. Refused with KC_FAILED if the union has failed, and with
 * KC_OUT_OF_MEMORY. */
kc_status kc_sums_union_result(const kc_sums_union *u, kc_compact_sums *out);
/* Writes the image of that sketch, refused as kc_sums_union_result is. */
kc_status kc_sums_union_image(const kc_sums_union *u, void *out, size_t room, uint64_t *length);
/* Makes the union empty again, as when it was new, and ends a failure. */
kc_status kc_sums_union_reset(kc_sums_union *u);
/* Lowers the union to 2^lg_k nominal entries, as kc_union_lower_lg_k does. */
kc_status kc_sums_union_lower_lg_k(kc_sums_union *u, uint32_t lg_k);
/* Makes the union's value as a compact sketch, ordered or not, as kc_union_result_with does. */
kc_status kc_sums_union_result_with(const kc_sums_union *u, uint32_t ordered, kc_compact_sums *out);
/* Writes how many bytes the slots of the union take, as kc_sums_estimated_size does, and the lists of its entries, if
 * it has gone over to lists. */
kc_status kc_sums_union_estimated_size(const kc_sums_union *u, uint64_t *bytes);

/* ---- Intersections and differences of tuple sketches of sums ---- */

/* Makes an intersection, refused as kc_intersection_new is. Its value is that of an intersection of theta sketches, and
 * beside each hash the sum of the sums of all sketches. */
kc_status kc_sums_intersection_new(kc_sums_intersection *intersection, uint64_t seed);
/* Makes an intersection of a mode, otherwise as kc_sums_intersection_new does. Beside each hash it keeps the sum of the
 * numbers of all sketches for KC_SUM, as other intersections do, the least of them for KC_MIN, and the greatest for
 * KC_MAX, whatever the modes of its sketches. Refused with KC_INVALID_ARGUMENT for another mode too. */
kc_status kc_sums_intersection_new_by_mode(kc_sums_intersection *intersection, uint64_t seed, uint32_t mode);
/* Frees the intersection of a handle, if it has one. */
kc_status kc_sums_intersection_free(kc_sums_intersection *intersection);
/* Intersects with a sketch that takes updates, as kc_intersection_add does. Refused as that call is, and with KC_POLICY
 * if the sums of one hash are 2^64 or more together; nothing has changed then. */
kc_status kc_sums_intersection_add(kc_sums_intersection *intersection, const kc_sums *sketch);
/* Intersects with a compact sketch, as kc_sums_intersection_add does. */
kc_status kc_sums_intersection_add_compact(kc_sums_intersection *intersection, const kc_compact_sums *sketch);
/* Intersects with the sketch that the bytes begin with, as kc_intersection_add_image does. Refused as that call and
 * kc_sums_intersection_add are. */
kc_status kc_sums_intersection_add_image(kc_sums_intersection *intersection, const void *image, size_t count);
/* Makes the intersection's value as an ordered compact sketch. Refused with KC_INVALID_ARGUMENT before the first
 * sketch, and with KC_OUT_OF_MEMORY. */
kc_status kc_sums_intersection_result(const kc_sums_intersection *intersection, kc_compact_sums *out);
/* Makes the intersection's value as a compact sketch, ordered or not, as kc_intersection_result_with does. */
kc_status kc_sums_intersection_result_with(const kc_sums_intersection *intersection, uint32_t ordered,
                                           kc_compact_sums *out);
/* Writes how many bytes the hashes and sums of the intersection's value take, 16 for each pair; 0 before the first
 * sketch. */
kc_status kc_sums_intersection_estimated_size(const kc_sums_intersection *intersection, uint64_t *bytes);
/* Makes the difference of two sketches, as kc_difference does; each hash keeps the sum that it has in the first. */
kc_status kc_sums_difference(const kc_compact_sums *first, const kc_compact_sums *second, uint64_t seed,
                             kc_compact_sums *out);
/* Makes the difference of two sketches, as kc_sums_difference does; it is ordered if `ordered` is 1, or if the first
 * sketch is. Refused as kc_sums_difference is, and with KC_INVALID_ARGUMENT if `ordered` is neither 0 nor 1. */
kc_status kc_sums_difference_with(const kc_compact_sums *first, const kc_compact_sums *second, uint64_t seed,
                                  uint32_t ordered, kc_compact_sums *out);

/* ---- Hashes ---- */

/* Writes the hash of bytes under a seed, which the update calls insert, of 63 bits: the first half of MurmurHash3 x64
 * 128 without its lowest bit. */
kc_status kc_hash_bytes(uint64_t seed, const void *bytes, size_t count, uint64_t *hash);
/* Writes the hash of a number's eight bytes under a seed, the lowest byte first, likewise. */
kc_status kc_hash_u64(uint64_t seed, uint64_t number, uint64_t *hash);
/* Writes the seed hash of a seed, from 1 to 65535, which images carry in place of the seed. Refused with
 * KC_INVALID_ARGUMENT if it is 0; no sketch has such a seed. */
kc_status kc_seed_hash(uint64_t seed, uint32_t *out);

/* ---- Estimates ---- */

/* Writes the numerator of the estimate of a state, the fraction retained * KC_MAX_THETA / theta; its denominator is
 * theta. */
kc_status kc_estimate_numerator(uint64_t retained, kc_wide *out);
/* Writes the estimate of a state rounded down to `places` decimals, from 0 to 19: its whole part, and the decimals as
 * one number below 10^`places`. Refused with KC_INVALID_ARGUMENT unless `retained` is below 2^32, theta is from 1 to
 * KC_MAX_THETA and `places` is at most 19. Other states that no sketch has are not refused. */
kc_status kc_estimate_decimal(uint64_t retained, uint64_t theta, uint32_t places, kc_wide *whole, uint64_t *decimals);
/* Writes the estimate of a state as text with `places` decimals, rounded down and without a final 0 byte: at most 49
 * bytes. Refused as kc_estimate_decimal is. */
kc_status kc_estimate_text(const kc_state *state, uint32_t places, char *text, size_t room, uint64_t *length);
/* Writes the nearest whole number to the estimate of a state; a half is rounded up. Refused with KC_INVALID_ARGUMENT
 * unless `retained` is below 2^32 and theta from 1 to KC_MAX_THETA. */
kc_status kc_estimate_rounded(uint64_t retained, uint64_t theta, kc_wide *out);
/* Writes bounds of the number of distinct values by 1, 2 or 3 standard deviations: the ends of the Wilson score
 * interval, rounded outwards. If hashes are random, the number is within them in about 68, 95 or 99.7 of 100 sketches;
 * that isn't proved. Refused with KC_INVALID_ARGUMENT unless `retained` is below 2^32, theta is from 1 to KC_MAX_THETA,
 * and `deviations` is 1, 2 or 3. */
kc_status kc_count_bounds(uint64_t retained, uint64_t theta, uint32_t deviations, kc_wide *lower, kc_wide *upper);
/* Writes the estimate of the total of all values, total * KC_MAX_THETA / theta, rounded down to `places` decimals, as
 * kc_estimate_decimal writes an estimate; theta is that of the sketch's state. Refused with KC_INVALID_ARGUMENT unless
 * theta is from 1 to KC_MAX_THETA, the total is below 2^64 * theta, as that of every sketch is, and `places` is at most
 * 19. */
kc_status kc_total_decimal(const kc_wide *total, uint64_t theta, uint32_t places, kc_wide *whole, uint64_t *decimals);
/* Writes the estimate of the total of all values as text with `places` decimals, rounded down and without a final 0
 * byte: at most 59 bytes. Refused as kc_total_decimal is. */
kc_status kc_total_text(const kc_wide *total, uint64_t theta, uint32_t places, char *text, size_t room,
                        uint64_t *length);
/* Writes the nearest whole number to the estimate of the total of all values; a half is rounded up. Refused with
 * KC_INVALID_ARGUMENT unless theta is from 1 to KC_MAX_THETA and the total below 2^64 * theta. */
kc_status kc_total_rounded(const kc_wide *total, uint64_t theta, kc_wide *out);
/* Writes a number of 128 bits as text, without a final 0 byte: at most 39 bytes. */
kc_status kc_wide_text(const kc_wide *number, char *text, size_t room, uint64_t *length);

/* ---- The library ---- */

/* Returns what a status means, as a text with a final 0 byte, which is never freed. Any number may be passed. */
const char *kc_status_text(kc_status status);
/* Returns what a flaw of an image means, likewise. */
const char *kc_flaw_text(uint32_t flaw);
/* Returns the version of the library that the program is linked with, as such a text; that of this header is KC_VERSION. */
const char *kc_version(void);

/* ---- Estimates in floating point ---- */

/* Returns the estimate of a state: retained, divided by theta as a fraction of its greatest value, each as a double, which are
 * the bits of the crate datasketches. Pass a state that a call has written. */
static inline double kc_estimate(const kc_state *state) {
    return (double)state->retained / ((double)state->theta / (double)KC_MAX_THETA);
}

/* Returns the estimate of the total of all values; theta isn't 0. */
static inline double kc_total(const kc_wide *total, uint64_t theta) {
    return ((double)total->low + 18446744073709551616.0 * (double)total->high) / ((double)theta / (double)KC_MAX_THETA);
}

#ifdef __cplusplus
}
#endif
#endif
