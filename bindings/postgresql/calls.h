/* What the functions of theta sketches and of tuple sketches share: errors, arguments, keys, and the states of aggregates as bytes. Each
 * call takes the name of the type, with which its messages begin. */
#ifndef THETA_SKETCH_CALLS_H
#define THETA_SKETCH_CALLS_H
#include "postgres.h"
#include "fmgr.h"
#if PG_VERSION_NUM >= 160000
#include "varatt.h"
#endif
#include "heap.h"
#include "groups.h"

#define HIDDEN __attribute__((visibility("hidden")))

/* Defines a function of SQL. */
#define FUNCTION(name) \
    PG_FUNCTION_INFO_V1(name); \
    Datum name(PG_FUNCTION_ARGS)

/* Raises an error unless a call of the library did what it promises. */
HIDDEN void want(const char *type, kc_status status);
/* Raises an error for bytes that are no image, with their flaw. */
HIDDEN void want_image(const char *type, kc_status status, const char *flaw);
/* Refuses a sketch that retains too many hashes for a value. */
HIDDEN void check_size(const char *type, uint64_t retained);

/* The argument lg_k at a place. If the call has no such argument, it is `missing`. */
HIDDEN uint8_t lg_k_at(FunctionCallInfo fcinfo, const char *type, int place, uint8_t missing);
/* The argument mode of tuple sketches at a place; KC_SUM if the call has no such argument. */
HIDDEN uint8_t mode_at(FunctionCallInfo fcinfo, const char *type, int place);
/* The value of a tuple sketch at a place. */
HIDDEN uint64_t value_at(FunctionCallInfo fcinfo, const char *type, int place);
/* The deviations at the place 1; 2 without an argument. */
HIDDEN uint32_t deviations_of(FunctionCallInfo fcinfo, const char *type);
/* Bounds as an array, behind an estimate if there is one. */
HIDDEN Datum bounds_array(const kc_state *state, uint32_t deviations, const char *type, bool has_estimate);
/* The text of a value, and its bytes from a text, in base64. */
HIDDEN char *base64_of(const bytea *image, const char *type);
HIDDEN char *bytes_of_base64(const char *text, size_t *count, const char *type);

/* Checks, once for a call in a query, that keys are equal only if their bytes are: of an aggregate, in which the key is the first
 * argument, or of a function, in which it is the second. */
HIDDEN void check_keys(FunctionCallInfo fcinfo, const char *type);

/* A key at the place 1 of a type that is hashed by its text, with a final 0 byte: that of x::text with DateStyle ISO and TimeZone UTC, and of
 * a numeric without zeros at the end of its decimals. */
HIDDEN const char *text_key(FunctionCallInfo fcinfo, const char *type);

/* Calls FOR(name, bits) for each type whose keys are hashed by 64 bits, the lowest byte first: its name in functions of SQL, and these bits
 * of the argument at the place 1. An integer has its sign in all of them, an oid none. */
#define FOR_TYPES_OF_NUMBERS(FOR) \
    FOR(int8, (uint64_t)PG_GETARG_INT64(1)) \
    FOR(int4, (uint64_t)PG_GETARG_INT32(1)) \
    FOR(int2, (uint64_t)PG_GETARG_INT16(1)) \
    FOR(oid, PG_GETARG_OID(1)) \
    FOR(float8, float_bits(PG_GETARG_FLOAT8(1)))

/* The bits of a float, as the DataSketches libraries hash it: those of 0.0 for -0.0, and for each NaN those of one. */
HIDDEN uint64_t float_bits(double x);

/* The context of the aggregate that calls. */
HIDDEN MemoryContext aggregate_context(FunctionCallInfo fcinfo, const char *type);
/* The first argument as it is, for a row that is passed over. */
HIDDEN Datum unchanged(FunctionCallInfo fcinfo);
/* Sets lg_k of a group, or its mode, if this is its first row or part. Each has to be the same in all of them. */
HIDDEN void set_lg_k(uint8_t *lg_k, uint8_t now, bool is_first, const char *type);
HIDDEN void set_mode(uint8_t *mode, uint8_t now, bool is_first, const char *type);

/* A state as bytes: this head, and the images of both pieces, each of which may be missing. */
typedef struct {
    uint64 lengths[PIECES], mode, lg_k, largest; /* the last two are those of a union */
} StateHead;
HIDDEN bytea *state_bytes(StateHead head, bytea *pieces[PIECES]);
/* The head of such bytes; sets *images to those behind it. */
HIDDEN StateHead state_head(bytea *bytes, const char **images, const char *type);
#endif
