/* What the functions of the extension share: messages, arguments and results. A message begins with the function's name, which is its
 * user data in SQLite. */
#ifndef THETA_SKETCH_CALLS_H
#define THETA_SKETCH_CALLS_H
#include <sqlite3ext.h>
#include "groups.h"

typedef sqlite3_context context;
typedef sqlite3_value value;

/* Ends the call with a reason. */
void refuse(context *call, const char *reason);
/* Ends the call for a key of another type than text, blob and integer. */
void refuse_key(context *call);
/* Ends the call if a call of the library was refused; returns whether it wasn't. */
int passed(context *call, kc_status status);
/* Ends the call if an image was refused, with its flaw; returns whether it wasn't. */
int was_read(context *call, kc_status status, const char *flaw);

/* The state of the group, zero at its first row. NULL ends the call. */
void *state_of(context *call, int size);
int is_null(value *v);
/* The bytes of a text or a blob; those of an empty blob are null. Returns whether SQLite had memory for them, and ends the call if not. */
int bytes_of(context *call, value *v, const void **bytes, size_t *count);
/* The bytes of a sketch, likewise; it has to be a blob. */
int image_bytes(context *call, value *v, const void **bytes, size_t *count);
/* Reads lg_k from an argument; if that is missing, it is `missing`. It has to be the same in all rows of a group. Returns whether the call
 * goes on. */
int take_lg_k(context *call, int count, value **arguments, int place, uint8_t missing, uint8_t *lg_k);
/* Reads a mode, 'sum', 'min' or 'max', from an argument; if that is missing, it is KC_SUM. If it isn't the first row of a group, it has to be
 * that of the group. Returns whether the call goes on. */
int take_mode(context *call, int count, value **arguments, int place, int is_first, uint8_t *mode);
/* Reads a number of standard deviations, likewise. */
int take_deviations(context *call, int count, value **arguments, uint32_t *deviations);

/* The results of a state: its estimate, and its bounds as a JSON array. */
void put_estimate(context *call, const kc_state *state);
void put_bounds(context *call, const kc_state *state, uint32_t deviations);

/* A row leaves the frame of a window, which is refused. */
void refuse_inverse(context *call, int count, value **arguments);
#endif
