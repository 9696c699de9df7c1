/* The functions of tuple sketches of sums, for theta_sketch.c to register. */
#ifndef TUPLE_SKETCH_H
#define TUPLE_SKETCH_H
#include "calls.h"

void sums_build_step(context *call, int count, value **arguments);
void sums_add(context *call, int count, value **arguments);
void sums_union_step(context *call, int count, value **arguments);
void sums_union_value(context *call);
void sums_union_final(context *call);
void sums_meet_step(context *call, int count, value **arguments);
void sums_meet_value(context *call);
void sums_meet_final(context *call);
void sums_a_not_b(context *call, int count, value **arguments);
void sums_get_estimate(context *call, int count, value **arguments);
void sums_get_bounds(context *call, int count, value **arguments);
void sums_get_total(context *call, int count, value **arguments);
void sums_to_text(context *call, int count, value **arguments);
#endif
