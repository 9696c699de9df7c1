/* See calls.h. */
#include "calls.h"
#include <math.h>
#include "access/htup_details.h"
#include "catalog/pg_aggregate.h"
#include "catalog/pg_type.h"
#include "common/base64.h"
#include "miscadmin.h"
#include "nodes/execnodes.h"
#include "nodes/nodeFuncs.h"
#include "utils/array.h"
#include "utils/builtins.h"
#include "utils/date.h"
#include "utils/datetime.h"
#include "utils/fmgrprotos.h"
#include "utils/fmgroids.h"
#include "utils/lsyscache.h"
#include "utils/syscache.h"
#include "utils/typcache.h"

/* ---- Errors ---- */

void want(const char *type, kc_status status) {
    if (status == KC_OK) return;
    if (status == KC_OUT_OF_MEMORY) ereport(ERROR, errcode(ERRCODE_OUT_OF_MEMORY), errmsg("%s: out of memory", type));
    if (status == KC_POLICY)
        ereport(ERROR, errcode(ERRCODE_NUMERIC_VALUE_OUT_OF_RANGE), errmsg("%s: the sum of a key would be 2^64 or more", type));
    ereport(ERROR, errcode(ERRCODE_INTERNAL_ERROR), errmsg("%s: the library refused a call: %s", type, kc_status_text(status)));
}

void want_image(const char *type, kc_status status, const char *flaw) {
    if (status == KC_INVALID_DATA)
        ereport(ERROR, errcode(ERRCODE_INVALID_BINARY_REPRESENTATION), errmsg("%s: the image %s", type, flaw));
    want(type, status);
}

/* A value retains at most 2^24 hashes: of theta sketches it has 128 MiB then, and its text 171 MiB, of tuple sketches twice as much.
 * PostgreSQL writes and reads a text of up to 512 MiB in each way, also as a literal in a dump. */
enum { GREATEST_LG_K_OF_VALUE = 24 };

void check_size(const char *type, uint64_t retained) {
    if (retained <= (uint64_t)1 << GREATEST_LG_K_OF_VALUE) return;
    ereport(ERROR, errcode(ERRCODE_PROGRAM_LIMIT_EXCEEDED),
            errmsg("%s: the sketch retains %llu hashes, and a value at most %d, or its text would be too long", type,
                   (unsigned long long)retained, 1 << GREATEST_LG_K_OF_VALUE),
            errhint("Pass an lg_k of at most %d; make an image smaller by \"distinct union --lg-k %d\".", GREATEST_LG_K_OF_VALUE,
                    GREATEST_LG_K_OF_VALUE));
}

/* ---- Arguments and results ---- */

uint8_t lg_k_at(FunctionCallInfo fcinfo, const char *type, int place, uint8_t missing) {
    if (PG_NARGS() <= place) return missing;
    if (PG_ARGISNULL(place))
        ereport(ERROR, errcode(ERRCODE_NULL_VALUE_NOT_ALLOWED), errmsg("%s: lg_k is NULL; it is a number from 4 to 26", type));
    int32 lg_k = PG_GETARG_INT32(place);
    if (lg_k < LEAST_LG_K || lg_k > GREATEST_LG_K)
        ereport(ERROR, errcode(ERRCODE_INVALID_PARAMETER_VALUE), errmsg("%s: lg_k is %d; it is a number from 4 to 26", type, lg_k));
    return (uint8_t)lg_k;
}

/* A text of another collation than the key's may hide that the key's is nondeterministic (check_keys). */
static void check_collation(FunctionCallInfo fcinfo, const char *type) {
    if (OidIsValid(PG_GET_COLLATION())) return;
    ereport(ERROR, errcode(ERRCODE_INDETERMINATE_COLLATION), errmsg("%s: the key and the mode have different collations", type),
            errhint("Pass the mode as a constant."));
}

uint8_t mode_at(FunctionCallInfo fcinfo, const char *type, int place) {
    uint8_t mode = KC_SUM;
    if (PG_NARGS() <= place) return mode;
    if (PG_ARGISNULL(place)) ereport(ERROR, errcode(ERRCODE_NULL_VALUE_NOT_ALLOWED), errmsg("%s: mode is NULL; it is " MODES, type));
    check_collation(fcinfo, type);
    const text *word = PG_GETARG_TEXT_PP(place);
    if (!mode_of(VARDATA_ANY(word), VARSIZE_ANY_EXHDR(word), &mode))
        ereport(ERROR, errcode(ERRCODE_INVALID_PARAMETER_VALUE), errmsg("%s: mode is '%s'; it is " MODES, type, text_to_cstring(word)));
    return mode;
}

uint64_t value_at(FunctionCallInfo fcinfo, const char *type, int place) {
    int64 value = PG_GETARG_INT64(place);
    if (value < 0)
        ereport(ERROR, errcode(ERRCODE_INVALID_PARAMETER_VALUE), errmsg("%s: a value is an integer from 0 to 9223372036854775807", type));
    return (uint64_t)value;
}

uint32_t deviations_of(FunctionCallInfo fcinfo, const char *type) {
    int32 deviations = PG_NARGS() > 1 ? PG_GETARG_INT32(1) : 2;
    if (deviations < 1 || deviations > 3)
        ereport(ERROR, errcode(ERRCODE_INVALID_PARAMETER_VALUE),
                errmsg("%s: there are bounds for 1, 2 or 3 standard deviations, not for %d", type, deviations));
    return (uint32_t)deviations;
}

Datum bounds_array(const kc_state *state, uint32_t deviations, const char *type, bool has_estimate) {
    kc_wide lower, upper;
    want(type, kc_count_bounds(state->retained, state->theta, deviations, &lower, &upper));
    Datum numbers[] = {Float8GetDatum(kc_estimate(state)), Float8GetDatum(number_of(lower)), Float8GetDatum(number_of(upper))};
    Datum *first = has_estimate ? numbers : numbers + 1;
    PG_RETURN_ARRAYTYPE_P(construct_array(first, has_estimate ? 3 : 2, FLOAT8OID, sizeof(float8), FLOAT8PASSBYVAL, TYPALIGN_DOUBLE));
}

char *base64_of(const bytea *image, const char *type) {
    size_t count = VARSIZE_ANY_EXHDR(image), room = (count + 2) / 3 * 4;
    char *text = palloc(room + 1);
    int length = pg_b64_encode(VARDATA_ANY(image), (int)count, text, (int)room);
    if (length < 0) elog(ERROR, "%s: base64 needs more room than it says", type);
    text[length] = 0;
    return text;
}

char *bytes_of_base64(const char *text, size_t *count, const char *type) {
    /* pg_b64_dec_len and pg_b64_enc_len overflow at such lengths; those of a value fit into an int. */
    size_t length = strlen(text), room = length / 4 * 3 + 3;
    char *bytes = palloc(room);
    int written = pg_b64_decode(text, (int)length, bytes, (int)room);
    if (written < 0) ereport(ERROR, errcode(ERRCODE_INVALID_TEXT_REPRESENTATION), errmsg("%s: the text is not base64", type));
    *count = (size_t)written;
    return bytes;
}

/* ---- Keys ---- */

/* The equality that PostgreSQL uses for a type, or for the type below a domain. */
static Oid equality_of(Oid type) { return lookup_type_cache(type, TYPECACHE_EQ_OPR)->eq_opr; }

/* Refuses a key that PostgreSQL casts by itself from a type with an equality of its own, such as citext. */
static void check_cast(Node *key, const char *of) {
    if (!IsA(key, RelabelType) || castNode(RelabelType, key)->relabelformat != COERCE_IMPLICIT_CAST) return;
    Oid type = exprType((Node *)castNode(RelabelType, key)->arg);
    if (equality_of(type) == equality_of(exprType(key))) return;
    ereport(ERROR, errcode(ERRCODE_FEATURE_NOT_SUPPORTED),
            errmsg("%s: equal keys of type %s may have different bytes, by which a key is hashed", of, format_type_be(type)),
            errhint("Pass x::text to count texts that differ in their bytes, or lower(x)."));
}

/* Whether an aggregate adds its rows by this function. */
static bool is_added_by(Oid aggregate, Oid function) {
    HeapTuple row = SearchSysCache1(AGGFNOID, ObjectIdGetDatum(aggregate));
    if (!HeapTupleIsValid(row)) return false;
    bool is_same = ((Form_pg_aggregate)GETSTRUCT(row))->aggtransfn == function;
    ReleaseSysCache(row);
    return is_same;
}

/* A call in the list of a node of the plan. */
#if PG_VERSION_NUM >= 140000
#define CALL_AT(cell) lfirst_node(Aggref, cell)
#else
#define CALL_AT(cell) (lfirst_node(AggrefExprState, cell)->aggref)
#endif

/* A transition function isn't passed the expression of its argument, so all aggregates of this node of the plan that call it are
 * checked. */
void check_keys(FunctionCallInfo fcinfo, const char *type) {
    ListCell *cell;
    Node *caller = fcinfo->context;
    Oid function = fcinfo->flinfo->fn_oid;
    if (fcinfo->flinfo->fn_extra != NULL) return;
    if (OidIsValid(PG_GET_COLLATION()) && !get_collation_isdeterministic(PG_GET_COLLATION()))
        ereport(ERROR, errcode(ERRCODE_FEATURE_NOT_SUPPORTED),
                errmsg("%s: the collation of the keys is nondeterministic: equal keys may have different bytes, by which a key is hashed", type),
                errhint("Pass x COLLATE \"C\" to count texts that differ in their bytes, or lower(x) COLLATE \"C\"."));
    if (caller != NULL && IsA(caller, AggState)) {
        foreach (cell, castNode(AggState, caller)->aggs) {
            Aggref *call = CALL_AT(cell);
            if (is_added_by(call->aggfnoid, function)) check_cast((Node *)linitial_node(TargetEntry, call->args)->expr, type);
        }
    } else if (caller != NULL && IsA(caller, WindowAggState)) {
        foreach (cell, castNode(WindowAggState, caller)->funcs) {
            WindowFunc *call = lfirst_node(WindowFuncExprState, cell)->wfunc;
            if (is_added_by(call->winfnoid, function)) check_cast(linitial(call->args), type);
        }
    } else if (fcinfo->flinfo->fn_expr != NULL && IsA(fcinfo->flinfo->fn_expr, FuncExpr))
        check_cast(lsecond(castNode(FuncExpr, fcinfo->flinfo->fn_expr)->args), type);
    fcinfo->flinfo->fn_extra = fcinfo->flinfo;
}

/* A time as ISO text; of a time with a zone it is that of UTC. */
static const char *time_text(Timestamp at, bool has_zone, const char *type) {
    char *text = palloc(MAXDATELEN + 1);
    struct pg_tm parts;
    fsec_t fraction;
    if (TIMESTAMP_NOT_FINITE(at)) EncodeSpecialTimestamp(at, text);
    else {
        if (timestamp2tm(at, NULL, &parts, &fraction, NULL, NULL) != 0)
            ereport(ERROR, errcode(ERRCODE_DATETIME_VALUE_OUT_OF_RANGE), errmsg("%s: the timestamp is out of range", type));
        parts.tm_isdst = 0; /* below 0 the zone isn't written */
        EncodeDateTime(&parts, fraction, has_zone, 0, NULL, USE_ISO_DATES, text);
    }
    return text;
}

static const char *date_text(DateADT date) {
    char *text = palloc(MAXDATELEN + 1);
    struct pg_tm parts = {0};
    if (DATE_NOT_FINITE(date)) EncodeSpecialDate(date, text);
    else {
        j2date(date + POSTGRES_EPOCH_JDATE, &parts.tm_year, &parts.tm_mon, &parts.tm_mday);
        EncodeDateOnly(&parts, USE_ISO_DATES, text);
    }
    return text;
}

/* Equal numbers have one text, whatever their scale: 1.00 has that of 1. */
static const char *numeric_text(Datum number) {
    return DatumGetCString(DirectFunctionCall1(numeric_out, DirectFunctionCall1(numeric_trim_scale, number)));
}

uint64_t float_bits(double x) {
    uint64_t bits;
    if (isnan(x)) return UINT64_C(0x7ff8000000000000);
    if (x == 0) x = 0;
    memcpy(&bits, &x, sizeof bits);
    return bits;
}

const char *text_key(FunctionCallInfo fcinfo, const char *type) {
    Datum key = PG_GETARG_DATUM(1);
    Oid of = getBaseType(get_fn_expr_argtype(fcinfo->flinfo, 1));
    switch (of) {
    case BOOLOID: return DatumGetBool(key) ? "true" : "false";
    case DATEOID: return date_text(DatumGetDateADT(key));
    case TIMESTAMPOID: return time_text(DatumGetTimestamp(key), false, type);
    case TIMESTAMPTZOID: return time_text(DatumGetTimestampTz(key), true, type);
    case NUMERICOID: return numeric_text(key);
    case UUIDOID: return DatumGetCString(DirectFunctionCall1(uuid_out, key));
    case INETOID:
    case CIDROID: return TextDatumGetCString(DirectFunctionCall1(network_show, key));
    }
    if (!type_is_enum(of)) elog(ERROR, "%s: a key of type %s has no text here", type, format_type_be(of));
    return DatumGetCString(OidFunctionCall1(F_ENUM_OUT, key));
}

/* ---- Aggregates ---- */

MemoryContext aggregate_context(FunctionCallInfo fcinfo, const char *type) {
    MemoryContext context;
    if (!AggCheckCallContext(fcinfo, &context)) elog(ERROR, "%s: called outside an aggregate", type);
    return context;
}

Datum unchanged(FunctionCallInfo fcinfo) {
    if (PG_ARGISNULL(0)) PG_RETURN_NULL();
    PG_RETURN_DATUM(PG_GETARG_DATUM(0));
}

void set_lg_k(uint8_t *lg_k, uint8_t now, bool is_first, const char *type) {
    if (is_first) *lg_k = now;
    else if (*lg_k != now)
        ereport(ERROR, errcode(ERRCODE_INVALID_PARAMETER_VALUE), errmsg("%s: lg_k is %d and %d in one group", type, *lg_k, now),
                errhint("Pass a constant."));
}

void set_mode(uint8_t *mode, uint8_t now, bool is_first, const char *type) {
    if (is_first) *mode = now;
    else if (*mode != now)
        ereport(ERROR, errcode(ERRCODE_INVALID_PARAMETER_VALUE),
                errmsg("%s: mode is '%s' and '%s' in one group", type, word_of(*mode), word_of(now)), errhint("Pass a constant."));
}

bytea *state_bytes(StateHead head, bytea *pieces[PIECES]) {
    Size size = VARHDRSZ + sizeof head;
    for (int place = 0; place < PIECES; place++) size += head.lengths[place] = pieces[place] != NULL ? VARSIZE(pieces[place]) - VARHDRSZ : 0;
    bytea *bytes = palloc(size);
    char *at = VARDATA(bytes);
    SET_VARSIZE(bytes, size);
    memcpy(at, &head, sizeof head);
    at += sizeof head;
    for (int place = 0; place < PIECES; at += head.lengths[place++])
        if (pieces[place] != NULL) memcpy(at, VARDATA(pieces[place]), head.lengths[place]);
    return bytes;
}

StateHead state_head(bytea *bytes, const char **images, const char *type) {
    StateHead head;
    Size count = VARSIZE_ANY_EXHDR(bytes);
    if (count < sizeof head) elog(ERROR, "%s: a state has too few bytes", type);
    memcpy(&head, VARDATA_ANY(bytes), sizeof head);
    if (count - sizeof head < head.lengths[0] || count - sizeof head - head.lengths[0] != head.lengths[1])
        elog(ERROR, "%s: a state has too few bytes", type);
    *images = VARDATA_ANY(bytes) + sizeof head;
    return head;
}
