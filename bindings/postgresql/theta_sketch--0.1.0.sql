-- Theta sketches. docs/use/SQL.md describes the functions.
\echo Use "CREATE EXTENSION theta_sketch" to load this file. \quit

-- ---- The type: an image, whose text is base64 ----

CREATE TYPE theta_sketch;

CREATE FUNCTION theta_sketch_in(cstring) RETURNS theta_sketch
    AS 'MODULE_PATHNAME', 'theta_sketch_in' LANGUAGE C IMMUTABLE STRICT PARALLEL SAFE;
CREATE FUNCTION theta_sketch_out(theta_sketch) RETURNS cstring
    AS 'MODULE_PATHNAME', 'theta_sketch_out' LANGUAGE C IMMUTABLE STRICT PARALLEL SAFE;
CREATE FUNCTION theta_sketch_recv(internal) RETURNS theta_sketch
    AS 'MODULE_PATHNAME', 'theta_sketch_recv' LANGUAGE C IMMUTABLE STRICT PARALLEL SAFE;
CREATE FUNCTION theta_sketch_send(theta_sketch) RETURNS bytea
    AS 'MODULE_PATHNAME', 'theta_sketch_send' LANGUAGE C IMMUTABLE STRICT PARALLEL SAFE;

CREATE TYPE theta_sketch (
    INPUT = theta_sketch_in, OUTPUT = theta_sketch_out, RECEIVE = theta_sketch_recv, SEND = theta_sketch_send, STORAGE = external);

-- The bytes are checked in one direction and are the same in the other.
CREATE FUNCTION theta_sketch_from_bytea(bytea) RETURNS theta_sketch
    AS 'MODULE_PATHNAME', 'theta_sketch_from_bytea' LANGUAGE C IMMUTABLE STRICT PARALLEL SAFE;
CREATE CAST (bytea AS theta_sketch) WITH FUNCTION theta_sketch_from_bytea(bytea) AS ASSIGNMENT;
CREATE CAST (theta_sketch AS bytea) WITHOUT FUNCTION AS ASSIGNMENT;

-- ---- Functions of sketches ----

CREATE FUNCTION theta_sketch_get_estimate(theta_sketch) RETURNS double precision
    AS 'MODULE_PATHNAME', 'theta_sketch_get_estimate' LANGUAGE C IMMUTABLE STRICT PARALLEL SAFE;
-- The estimate, the lower bound and the upper bound, for 1, 2 or 3 standard deviations; without a number for 2.
CREATE FUNCTION theta_sketch_get_estimate_and_bounds(theta_sketch) RETURNS double precision[]
    AS 'MODULE_PATHNAME', 'theta_sketch_get_estimate_and_bounds' LANGUAGE C IMMUTABLE STRICT PARALLEL SAFE;
CREATE FUNCTION theta_sketch_get_estimate_and_bounds(theta_sketch, integer) RETURNS double precision[]
    AS 'MODULE_PATHNAME', 'theta_sketch_get_estimate_and_bounds' LANGUAGE C IMMUTABLE STRICT PARALLEL SAFE;
CREATE FUNCTION theta_sketch_to_string(theta_sketch) RETURNS text
    AS 'MODULE_PATHNAME', 'theta_sketch_to_string' LANGUAGE C IMMUTABLE STRICT PARALLEL SAFE;
-- With a number: the union has 2 to its power nominal entries; without it, it keeps all that both retain.
CREATE FUNCTION theta_sketch_union(theta_sketch, theta_sketch) RETURNS theta_sketch
    AS 'MODULE_PATHNAME', 'theta_sketch_union' LANGUAGE C IMMUTABLE STRICT PARALLEL SAFE;
CREATE FUNCTION theta_sketch_union(theta_sketch, theta_sketch, integer) RETURNS theta_sketch
    AS 'MODULE_PATHNAME', 'theta_sketch_union' LANGUAGE C IMMUTABLE STRICT PARALLEL SAFE;
CREATE FUNCTION theta_sketch_intersection(theta_sketch, theta_sketch) RETURNS theta_sketch
    AS 'MODULE_PATHNAME', 'theta_sketch_intersection' LANGUAGE C IMMUTABLE STRICT PARALLEL SAFE;
CREATE FUNCTION theta_sketch_a_not_b(theta_sketch, theta_sketch) RETURNS theta_sketch
    AS 'MODULE_PATHNAME', 'theta_sketch_a_not_b' LANGUAGE C IMMUTABLE STRICT PARALLEL SAFE;

-- ---- Aggregates. A second argument is lg_k, from 4 to 26, default 12: the sketch has 2^lg_k nominal entries ----

CREATE FUNCTION theta_sketch_add_bytes(internal, text) RETURNS internal
    AS 'MODULE_PATHNAME', 'theta_sketch_add_bytes' LANGUAGE C IMMUTABLE PARALLEL SAFE;
CREATE FUNCTION theta_sketch_add_bytes(internal, text, integer) RETURNS internal
    AS 'MODULE_PATHNAME', 'theta_sketch_add_bytes' LANGUAGE C IMMUTABLE PARALLEL SAFE;
CREATE FUNCTION theta_sketch_add_bytes(internal, bytea) RETURNS internal
    AS 'MODULE_PATHNAME', 'theta_sketch_add_bytes' LANGUAGE C IMMUTABLE PARALLEL SAFE;
CREATE FUNCTION theta_sketch_add_bytes(internal, bytea, integer) RETURNS internal
    AS 'MODULE_PATHNAME', 'theta_sketch_add_bytes' LANGUAGE C IMMUTABLE PARALLEL SAFE;
CREATE FUNCTION theta_sketch_add_int8(internal, bigint) RETURNS internal
    AS 'MODULE_PATHNAME', 'theta_sketch_add_int8' LANGUAGE C IMMUTABLE PARALLEL SAFE;
CREATE FUNCTION theta_sketch_add_int8(internal, bigint, integer) RETURNS internal
    AS 'MODULE_PATHNAME', 'theta_sketch_add_int8' LANGUAGE C IMMUTABLE PARALLEL SAFE;
CREATE FUNCTION theta_sketch_add_sketch(internal, theta_sketch) RETURNS internal
    AS 'MODULE_PATHNAME', 'theta_sketch_add_sketch' LANGUAGE C IMMUTABLE PARALLEL SAFE;
CREATE FUNCTION theta_sketch_add_sketch(internal, theta_sketch, integer) RETURNS internal
    AS 'MODULE_PATHNAME', 'theta_sketch_add_sketch' LANGUAGE C IMMUTABLE PARALLEL SAFE;
CREATE FUNCTION theta_sketch_combine(internal, internal) RETURNS internal
    AS 'MODULE_PATHNAME', 'theta_sketch_combine' LANGUAGE C IMMUTABLE PARALLEL SAFE;
CREATE FUNCTION theta_sketch_serialize(internal) RETURNS bytea
    AS 'MODULE_PATHNAME', 'theta_sketch_serialize' LANGUAGE C IMMUTABLE STRICT PARALLEL SAFE;
CREATE FUNCTION theta_sketch_deserialize(bytea, internal) RETURNS internal
    AS 'MODULE_PATHNAME', 'theta_sketch_deserialize' LANGUAGE C IMMUTABLE STRICT PARALLEL SAFE;
CREATE FUNCTION theta_sketch_final(internal) RETURNS theta_sketch
    AS 'MODULE_PATHNAME', 'theta_sketch_final' LANGUAGE C IMMUTABLE PARALLEL SAFE;
CREATE FUNCTION theta_sketch_final_estimate(internal) RETURNS double precision
    AS 'MODULE_PATHNAME', 'theta_sketch_final_estimate' LANGUAGE C IMMUTABLE PARALLEL SAFE;

CREATE AGGREGATE theta_sketch_build(text) (
    SFUNC = theta_sketch_add_bytes, STYPE = internal, FINALFUNC = theta_sketch_final, COMBINEFUNC = theta_sketch_combine,
    SERIALFUNC = theta_sketch_serialize, DESERIALFUNC = theta_sketch_deserialize, PARALLEL = SAFE);
CREATE AGGREGATE theta_sketch_build(text, integer) (
    SFUNC = theta_sketch_add_bytes, STYPE = internal, FINALFUNC = theta_sketch_final, COMBINEFUNC = theta_sketch_combine,
    SERIALFUNC = theta_sketch_serialize, DESERIALFUNC = theta_sketch_deserialize, PARALLEL = SAFE);
CREATE AGGREGATE theta_sketch_build(bytea) (
    SFUNC = theta_sketch_add_bytes, STYPE = internal, FINALFUNC = theta_sketch_final, COMBINEFUNC = theta_sketch_combine,
    SERIALFUNC = theta_sketch_serialize, DESERIALFUNC = theta_sketch_deserialize, PARALLEL = SAFE);
CREATE AGGREGATE theta_sketch_build(bytea, integer) (
    SFUNC = theta_sketch_add_bytes, STYPE = internal, FINALFUNC = theta_sketch_final, COMBINEFUNC = theta_sketch_combine,
    SERIALFUNC = theta_sketch_serialize, DESERIALFUNC = theta_sketch_deserialize, PARALLEL = SAFE);
CREATE AGGREGATE theta_sketch_build(bigint) (
    SFUNC = theta_sketch_add_int8, STYPE = internal, FINALFUNC = theta_sketch_final, COMBINEFUNC = theta_sketch_combine,
    SERIALFUNC = theta_sketch_serialize, DESERIALFUNC = theta_sketch_deserialize, PARALLEL = SAFE);
CREATE AGGREGATE theta_sketch_build(bigint, integer) (
    SFUNC = theta_sketch_add_int8, STYPE = internal, FINALFUNC = theta_sketch_final, COMBINEFUNC = theta_sketch_combine,
    SERIALFUNC = theta_sketch_serialize, DESERIALFUNC = theta_sketch_deserialize, PARALLEL = SAFE);
CREATE AGGREGATE theta_sketch_distinct(text) (
    SFUNC = theta_sketch_add_bytes, STYPE = internal, FINALFUNC = theta_sketch_final_estimate, COMBINEFUNC = theta_sketch_combine,
    SERIALFUNC = theta_sketch_serialize, DESERIALFUNC = theta_sketch_deserialize, PARALLEL = SAFE);
CREATE AGGREGATE theta_sketch_distinct(text, integer) (
    SFUNC = theta_sketch_add_bytes, STYPE = internal, FINALFUNC = theta_sketch_final_estimate, COMBINEFUNC = theta_sketch_combine,
    SERIALFUNC = theta_sketch_serialize, DESERIALFUNC = theta_sketch_deserialize, PARALLEL = SAFE);
CREATE AGGREGATE theta_sketch_distinct(bytea) (
    SFUNC = theta_sketch_add_bytes, STYPE = internal, FINALFUNC = theta_sketch_final_estimate, COMBINEFUNC = theta_sketch_combine,
    SERIALFUNC = theta_sketch_serialize, DESERIALFUNC = theta_sketch_deserialize, PARALLEL = SAFE);
CREATE AGGREGATE theta_sketch_distinct(bytea, integer) (
    SFUNC = theta_sketch_add_bytes, STYPE = internal, FINALFUNC = theta_sketch_final_estimate, COMBINEFUNC = theta_sketch_combine,
    SERIALFUNC = theta_sketch_serialize, DESERIALFUNC = theta_sketch_deserialize, PARALLEL = SAFE);
CREATE AGGREGATE theta_sketch_distinct(bigint) (
    SFUNC = theta_sketch_add_int8, STYPE = internal, FINALFUNC = theta_sketch_final_estimate, COMBINEFUNC = theta_sketch_combine,
    SERIALFUNC = theta_sketch_serialize, DESERIALFUNC = theta_sketch_deserialize, PARALLEL = SAFE);
CREATE AGGREGATE theta_sketch_distinct(bigint, integer) (
    SFUNC = theta_sketch_add_int8, STYPE = internal, FINALFUNC = theta_sketch_final_estimate, COMBINEFUNC = theta_sketch_combine,
    SERIALFUNC = theta_sketch_serialize, DESERIALFUNC = theta_sketch_deserialize, PARALLEL = SAFE);
CREATE AGGREGATE theta_sketch_union(theta_sketch) (
    SFUNC = theta_sketch_add_sketch, STYPE = internal, FINALFUNC = theta_sketch_final, COMBINEFUNC = theta_sketch_combine,
    SERIALFUNC = theta_sketch_serialize, DESERIALFUNC = theta_sketch_deserialize, PARALLEL = SAFE);
CREATE AGGREGATE theta_sketch_union(theta_sketch, integer) (
    SFUNC = theta_sketch_add_sketch, STYPE = internal, FINALFUNC = theta_sketch_final, COMBINEFUNC = theta_sketch_combine,
    SERIALFUNC = theta_sketch_serialize, DESERIALFUNC = theta_sketch_deserialize, PARALLEL = SAFE);

CREATE FUNCTION theta_sketch_meet(internal, theta_sketch) RETURNS internal
    AS 'MODULE_PATHNAME', 'theta_sketch_meet' LANGUAGE C IMMUTABLE PARALLEL SAFE;
CREATE FUNCTION theta_sketch_meet_combine(internal, internal) RETURNS internal
    AS 'MODULE_PATHNAME', 'theta_sketch_meet_combine' LANGUAGE C IMMUTABLE PARALLEL SAFE;
CREATE FUNCTION theta_sketch_meet_serialize(internal) RETURNS bytea
    AS 'MODULE_PATHNAME', 'theta_sketch_meet_serialize' LANGUAGE C IMMUTABLE STRICT PARALLEL SAFE;
CREATE FUNCTION theta_sketch_meet_deserialize(bytea, internal) RETURNS internal
    AS 'MODULE_PATHNAME', 'theta_sketch_meet_deserialize' LANGUAGE C IMMUTABLE STRICT PARALLEL SAFE;
CREATE FUNCTION theta_sketch_meet_final(internal) RETURNS theta_sketch
    AS 'MODULE_PATHNAME', 'theta_sketch_meet_final' LANGUAGE C IMMUTABLE PARALLEL SAFE;
CREATE AGGREGATE theta_sketch_intersection(theta_sketch) (
    SFUNC = theta_sketch_meet, STYPE = internal, FINALFUNC = theta_sketch_meet_final, COMBINEFUNC = theta_sketch_meet_combine,
    SERIALFUNC = theta_sketch_meet_serialize, DESERIALFUNC = theta_sketch_meet_deserialize, PARALLEL = SAFE);
