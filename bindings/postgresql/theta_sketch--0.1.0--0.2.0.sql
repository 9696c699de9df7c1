-- What 0.2.0 adds to 0.1.0 and changes in it; the rest is in the module that is loaded.
\echo Use "ALTER EXTENSION theta_sketch UPDATE TO '0.2.0'" to load this file. \quit

-- They aren't STRICT any more: the union of a sketch and NULL is the sketch.
CREATE OR REPLACE FUNCTION theta_sketch_union(theta_sketch, theta_sketch) RETURNS theta_sketch
    AS 'MODULE_PATHNAME', 'theta_sketch_union' LANGUAGE C IMMUTABLE PARALLEL SAFE;
CREATE OR REPLACE FUNCTION theta_sketch_union(theta_sketch, theta_sketch, integer) RETURNS theta_sketch
    AS 'MODULE_PATHNAME', 'theta_sketch_union' LANGUAGE C IMMUTABLE PARALLEL SAFE;

-- ---- A key that is added to a stored sketch ----

CREATE FUNCTION theta_sketch_add(theta_sketch, text) RETURNS theta_sketch
    AS 'MODULE_PATHNAME', 'theta_sketch_insert_bytes' LANGUAGE C IMMUTABLE PARALLEL SAFE COST 1000;
CREATE FUNCTION theta_sketch_add(theta_sketch, text, integer) RETURNS theta_sketch
    AS 'MODULE_PATHNAME', 'theta_sketch_insert_bytes' LANGUAGE C IMMUTABLE PARALLEL SAFE COST 1000;
CREATE FUNCTION theta_sketch_add(theta_sketch, bytea) RETURNS theta_sketch
    AS 'MODULE_PATHNAME', 'theta_sketch_insert_bytes' LANGUAGE C IMMUTABLE PARALLEL SAFE COST 1000;
CREATE FUNCTION theta_sketch_add(theta_sketch, bytea, integer) RETURNS theta_sketch
    AS 'MODULE_PATHNAME', 'theta_sketch_insert_bytes' LANGUAGE C IMMUTABLE PARALLEL SAFE COST 1000;
CREATE FUNCTION theta_sketch_add(theta_sketch, bigint) RETURNS theta_sketch
    AS 'MODULE_PATHNAME', 'theta_sketch_insert_int8' LANGUAGE C IMMUTABLE PARALLEL SAFE COST 1000;
CREATE FUNCTION theta_sketch_add(theta_sketch, bigint, integer) RETURNS theta_sketch
    AS 'MODULE_PATHNAME', 'theta_sketch_insert_int8' LANGUAGE C IMMUTABLE PARALLEL SAFE COST 1000;

-- ---- Tuple sketches: an image, whose text is base64, with the sum, the least or the greatest of the values of each key ----
-- A mode says which, and so how unions and intersections combine two summaries of a key: 'sum', 'min' or 'max'. An image doesn't record it.

CREATE TYPE tuple_sketch;

CREATE FUNCTION tuple_sketch_in(cstring) RETURNS tuple_sketch
    AS 'MODULE_PATHNAME', 'tuple_sketch_in' LANGUAGE C IMMUTABLE STRICT PARALLEL SAFE COST 1000;
CREATE FUNCTION tuple_sketch_out(tuple_sketch) RETURNS cstring
    AS 'MODULE_PATHNAME', 'tuple_sketch_out' LANGUAGE C IMMUTABLE STRICT PARALLEL SAFE COST 1000;
CREATE FUNCTION tuple_sketch_recv(internal) RETURNS tuple_sketch
    AS 'MODULE_PATHNAME', 'tuple_sketch_recv' LANGUAGE C IMMUTABLE STRICT PARALLEL SAFE COST 1000;
CREATE FUNCTION tuple_sketch_send(tuple_sketch) RETURNS bytea
    AS 'MODULE_PATHNAME', 'tuple_sketch_send' LANGUAGE C IMMUTABLE STRICT PARALLEL SAFE COST 1;

CREATE TYPE tuple_sketch (
    INPUT = tuple_sketch_in, OUTPUT = tuple_sketch_out, RECEIVE = tuple_sketch_recv, SEND = tuple_sketch_send, STORAGE = external);

CREATE FUNCTION tuple_sketch_from_bytea(bytea) RETURNS tuple_sketch
    AS 'MODULE_PATHNAME', 'tuple_sketch_from_bytea' LANGUAGE C IMMUTABLE STRICT PARALLEL SAFE COST 1000;
CREATE CAST (bytea AS tuple_sketch) WITH FUNCTION tuple_sketch_from_bytea(bytea) AS ASSIGNMENT;
CREATE CAST (tuple_sketch AS bytea) WITHOUT FUNCTION AS ASSIGNMENT;

CREATE FUNCTION tuple_sketch_get_estimate(tuple_sketch) RETURNS double precision
    AS 'MODULE_PATHNAME', 'tuple_sketch_get_estimate' LANGUAGE C IMMUTABLE STRICT PARALLEL SAFE COST 1000;
CREATE FUNCTION tuple_sketch_get_total(tuple_sketch) RETURNS double precision
    AS 'MODULE_PATHNAME', 'tuple_sketch_get_total' LANGUAGE C IMMUTABLE STRICT PARALLEL SAFE COST 1000;
CREATE FUNCTION tuple_sketch_get_bounds(tuple_sketch) RETURNS double precision[]
    AS 'MODULE_PATHNAME', 'tuple_sketch_get_bounds' LANGUAGE C IMMUTABLE STRICT PARALLEL SAFE COST 1000;
CREATE FUNCTION tuple_sketch_get_bounds(tuple_sketch, integer) RETURNS double precision[]
    AS 'MODULE_PATHNAME', 'tuple_sketch_get_bounds' LANGUAGE C IMMUTABLE STRICT PARALLEL SAFE COST 1000;
CREATE FUNCTION tuple_sketch_to_string(tuple_sketch) RETURNS text
    AS 'MODULE_PATHNAME', 'tuple_sketch_to_string' LANGUAGE C IMMUTABLE STRICT PARALLEL SAFE COST 1000;
CREATE FUNCTION tuple_sketch_union(tuple_sketch, tuple_sketch) RETURNS tuple_sketch
    AS 'MODULE_PATHNAME', 'tuple_sketch_union' LANGUAGE C IMMUTABLE PARALLEL SAFE COST 1000;
CREATE FUNCTION tuple_sketch_union(tuple_sketch, tuple_sketch, integer) RETURNS tuple_sketch
    AS 'MODULE_PATHNAME', 'tuple_sketch_union' LANGUAGE C IMMUTABLE PARALLEL SAFE COST 1000;
CREATE FUNCTION tuple_sketch_union(tuple_sketch, tuple_sketch, integer, text) RETURNS tuple_sketch
    AS 'MODULE_PATHNAME', 'tuple_sketch_union' LANGUAGE C IMMUTABLE PARALLEL SAFE COST 1000;
CREATE FUNCTION tuple_sketch_intersection(tuple_sketch, tuple_sketch) RETURNS tuple_sketch
    AS 'MODULE_PATHNAME', 'tuple_sketch_intersection' LANGUAGE C IMMUTABLE STRICT PARALLEL SAFE COST 1000;
CREATE FUNCTION tuple_sketch_intersection(tuple_sketch, tuple_sketch, text) RETURNS tuple_sketch
    AS 'MODULE_PATHNAME', 'tuple_sketch_intersection' LANGUAGE C IMMUTABLE PARALLEL SAFE COST 1000;
CREATE FUNCTION tuple_sketch_a_not_b(tuple_sketch, tuple_sketch) RETURNS tuple_sketch
    AS 'MODULE_PATHNAME', 'tuple_sketch_a_not_b' LANGUAGE C IMMUTABLE STRICT PARALLEL SAFE COST 1000;
CREATE FUNCTION tuple_sketch_add(tuple_sketch, text, bigint) RETURNS tuple_sketch
    AS 'MODULE_PATHNAME', 'tuple_sketch_insert_bytes' LANGUAGE C IMMUTABLE PARALLEL SAFE COST 1000;
CREATE FUNCTION tuple_sketch_add(tuple_sketch, text, bigint, integer) RETURNS tuple_sketch
    AS 'MODULE_PATHNAME', 'tuple_sketch_insert_bytes' LANGUAGE C IMMUTABLE PARALLEL SAFE COST 1000;
CREATE FUNCTION tuple_sketch_add(tuple_sketch, text, bigint, integer, text) RETURNS tuple_sketch
    AS 'MODULE_PATHNAME', 'tuple_sketch_insert_bytes' LANGUAGE C IMMUTABLE PARALLEL SAFE COST 1000;
CREATE FUNCTION tuple_sketch_add(tuple_sketch, bytea, bigint) RETURNS tuple_sketch
    AS 'MODULE_PATHNAME', 'tuple_sketch_insert_bytes' LANGUAGE C IMMUTABLE PARALLEL SAFE COST 1000;
CREATE FUNCTION tuple_sketch_add(tuple_sketch, bytea, bigint, integer) RETURNS tuple_sketch
    AS 'MODULE_PATHNAME', 'tuple_sketch_insert_bytes' LANGUAGE C IMMUTABLE PARALLEL SAFE COST 1000;
CREATE FUNCTION tuple_sketch_add(tuple_sketch, bytea, bigint, integer, text) RETURNS tuple_sketch
    AS 'MODULE_PATHNAME', 'tuple_sketch_insert_bytes' LANGUAGE C IMMUTABLE PARALLEL SAFE COST 1000;
CREATE FUNCTION tuple_sketch_add(tuple_sketch, bigint, bigint) RETURNS tuple_sketch
    AS 'MODULE_PATHNAME', 'tuple_sketch_insert_int8' LANGUAGE C IMMUTABLE PARALLEL SAFE COST 1000;
CREATE FUNCTION tuple_sketch_add(tuple_sketch, bigint, bigint, integer) RETURNS tuple_sketch
    AS 'MODULE_PATHNAME', 'tuple_sketch_insert_int8' LANGUAGE C IMMUTABLE PARALLEL SAFE COST 1000;
CREATE FUNCTION tuple_sketch_add(tuple_sketch, bigint, bigint, integer, text) RETURNS tuple_sketch
    AS 'MODULE_PATHNAME', 'tuple_sketch_insert_int8' LANGUAGE C IMMUTABLE PARALLEL SAFE COST 1000;

CREATE FUNCTION tuple_sketch_add_bytes(internal, text, bigint) RETURNS internal
    AS 'MODULE_PATHNAME', 'tuple_sketch_add_bytes' LANGUAGE C IMMUTABLE PARALLEL SAFE COST 2;
CREATE FUNCTION tuple_sketch_add_bytes(internal, text, bigint, integer) RETURNS internal
    AS 'MODULE_PATHNAME', 'tuple_sketch_add_bytes' LANGUAGE C IMMUTABLE PARALLEL SAFE COST 2;
CREATE FUNCTION tuple_sketch_add_bytes(internal, text, bigint, integer, text) RETURNS internal
    AS 'MODULE_PATHNAME', 'tuple_sketch_add_bytes' LANGUAGE C IMMUTABLE PARALLEL SAFE COST 2;
CREATE FUNCTION tuple_sketch_add_bytes(internal, bytea, bigint) RETURNS internal
    AS 'MODULE_PATHNAME', 'tuple_sketch_add_bytes' LANGUAGE C IMMUTABLE PARALLEL SAFE COST 2;
CREATE FUNCTION tuple_sketch_add_bytes(internal, bytea, bigint, integer) RETURNS internal
    AS 'MODULE_PATHNAME', 'tuple_sketch_add_bytes' LANGUAGE C IMMUTABLE PARALLEL SAFE COST 2;
CREATE FUNCTION tuple_sketch_add_bytes(internal, bytea, bigint, integer, text) RETURNS internal
    AS 'MODULE_PATHNAME', 'tuple_sketch_add_bytes' LANGUAGE C IMMUTABLE PARALLEL SAFE COST 2;
CREATE FUNCTION tuple_sketch_add_int8(internal, bigint, bigint) RETURNS internal
    AS 'MODULE_PATHNAME', 'tuple_sketch_add_int8' LANGUAGE C IMMUTABLE PARALLEL SAFE COST 2;
CREATE FUNCTION tuple_sketch_add_int8(internal, bigint, bigint, integer) RETURNS internal
    AS 'MODULE_PATHNAME', 'tuple_sketch_add_int8' LANGUAGE C IMMUTABLE PARALLEL SAFE COST 2;
CREATE FUNCTION tuple_sketch_add_int8(internal, bigint, bigint, integer, text) RETURNS internal
    AS 'MODULE_PATHNAME', 'tuple_sketch_add_int8' LANGUAGE C IMMUTABLE PARALLEL SAFE COST 2;
CREATE FUNCTION tuple_sketch_add_sketch(internal, tuple_sketch) RETURNS internal
    AS 'MODULE_PATHNAME', 'tuple_sketch_add_sketch' LANGUAGE C IMMUTABLE PARALLEL SAFE COST 1000;
CREATE FUNCTION tuple_sketch_add_sketch(internal, tuple_sketch, integer) RETURNS internal
    AS 'MODULE_PATHNAME', 'tuple_sketch_add_sketch' LANGUAGE C IMMUTABLE PARALLEL SAFE COST 1000;
CREATE FUNCTION tuple_sketch_add_sketch(internal, tuple_sketch, integer, text) RETURNS internal
    AS 'MODULE_PATHNAME', 'tuple_sketch_add_sketch' LANGUAGE C IMMUTABLE PARALLEL SAFE COST 1000;
CREATE FUNCTION tuple_sketch_combine(internal, internal) RETURNS internal
    AS 'MODULE_PATHNAME', 'tuple_sketch_combine' LANGUAGE C IMMUTABLE PARALLEL SAFE COST 1000;
CREATE FUNCTION tuple_sketch_serialize(internal) RETURNS bytea
    AS 'MODULE_PATHNAME', 'tuple_sketch_serialize' LANGUAGE C IMMUTABLE STRICT PARALLEL SAFE COST 1000;
CREATE FUNCTION tuple_sketch_deserialize(bytea, internal) RETURNS internal
    AS 'MODULE_PATHNAME', 'tuple_sketch_deserialize' LANGUAGE C IMMUTABLE STRICT PARALLEL SAFE COST 1000;
CREATE FUNCTION tuple_sketch_final(internal) RETURNS tuple_sketch
    AS 'MODULE_PATHNAME', 'tuple_sketch_final' LANGUAGE C IMMUTABLE PARALLEL SAFE COST 1000;
CREATE AGGREGATE tuple_sketch_build(text, bigint) (
    SFUNC = tuple_sketch_add_bytes, STYPE = internal, FINALFUNC = tuple_sketch_final, COMBINEFUNC = tuple_sketch_combine,
    SERIALFUNC = tuple_sketch_serialize, DESERIALFUNC = tuple_sketch_deserialize, PARALLEL = SAFE);
CREATE AGGREGATE tuple_sketch_build(text, bigint, integer) (
    SFUNC = tuple_sketch_add_bytes, STYPE = internal, FINALFUNC = tuple_sketch_final, COMBINEFUNC = tuple_sketch_combine,
    SERIALFUNC = tuple_sketch_serialize, DESERIALFUNC = tuple_sketch_deserialize, PARALLEL = SAFE);
CREATE AGGREGATE tuple_sketch_build(text, bigint, integer, text) (
    SFUNC = tuple_sketch_add_bytes, STYPE = internal, FINALFUNC = tuple_sketch_final, COMBINEFUNC = tuple_sketch_combine,
    SERIALFUNC = tuple_sketch_serialize, DESERIALFUNC = tuple_sketch_deserialize, PARALLEL = SAFE);
CREATE AGGREGATE tuple_sketch_build(bytea, bigint) (
    SFUNC = tuple_sketch_add_bytes, STYPE = internal, FINALFUNC = tuple_sketch_final, COMBINEFUNC = tuple_sketch_combine,
    SERIALFUNC = tuple_sketch_serialize, DESERIALFUNC = tuple_sketch_deserialize, PARALLEL = SAFE);
CREATE AGGREGATE tuple_sketch_build(bytea, bigint, integer) (
    SFUNC = tuple_sketch_add_bytes, STYPE = internal, FINALFUNC = tuple_sketch_final, COMBINEFUNC = tuple_sketch_combine,
    SERIALFUNC = tuple_sketch_serialize, DESERIALFUNC = tuple_sketch_deserialize, PARALLEL = SAFE);
CREATE AGGREGATE tuple_sketch_build(bytea, bigint, integer, text) (
    SFUNC = tuple_sketch_add_bytes, STYPE = internal, FINALFUNC = tuple_sketch_final, COMBINEFUNC = tuple_sketch_combine,
    SERIALFUNC = tuple_sketch_serialize, DESERIALFUNC = tuple_sketch_deserialize, PARALLEL = SAFE);
CREATE AGGREGATE tuple_sketch_build(bigint, bigint) (
    SFUNC = tuple_sketch_add_int8, STYPE = internal, FINALFUNC = tuple_sketch_final, COMBINEFUNC = tuple_sketch_combine,
    SERIALFUNC = tuple_sketch_serialize, DESERIALFUNC = tuple_sketch_deserialize, PARALLEL = SAFE);
CREATE AGGREGATE tuple_sketch_build(bigint, bigint, integer) (
    SFUNC = tuple_sketch_add_int8, STYPE = internal, FINALFUNC = tuple_sketch_final, COMBINEFUNC = tuple_sketch_combine,
    SERIALFUNC = tuple_sketch_serialize, DESERIALFUNC = tuple_sketch_deserialize, PARALLEL = SAFE);
CREATE AGGREGATE tuple_sketch_build(bigint, bigint, integer, text) (
    SFUNC = tuple_sketch_add_int8, STYPE = internal, FINALFUNC = tuple_sketch_final, COMBINEFUNC = tuple_sketch_combine,
    SERIALFUNC = tuple_sketch_serialize, DESERIALFUNC = tuple_sketch_deserialize, PARALLEL = SAFE);
CREATE AGGREGATE tuple_sketch_union(tuple_sketch) (
    SFUNC = tuple_sketch_add_sketch, STYPE = internal, FINALFUNC = tuple_sketch_final, COMBINEFUNC = tuple_sketch_combine,
    SERIALFUNC = tuple_sketch_serialize, DESERIALFUNC = tuple_sketch_deserialize, PARALLEL = SAFE);
CREATE AGGREGATE tuple_sketch_union(tuple_sketch, integer) (
    SFUNC = tuple_sketch_add_sketch, STYPE = internal, FINALFUNC = tuple_sketch_final, COMBINEFUNC = tuple_sketch_combine,
    SERIALFUNC = tuple_sketch_serialize, DESERIALFUNC = tuple_sketch_deserialize, PARALLEL = SAFE);
CREATE AGGREGATE tuple_sketch_union(tuple_sketch, integer, text) (
    SFUNC = tuple_sketch_add_sketch, STYPE = internal, FINALFUNC = tuple_sketch_final, COMBINEFUNC = tuple_sketch_combine,
    SERIALFUNC = tuple_sketch_serialize, DESERIALFUNC = tuple_sketch_deserialize, PARALLEL = SAFE);
CREATE FUNCTION tuple_sketch_meet(internal, tuple_sketch) RETURNS internal
    AS 'MODULE_PATHNAME', 'tuple_sketch_meet' LANGUAGE C IMMUTABLE PARALLEL SAFE COST 1000;
CREATE FUNCTION tuple_sketch_meet(internal, tuple_sketch, text) RETURNS internal
    AS 'MODULE_PATHNAME', 'tuple_sketch_meet' LANGUAGE C IMMUTABLE PARALLEL SAFE COST 1000;
CREATE FUNCTION tuple_sketch_meet_combine(internal, internal) RETURNS internal
    AS 'MODULE_PATHNAME', 'tuple_sketch_meet_combine' LANGUAGE C IMMUTABLE PARALLEL SAFE COST 1000;
CREATE FUNCTION tuple_sketch_meet_serialize(internal) RETURNS bytea
    AS 'MODULE_PATHNAME', 'tuple_sketch_meet_serialize' LANGUAGE C IMMUTABLE STRICT PARALLEL SAFE COST 1000;
CREATE FUNCTION tuple_sketch_meet_deserialize(bytea, internal) RETURNS internal
    AS 'MODULE_PATHNAME', 'tuple_sketch_meet_deserialize' LANGUAGE C IMMUTABLE STRICT PARALLEL SAFE COST 1000;
CREATE FUNCTION tuple_sketch_meet_final(internal) RETURNS tuple_sketch
    AS 'MODULE_PATHNAME', 'tuple_sketch_meet_final' LANGUAGE C IMMUTABLE PARALLEL SAFE COST 1000;
CREATE AGGREGATE tuple_sketch_intersection(tuple_sketch) (
    SFUNC = tuple_sketch_meet, STYPE = internal, FINALFUNC = tuple_sketch_meet_final, COMBINEFUNC = tuple_sketch_meet_combine,
    SERIALFUNC = tuple_sketch_meet_serialize, DESERIALFUNC = tuple_sketch_meet_deserialize, PARALLEL = SAFE);
CREATE AGGREGATE tuple_sketch_intersection(tuple_sketch, text) (
    SFUNC = tuple_sketch_meet, STYPE = internal, FINALFUNC = tuple_sketch_meet_final, COMBINEFUNC = tuple_sketch_meet_combine,
    SERIALFUNC = tuple_sketch_meet_serialize, DESERIALFUNC = tuple_sketch_meet_deserialize, PARALLEL = SAFE);

-- ---- Keys that are hashed by their text: that of x::text with DateStyle ISO and TimeZone UTC ----

CREATE FUNCTION theta_sketch_add_text(internal, anyelement) RETURNS internal
    AS 'MODULE_PATHNAME', 'theta_sketch_add_text' LANGUAGE C IMMUTABLE PARALLEL SAFE COST 10;
CREATE FUNCTION theta_sketch_add_text(internal, anyelement, integer) RETURNS internal
    AS 'MODULE_PATHNAME', 'theta_sketch_add_text' LANGUAGE C IMMUTABLE PARALLEL SAFE COST 10;
CREATE FUNCTION tuple_sketch_add_text(internal, anyelement, bigint) RETURNS internal
    AS 'MODULE_PATHNAME', 'tuple_sketch_add_text' LANGUAGE C IMMUTABLE PARALLEL SAFE COST 10;
CREATE FUNCTION tuple_sketch_add_text(internal, anyelement, bigint, integer) RETURNS internal
    AS 'MODULE_PATHNAME', 'tuple_sketch_add_text' LANGUAGE C IMMUTABLE PARALLEL SAFE COST 10;
CREATE FUNCTION tuple_sketch_add_text(internal, anyelement, bigint, integer, text) RETURNS internal
    AS 'MODULE_PATHNAME', 'tuple_sketch_add_text' LANGUAGE C IMMUTABLE PARALLEL SAFE COST 10;
CREATE AGGREGATE theta_sketch_build(boolean) (
    SFUNC = theta_sketch_add_text, STYPE = internal, FINALFUNC = theta_sketch_final, COMBINEFUNC = theta_sketch_combine,
    SERIALFUNC = theta_sketch_serialize, DESERIALFUNC = theta_sketch_deserialize, PARALLEL = SAFE);
CREATE AGGREGATE theta_sketch_distinct(boolean) (
    SFUNC = theta_sketch_add_text, STYPE = internal, FINALFUNC = theta_sketch_final_estimate, COMBINEFUNC = theta_sketch_combine,
    SERIALFUNC = theta_sketch_serialize, DESERIALFUNC = theta_sketch_deserialize, PARALLEL = SAFE);
CREATE FUNCTION theta_sketch_add(theta_sketch, boolean) RETURNS theta_sketch
    AS 'MODULE_PATHNAME', 'theta_sketch_insert_text' LANGUAGE C IMMUTABLE PARALLEL SAFE COST 1000;
CREATE AGGREGATE theta_sketch_build(boolean, integer) (
    SFUNC = theta_sketch_add_text, STYPE = internal, FINALFUNC = theta_sketch_final, COMBINEFUNC = theta_sketch_combine,
    SERIALFUNC = theta_sketch_serialize, DESERIALFUNC = theta_sketch_deserialize, PARALLEL = SAFE);
CREATE AGGREGATE theta_sketch_distinct(boolean, integer) (
    SFUNC = theta_sketch_add_text, STYPE = internal, FINALFUNC = theta_sketch_final_estimate, COMBINEFUNC = theta_sketch_combine,
    SERIALFUNC = theta_sketch_serialize, DESERIALFUNC = theta_sketch_deserialize, PARALLEL = SAFE);
CREATE FUNCTION theta_sketch_add(theta_sketch, boolean, integer) RETURNS theta_sketch
    AS 'MODULE_PATHNAME', 'theta_sketch_insert_text' LANGUAGE C IMMUTABLE PARALLEL SAFE COST 1000;
CREATE AGGREGATE tuple_sketch_build(boolean, bigint) (
    SFUNC = tuple_sketch_add_text, STYPE = internal, FINALFUNC = tuple_sketch_final, COMBINEFUNC = tuple_sketch_combine,
    SERIALFUNC = tuple_sketch_serialize, DESERIALFUNC = tuple_sketch_deserialize, PARALLEL = SAFE);
CREATE FUNCTION tuple_sketch_add(tuple_sketch, boolean, bigint) RETURNS tuple_sketch
    AS 'MODULE_PATHNAME', 'tuple_sketch_insert_text' LANGUAGE C IMMUTABLE PARALLEL SAFE COST 1000;
CREATE AGGREGATE tuple_sketch_build(boolean, bigint, integer) (
    SFUNC = tuple_sketch_add_text, STYPE = internal, FINALFUNC = tuple_sketch_final, COMBINEFUNC = tuple_sketch_combine,
    SERIALFUNC = tuple_sketch_serialize, DESERIALFUNC = tuple_sketch_deserialize, PARALLEL = SAFE);
CREATE AGGREGATE tuple_sketch_build(boolean, bigint, integer, text) (
    SFUNC = tuple_sketch_add_text, STYPE = internal, FINALFUNC = tuple_sketch_final, COMBINEFUNC = tuple_sketch_combine,
    SERIALFUNC = tuple_sketch_serialize, DESERIALFUNC = tuple_sketch_deserialize, PARALLEL = SAFE);
CREATE FUNCTION tuple_sketch_add(tuple_sketch, boolean, bigint, integer) RETURNS tuple_sketch
    AS 'MODULE_PATHNAME', 'tuple_sketch_insert_text' LANGUAGE C IMMUTABLE PARALLEL SAFE COST 1000;
CREATE FUNCTION tuple_sketch_add(tuple_sketch, boolean, bigint, integer, text) RETURNS tuple_sketch
    AS 'MODULE_PATHNAME', 'tuple_sketch_insert_text' LANGUAGE C IMMUTABLE PARALLEL SAFE COST 1000;
CREATE AGGREGATE theta_sketch_build(date) (
    SFUNC = theta_sketch_add_text, STYPE = internal, FINALFUNC = theta_sketch_final, COMBINEFUNC = theta_sketch_combine,
    SERIALFUNC = theta_sketch_serialize, DESERIALFUNC = theta_sketch_deserialize, PARALLEL = SAFE);
CREATE AGGREGATE theta_sketch_distinct(date) (
    SFUNC = theta_sketch_add_text, STYPE = internal, FINALFUNC = theta_sketch_final_estimate, COMBINEFUNC = theta_sketch_combine,
    SERIALFUNC = theta_sketch_serialize, DESERIALFUNC = theta_sketch_deserialize, PARALLEL = SAFE);
CREATE FUNCTION theta_sketch_add(theta_sketch, date) RETURNS theta_sketch
    AS 'MODULE_PATHNAME', 'theta_sketch_insert_text' LANGUAGE C IMMUTABLE PARALLEL SAFE COST 1000;
CREATE AGGREGATE theta_sketch_build(date, integer) (
    SFUNC = theta_sketch_add_text, STYPE = internal, FINALFUNC = theta_sketch_final, COMBINEFUNC = theta_sketch_combine,
    SERIALFUNC = theta_sketch_serialize, DESERIALFUNC = theta_sketch_deserialize, PARALLEL = SAFE);
CREATE AGGREGATE theta_sketch_distinct(date, integer) (
    SFUNC = theta_sketch_add_text, STYPE = internal, FINALFUNC = theta_sketch_final_estimate, COMBINEFUNC = theta_sketch_combine,
    SERIALFUNC = theta_sketch_serialize, DESERIALFUNC = theta_sketch_deserialize, PARALLEL = SAFE);
CREATE FUNCTION theta_sketch_add(theta_sketch, date, integer) RETURNS theta_sketch
    AS 'MODULE_PATHNAME', 'theta_sketch_insert_text' LANGUAGE C IMMUTABLE PARALLEL SAFE COST 1000;
CREATE AGGREGATE tuple_sketch_build(date, bigint) (
    SFUNC = tuple_sketch_add_text, STYPE = internal, FINALFUNC = tuple_sketch_final, COMBINEFUNC = tuple_sketch_combine,
    SERIALFUNC = tuple_sketch_serialize, DESERIALFUNC = tuple_sketch_deserialize, PARALLEL = SAFE);
CREATE FUNCTION tuple_sketch_add(tuple_sketch, date, bigint) RETURNS tuple_sketch
    AS 'MODULE_PATHNAME', 'tuple_sketch_insert_text' LANGUAGE C IMMUTABLE PARALLEL SAFE COST 1000;
CREATE AGGREGATE tuple_sketch_build(date, bigint, integer) (
    SFUNC = tuple_sketch_add_text, STYPE = internal, FINALFUNC = tuple_sketch_final, COMBINEFUNC = tuple_sketch_combine,
    SERIALFUNC = tuple_sketch_serialize, DESERIALFUNC = tuple_sketch_deserialize, PARALLEL = SAFE);
CREATE AGGREGATE tuple_sketch_build(date, bigint, integer, text) (
    SFUNC = tuple_sketch_add_text, STYPE = internal, FINALFUNC = tuple_sketch_final, COMBINEFUNC = tuple_sketch_combine,
    SERIALFUNC = tuple_sketch_serialize, DESERIALFUNC = tuple_sketch_deserialize, PARALLEL = SAFE);
CREATE FUNCTION tuple_sketch_add(tuple_sketch, date, bigint, integer) RETURNS tuple_sketch
    AS 'MODULE_PATHNAME', 'tuple_sketch_insert_text' LANGUAGE C IMMUTABLE PARALLEL SAFE COST 1000;
CREATE FUNCTION tuple_sketch_add(tuple_sketch, date, bigint, integer, text) RETURNS tuple_sketch
    AS 'MODULE_PATHNAME', 'tuple_sketch_insert_text' LANGUAGE C IMMUTABLE PARALLEL SAFE COST 1000;
CREATE AGGREGATE theta_sketch_build(timestamp) (
    SFUNC = theta_sketch_add_text, STYPE = internal, FINALFUNC = theta_sketch_final, COMBINEFUNC = theta_sketch_combine,
    SERIALFUNC = theta_sketch_serialize, DESERIALFUNC = theta_sketch_deserialize, PARALLEL = SAFE);
CREATE AGGREGATE theta_sketch_distinct(timestamp) (
    SFUNC = theta_sketch_add_text, STYPE = internal, FINALFUNC = theta_sketch_final_estimate, COMBINEFUNC = theta_sketch_combine,
    SERIALFUNC = theta_sketch_serialize, DESERIALFUNC = theta_sketch_deserialize, PARALLEL = SAFE);
CREATE FUNCTION theta_sketch_add(theta_sketch, timestamp) RETURNS theta_sketch
    AS 'MODULE_PATHNAME', 'theta_sketch_insert_text' LANGUAGE C IMMUTABLE PARALLEL SAFE COST 1000;
CREATE AGGREGATE theta_sketch_build(timestamp, integer) (
    SFUNC = theta_sketch_add_text, STYPE = internal, FINALFUNC = theta_sketch_final, COMBINEFUNC = theta_sketch_combine,
    SERIALFUNC = theta_sketch_serialize, DESERIALFUNC = theta_sketch_deserialize, PARALLEL = SAFE);
CREATE AGGREGATE theta_sketch_distinct(timestamp, integer) (
    SFUNC = theta_sketch_add_text, STYPE = internal, FINALFUNC = theta_sketch_final_estimate, COMBINEFUNC = theta_sketch_combine,
    SERIALFUNC = theta_sketch_serialize, DESERIALFUNC = theta_sketch_deserialize, PARALLEL = SAFE);
CREATE FUNCTION theta_sketch_add(theta_sketch, timestamp, integer) RETURNS theta_sketch
    AS 'MODULE_PATHNAME', 'theta_sketch_insert_text' LANGUAGE C IMMUTABLE PARALLEL SAFE COST 1000;
CREATE AGGREGATE tuple_sketch_build(timestamp, bigint) (
    SFUNC = tuple_sketch_add_text, STYPE = internal, FINALFUNC = tuple_sketch_final, COMBINEFUNC = tuple_sketch_combine,
    SERIALFUNC = tuple_sketch_serialize, DESERIALFUNC = tuple_sketch_deserialize, PARALLEL = SAFE);
CREATE FUNCTION tuple_sketch_add(tuple_sketch, timestamp, bigint) RETURNS tuple_sketch
    AS 'MODULE_PATHNAME', 'tuple_sketch_insert_text' LANGUAGE C IMMUTABLE PARALLEL SAFE COST 1000;
CREATE AGGREGATE tuple_sketch_build(timestamp, bigint, integer) (
    SFUNC = tuple_sketch_add_text, STYPE = internal, FINALFUNC = tuple_sketch_final, COMBINEFUNC = tuple_sketch_combine,
    SERIALFUNC = tuple_sketch_serialize, DESERIALFUNC = tuple_sketch_deserialize, PARALLEL = SAFE);
CREATE AGGREGATE tuple_sketch_build(timestamp, bigint, integer, text) (
    SFUNC = tuple_sketch_add_text, STYPE = internal, FINALFUNC = tuple_sketch_final, COMBINEFUNC = tuple_sketch_combine,
    SERIALFUNC = tuple_sketch_serialize, DESERIALFUNC = tuple_sketch_deserialize, PARALLEL = SAFE);
CREATE FUNCTION tuple_sketch_add(tuple_sketch, timestamp, bigint, integer) RETURNS tuple_sketch
    AS 'MODULE_PATHNAME', 'tuple_sketch_insert_text' LANGUAGE C IMMUTABLE PARALLEL SAFE COST 1000;
CREATE FUNCTION tuple_sketch_add(tuple_sketch, timestamp, bigint, integer, text) RETURNS tuple_sketch
    AS 'MODULE_PATHNAME', 'tuple_sketch_insert_text' LANGUAGE C IMMUTABLE PARALLEL SAFE COST 1000;
CREATE AGGREGATE theta_sketch_build(timestamptz) (
    SFUNC = theta_sketch_add_text, STYPE = internal, FINALFUNC = theta_sketch_final, COMBINEFUNC = theta_sketch_combine,
    SERIALFUNC = theta_sketch_serialize, DESERIALFUNC = theta_sketch_deserialize, PARALLEL = SAFE);
CREATE AGGREGATE theta_sketch_distinct(timestamptz) (
    SFUNC = theta_sketch_add_text, STYPE = internal, FINALFUNC = theta_sketch_final_estimate, COMBINEFUNC = theta_sketch_combine,
    SERIALFUNC = theta_sketch_serialize, DESERIALFUNC = theta_sketch_deserialize, PARALLEL = SAFE);
CREATE FUNCTION theta_sketch_add(theta_sketch, timestamptz) RETURNS theta_sketch
    AS 'MODULE_PATHNAME', 'theta_sketch_insert_text' LANGUAGE C IMMUTABLE PARALLEL SAFE COST 1000;
CREATE AGGREGATE theta_sketch_build(timestamptz, integer) (
    SFUNC = theta_sketch_add_text, STYPE = internal, FINALFUNC = theta_sketch_final, COMBINEFUNC = theta_sketch_combine,
    SERIALFUNC = theta_sketch_serialize, DESERIALFUNC = theta_sketch_deserialize, PARALLEL = SAFE);
CREATE AGGREGATE theta_sketch_distinct(timestamptz, integer) (
    SFUNC = theta_sketch_add_text, STYPE = internal, FINALFUNC = theta_sketch_final_estimate, COMBINEFUNC = theta_sketch_combine,
    SERIALFUNC = theta_sketch_serialize, DESERIALFUNC = theta_sketch_deserialize, PARALLEL = SAFE);
CREATE FUNCTION theta_sketch_add(theta_sketch, timestamptz, integer) RETURNS theta_sketch
    AS 'MODULE_PATHNAME', 'theta_sketch_insert_text' LANGUAGE C IMMUTABLE PARALLEL SAFE COST 1000;
CREATE AGGREGATE tuple_sketch_build(timestamptz, bigint) (
    SFUNC = tuple_sketch_add_text, STYPE = internal, FINALFUNC = tuple_sketch_final, COMBINEFUNC = tuple_sketch_combine,
    SERIALFUNC = tuple_sketch_serialize, DESERIALFUNC = tuple_sketch_deserialize, PARALLEL = SAFE);
CREATE FUNCTION tuple_sketch_add(tuple_sketch, timestamptz, bigint) RETURNS tuple_sketch
    AS 'MODULE_PATHNAME', 'tuple_sketch_insert_text' LANGUAGE C IMMUTABLE PARALLEL SAFE COST 1000;
CREATE AGGREGATE tuple_sketch_build(timestamptz, bigint, integer) (
    SFUNC = tuple_sketch_add_text, STYPE = internal, FINALFUNC = tuple_sketch_final, COMBINEFUNC = tuple_sketch_combine,
    SERIALFUNC = tuple_sketch_serialize, DESERIALFUNC = tuple_sketch_deserialize, PARALLEL = SAFE);
CREATE AGGREGATE tuple_sketch_build(timestamptz, bigint, integer, text) (
    SFUNC = tuple_sketch_add_text, STYPE = internal, FINALFUNC = tuple_sketch_final, COMBINEFUNC = tuple_sketch_combine,
    SERIALFUNC = tuple_sketch_serialize, DESERIALFUNC = tuple_sketch_deserialize, PARALLEL = SAFE);
CREATE FUNCTION tuple_sketch_add(tuple_sketch, timestamptz, bigint, integer) RETURNS tuple_sketch
    AS 'MODULE_PATHNAME', 'tuple_sketch_insert_text' LANGUAGE C IMMUTABLE PARALLEL SAFE COST 1000;
CREATE FUNCTION tuple_sketch_add(tuple_sketch, timestamptz, bigint, integer, text) RETURNS tuple_sketch
    AS 'MODULE_PATHNAME', 'tuple_sketch_insert_text' LANGUAGE C IMMUTABLE PARALLEL SAFE COST 1000;
CREATE AGGREGATE theta_sketch_build(uuid) (
    SFUNC = theta_sketch_add_text, STYPE = internal, FINALFUNC = theta_sketch_final, COMBINEFUNC = theta_sketch_combine,
    SERIALFUNC = theta_sketch_serialize, DESERIALFUNC = theta_sketch_deserialize, PARALLEL = SAFE);
CREATE AGGREGATE theta_sketch_distinct(uuid) (
    SFUNC = theta_sketch_add_text, STYPE = internal, FINALFUNC = theta_sketch_final_estimate, COMBINEFUNC = theta_sketch_combine,
    SERIALFUNC = theta_sketch_serialize, DESERIALFUNC = theta_sketch_deserialize, PARALLEL = SAFE);
CREATE FUNCTION theta_sketch_add(theta_sketch, uuid) RETURNS theta_sketch
    AS 'MODULE_PATHNAME', 'theta_sketch_insert_text' LANGUAGE C IMMUTABLE PARALLEL SAFE COST 1000;
CREATE AGGREGATE theta_sketch_build(uuid, integer) (
    SFUNC = theta_sketch_add_text, STYPE = internal, FINALFUNC = theta_sketch_final, COMBINEFUNC = theta_sketch_combine,
    SERIALFUNC = theta_sketch_serialize, DESERIALFUNC = theta_sketch_deserialize, PARALLEL = SAFE);
CREATE AGGREGATE theta_sketch_distinct(uuid, integer) (
    SFUNC = theta_sketch_add_text, STYPE = internal, FINALFUNC = theta_sketch_final_estimate, COMBINEFUNC = theta_sketch_combine,
    SERIALFUNC = theta_sketch_serialize, DESERIALFUNC = theta_sketch_deserialize, PARALLEL = SAFE);
CREATE FUNCTION theta_sketch_add(theta_sketch, uuid, integer) RETURNS theta_sketch
    AS 'MODULE_PATHNAME', 'theta_sketch_insert_text' LANGUAGE C IMMUTABLE PARALLEL SAFE COST 1000;
CREATE AGGREGATE tuple_sketch_build(uuid, bigint) (
    SFUNC = tuple_sketch_add_text, STYPE = internal, FINALFUNC = tuple_sketch_final, COMBINEFUNC = tuple_sketch_combine,
    SERIALFUNC = tuple_sketch_serialize, DESERIALFUNC = tuple_sketch_deserialize, PARALLEL = SAFE);
CREATE FUNCTION tuple_sketch_add(tuple_sketch, uuid, bigint) RETURNS tuple_sketch
    AS 'MODULE_PATHNAME', 'tuple_sketch_insert_text' LANGUAGE C IMMUTABLE PARALLEL SAFE COST 1000;
CREATE AGGREGATE tuple_sketch_build(uuid, bigint, integer) (
    SFUNC = tuple_sketch_add_text, STYPE = internal, FINALFUNC = tuple_sketch_final, COMBINEFUNC = tuple_sketch_combine,
    SERIALFUNC = tuple_sketch_serialize, DESERIALFUNC = tuple_sketch_deserialize, PARALLEL = SAFE);
CREATE AGGREGATE tuple_sketch_build(uuid, bigint, integer, text) (
    SFUNC = tuple_sketch_add_text, STYPE = internal, FINALFUNC = tuple_sketch_final, COMBINEFUNC = tuple_sketch_combine,
    SERIALFUNC = tuple_sketch_serialize, DESERIALFUNC = tuple_sketch_deserialize, PARALLEL = SAFE);
CREATE FUNCTION tuple_sketch_add(tuple_sketch, uuid, bigint, integer) RETURNS tuple_sketch
    AS 'MODULE_PATHNAME', 'tuple_sketch_insert_text' LANGUAGE C IMMUTABLE PARALLEL SAFE COST 1000;
CREATE FUNCTION tuple_sketch_add(tuple_sketch, uuid, bigint, integer, text) RETURNS tuple_sketch
    AS 'MODULE_PATHNAME', 'tuple_sketch_insert_text' LANGUAGE C IMMUTABLE PARALLEL SAFE COST 1000;
CREATE AGGREGATE theta_sketch_build(inet) (
    SFUNC = theta_sketch_add_text, STYPE = internal, FINALFUNC = theta_sketch_final, COMBINEFUNC = theta_sketch_combine,
    SERIALFUNC = theta_sketch_serialize, DESERIALFUNC = theta_sketch_deserialize, PARALLEL = SAFE);
CREATE AGGREGATE theta_sketch_distinct(inet) (
    SFUNC = theta_sketch_add_text, STYPE = internal, FINALFUNC = theta_sketch_final_estimate, COMBINEFUNC = theta_sketch_combine,
    SERIALFUNC = theta_sketch_serialize, DESERIALFUNC = theta_sketch_deserialize, PARALLEL = SAFE);
CREATE FUNCTION theta_sketch_add(theta_sketch, inet) RETURNS theta_sketch
    AS 'MODULE_PATHNAME', 'theta_sketch_insert_text' LANGUAGE C IMMUTABLE PARALLEL SAFE COST 1000;
CREATE AGGREGATE theta_sketch_build(inet, integer) (
    SFUNC = theta_sketch_add_text, STYPE = internal, FINALFUNC = theta_sketch_final, COMBINEFUNC = theta_sketch_combine,
    SERIALFUNC = theta_sketch_serialize, DESERIALFUNC = theta_sketch_deserialize, PARALLEL = SAFE);
CREATE AGGREGATE theta_sketch_distinct(inet, integer) (
    SFUNC = theta_sketch_add_text, STYPE = internal, FINALFUNC = theta_sketch_final_estimate, COMBINEFUNC = theta_sketch_combine,
    SERIALFUNC = theta_sketch_serialize, DESERIALFUNC = theta_sketch_deserialize, PARALLEL = SAFE);
CREATE FUNCTION theta_sketch_add(theta_sketch, inet, integer) RETURNS theta_sketch
    AS 'MODULE_PATHNAME', 'theta_sketch_insert_text' LANGUAGE C IMMUTABLE PARALLEL SAFE COST 1000;
CREATE AGGREGATE tuple_sketch_build(inet, bigint) (
    SFUNC = tuple_sketch_add_text, STYPE = internal, FINALFUNC = tuple_sketch_final, COMBINEFUNC = tuple_sketch_combine,
    SERIALFUNC = tuple_sketch_serialize, DESERIALFUNC = tuple_sketch_deserialize, PARALLEL = SAFE);
CREATE FUNCTION tuple_sketch_add(tuple_sketch, inet, bigint) RETURNS tuple_sketch
    AS 'MODULE_PATHNAME', 'tuple_sketch_insert_text' LANGUAGE C IMMUTABLE PARALLEL SAFE COST 1000;
CREATE AGGREGATE tuple_sketch_build(inet, bigint, integer) (
    SFUNC = tuple_sketch_add_text, STYPE = internal, FINALFUNC = tuple_sketch_final, COMBINEFUNC = tuple_sketch_combine,
    SERIALFUNC = tuple_sketch_serialize, DESERIALFUNC = tuple_sketch_deserialize, PARALLEL = SAFE);
CREATE AGGREGATE tuple_sketch_build(inet, bigint, integer, text) (
    SFUNC = tuple_sketch_add_text, STYPE = internal, FINALFUNC = tuple_sketch_final, COMBINEFUNC = tuple_sketch_combine,
    SERIALFUNC = tuple_sketch_serialize, DESERIALFUNC = tuple_sketch_deserialize, PARALLEL = SAFE);
CREATE FUNCTION tuple_sketch_add(tuple_sketch, inet, bigint, integer) RETURNS tuple_sketch
    AS 'MODULE_PATHNAME', 'tuple_sketch_insert_text' LANGUAGE C IMMUTABLE PARALLEL SAFE COST 1000;
CREATE FUNCTION tuple_sketch_add(tuple_sketch, inet, bigint, integer, text) RETURNS tuple_sketch
    AS 'MODULE_PATHNAME', 'tuple_sketch_insert_text' LANGUAGE C IMMUTABLE PARALLEL SAFE COST 1000;
CREATE AGGREGATE theta_sketch_build(anyenum) (
    SFUNC = theta_sketch_add_text, STYPE = internal, FINALFUNC = theta_sketch_final, COMBINEFUNC = theta_sketch_combine,
    SERIALFUNC = theta_sketch_serialize, DESERIALFUNC = theta_sketch_deserialize, PARALLEL = SAFE);
CREATE AGGREGATE theta_sketch_distinct(anyenum) (
    SFUNC = theta_sketch_add_text, STYPE = internal, FINALFUNC = theta_sketch_final_estimate, COMBINEFUNC = theta_sketch_combine,
    SERIALFUNC = theta_sketch_serialize, DESERIALFUNC = theta_sketch_deserialize, PARALLEL = SAFE);
CREATE FUNCTION theta_sketch_add(theta_sketch, anyenum) RETURNS theta_sketch
    AS 'MODULE_PATHNAME', 'theta_sketch_insert_text' LANGUAGE C IMMUTABLE PARALLEL SAFE COST 1000;
CREATE AGGREGATE theta_sketch_build(anyenum, integer) (
    SFUNC = theta_sketch_add_text, STYPE = internal, FINALFUNC = theta_sketch_final, COMBINEFUNC = theta_sketch_combine,
    SERIALFUNC = theta_sketch_serialize, DESERIALFUNC = theta_sketch_deserialize, PARALLEL = SAFE);
CREATE AGGREGATE theta_sketch_distinct(anyenum, integer) (
    SFUNC = theta_sketch_add_text, STYPE = internal, FINALFUNC = theta_sketch_final_estimate, COMBINEFUNC = theta_sketch_combine,
    SERIALFUNC = theta_sketch_serialize, DESERIALFUNC = theta_sketch_deserialize, PARALLEL = SAFE);
CREATE FUNCTION theta_sketch_add(theta_sketch, anyenum, integer) RETURNS theta_sketch
    AS 'MODULE_PATHNAME', 'theta_sketch_insert_text' LANGUAGE C IMMUTABLE PARALLEL SAFE COST 1000;
CREATE AGGREGATE tuple_sketch_build(anyenum, bigint) (
    SFUNC = tuple_sketch_add_text, STYPE = internal, FINALFUNC = tuple_sketch_final, COMBINEFUNC = tuple_sketch_combine,
    SERIALFUNC = tuple_sketch_serialize, DESERIALFUNC = tuple_sketch_deserialize, PARALLEL = SAFE);
CREATE FUNCTION tuple_sketch_add(tuple_sketch, anyenum, bigint) RETURNS tuple_sketch
    AS 'MODULE_PATHNAME', 'tuple_sketch_insert_text' LANGUAGE C IMMUTABLE PARALLEL SAFE COST 1000;
CREATE AGGREGATE tuple_sketch_build(anyenum, bigint, integer) (
    SFUNC = tuple_sketch_add_text, STYPE = internal, FINALFUNC = tuple_sketch_final, COMBINEFUNC = tuple_sketch_combine,
    SERIALFUNC = tuple_sketch_serialize, DESERIALFUNC = tuple_sketch_deserialize, PARALLEL = SAFE);
CREATE AGGREGATE tuple_sketch_build(anyenum, bigint, integer, text) (
    SFUNC = tuple_sketch_add_text, STYPE = internal, FINALFUNC = tuple_sketch_final, COMBINEFUNC = tuple_sketch_combine,
    SERIALFUNC = tuple_sketch_serialize, DESERIALFUNC = tuple_sketch_deserialize, PARALLEL = SAFE);
CREATE FUNCTION tuple_sketch_add(tuple_sketch, anyenum, bigint, integer) RETURNS tuple_sketch
    AS 'MODULE_PATHNAME', 'tuple_sketch_insert_text' LANGUAGE C IMMUTABLE PARALLEL SAFE COST 1000;
CREATE FUNCTION tuple_sketch_add(tuple_sketch, anyenum, bigint, integer, text) RETURNS tuple_sketch
    AS 'MODULE_PATHNAME', 'tuple_sketch_insert_text' LANGUAGE C IMMUTABLE PARALLEL SAFE COST 1000;

-- ---- Keys of numbers ----
-- An integer and an oid are hashed by 64 bits, as a bigint is, and a float by the 64 bits of a double; a numeric by its text without zeros at
-- the end of its decimals. Each integer has a function, since PostgreSQL would cast it to a float. A real is cast to double precision.

CREATE FUNCTION theta_sketch_add_int2(internal, smallint) RETURNS internal
    AS 'MODULE_PATHNAME', 'theta_sketch_add_int2' LANGUAGE C IMMUTABLE PARALLEL SAFE COST 2;
CREATE FUNCTION theta_sketch_add_int2(internal, smallint, integer) RETURNS internal
    AS 'MODULE_PATHNAME', 'theta_sketch_add_int2' LANGUAGE C IMMUTABLE PARALLEL SAFE COST 2;
CREATE FUNCTION tuple_sketch_add_int2(internal, smallint, bigint) RETURNS internal
    AS 'MODULE_PATHNAME', 'tuple_sketch_add_int2' LANGUAGE C IMMUTABLE PARALLEL SAFE COST 2;
CREATE FUNCTION tuple_sketch_add_int2(internal, smallint, bigint, integer) RETURNS internal
    AS 'MODULE_PATHNAME', 'tuple_sketch_add_int2' LANGUAGE C IMMUTABLE PARALLEL SAFE COST 2;
CREATE FUNCTION tuple_sketch_add_int2(internal, smallint, bigint, integer, text) RETURNS internal
    AS 'MODULE_PATHNAME', 'tuple_sketch_add_int2' LANGUAGE C IMMUTABLE PARALLEL SAFE COST 2;
CREATE AGGREGATE theta_sketch_build(smallint) (
    SFUNC = theta_sketch_add_int2, STYPE = internal, FINALFUNC = theta_sketch_final, COMBINEFUNC = theta_sketch_combine,
    SERIALFUNC = theta_sketch_serialize, DESERIALFUNC = theta_sketch_deserialize, PARALLEL = SAFE);
CREATE AGGREGATE theta_sketch_distinct(smallint) (
    SFUNC = theta_sketch_add_int2, STYPE = internal, FINALFUNC = theta_sketch_final_estimate, COMBINEFUNC = theta_sketch_combine,
    SERIALFUNC = theta_sketch_serialize, DESERIALFUNC = theta_sketch_deserialize, PARALLEL = SAFE);
CREATE FUNCTION theta_sketch_add(theta_sketch, smallint) RETURNS theta_sketch
    AS 'MODULE_PATHNAME', 'theta_sketch_insert_int2' LANGUAGE C IMMUTABLE PARALLEL SAFE COST 1000;
CREATE AGGREGATE theta_sketch_build(smallint, integer) (
    SFUNC = theta_sketch_add_int2, STYPE = internal, FINALFUNC = theta_sketch_final, COMBINEFUNC = theta_sketch_combine,
    SERIALFUNC = theta_sketch_serialize, DESERIALFUNC = theta_sketch_deserialize, PARALLEL = SAFE);
CREATE AGGREGATE theta_sketch_distinct(smallint, integer) (
    SFUNC = theta_sketch_add_int2, STYPE = internal, FINALFUNC = theta_sketch_final_estimate, COMBINEFUNC = theta_sketch_combine,
    SERIALFUNC = theta_sketch_serialize, DESERIALFUNC = theta_sketch_deserialize, PARALLEL = SAFE);
CREATE FUNCTION theta_sketch_add(theta_sketch, smallint, integer) RETURNS theta_sketch
    AS 'MODULE_PATHNAME', 'theta_sketch_insert_int2' LANGUAGE C IMMUTABLE PARALLEL SAFE COST 1000;
CREATE AGGREGATE tuple_sketch_build(smallint, bigint) (
    SFUNC = tuple_sketch_add_int2, STYPE = internal, FINALFUNC = tuple_sketch_final, COMBINEFUNC = tuple_sketch_combine,
    SERIALFUNC = tuple_sketch_serialize, DESERIALFUNC = tuple_sketch_deserialize, PARALLEL = SAFE);
CREATE FUNCTION tuple_sketch_add(tuple_sketch, smallint, bigint) RETURNS tuple_sketch
    AS 'MODULE_PATHNAME', 'tuple_sketch_insert_int2' LANGUAGE C IMMUTABLE PARALLEL SAFE COST 1000;
CREATE AGGREGATE tuple_sketch_build(smallint, bigint, integer) (
    SFUNC = tuple_sketch_add_int2, STYPE = internal, FINALFUNC = tuple_sketch_final, COMBINEFUNC = tuple_sketch_combine,
    SERIALFUNC = tuple_sketch_serialize, DESERIALFUNC = tuple_sketch_deserialize, PARALLEL = SAFE);
CREATE AGGREGATE tuple_sketch_build(smallint, bigint, integer, text) (
    SFUNC = tuple_sketch_add_int2, STYPE = internal, FINALFUNC = tuple_sketch_final, COMBINEFUNC = tuple_sketch_combine,
    SERIALFUNC = tuple_sketch_serialize, DESERIALFUNC = tuple_sketch_deserialize, PARALLEL = SAFE);
CREATE FUNCTION tuple_sketch_add(tuple_sketch, smallint, bigint, integer) RETURNS tuple_sketch
    AS 'MODULE_PATHNAME', 'tuple_sketch_insert_int2' LANGUAGE C IMMUTABLE PARALLEL SAFE COST 1000;
CREATE FUNCTION tuple_sketch_add(tuple_sketch, smallint, bigint, integer, text) RETURNS tuple_sketch
    AS 'MODULE_PATHNAME', 'tuple_sketch_insert_int2' LANGUAGE C IMMUTABLE PARALLEL SAFE COST 1000;
CREATE FUNCTION theta_sketch_add_int4(internal, integer) RETURNS internal
    AS 'MODULE_PATHNAME', 'theta_sketch_add_int4' LANGUAGE C IMMUTABLE PARALLEL SAFE COST 2;
CREATE FUNCTION theta_sketch_add_int4(internal, integer, integer) RETURNS internal
    AS 'MODULE_PATHNAME', 'theta_sketch_add_int4' LANGUAGE C IMMUTABLE PARALLEL SAFE COST 2;
CREATE FUNCTION tuple_sketch_add_int4(internal, integer, bigint) RETURNS internal
    AS 'MODULE_PATHNAME', 'tuple_sketch_add_int4' LANGUAGE C IMMUTABLE PARALLEL SAFE COST 2;
CREATE FUNCTION tuple_sketch_add_int4(internal, integer, bigint, integer) RETURNS internal
    AS 'MODULE_PATHNAME', 'tuple_sketch_add_int4' LANGUAGE C IMMUTABLE PARALLEL SAFE COST 2;
CREATE FUNCTION tuple_sketch_add_int4(internal, integer, bigint, integer, text) RETURNS internal
    AS 'MODULE_PATHNAME', 'tuple_sketch_add_int4' LANGUAGE C IMMUTABLE PARALLEL SAFE COST 2;
CREATE AGGREGATE theta_sketch_build(integer) (
    SFUNC = theta_sketch_add_int4, STYPE = internal, FINALFUNC = theta_sketch_final, COMBINEFUNC = theta_sketch_combine,
    SERIALFUNC = theta_sketch_serialize, DESERIALFUNC = theta_sketch_deserialize, PARALLEL = SAFE);
CREATE AGGREGATE theta_sketch_distinct(integer) (
    SFUNC = theta_sketch_add_int4, STYPE = internal, FINALFUNC = theta_sketch_final_estimate, COMBINEFUNC = theta_sketch_combine,
    SERIALFUNC = theta_sketch_serialize, DESERIALFUNC = theta_sketch_deserialize, PARALLEL = SAFE);
CREATE FUNCTION theta_sketch_add(theta_sketch, integer) RETURNS theta_sketch
    AS 'MODULE_PATHNAME', 'theta_sketch_insert_int4' LANGUAGE C IMMUTABLE PARALLEL SAFE COST 1000;
CREATE AGGREGATE theta_sketch_build(integer, integer) (
    SFUNC = theta_sketch_add_int4, STYPE = internal, FINALFUNC = theta_sketch_final, COMBINEFUNC = theta_sketch_combine,
    SERIALFUNC = theta_sketch_serialize, DESERIALFUNC = theta_sketch_deserialize, PARALLEL = SAFE);
CREATE AGGREGATE theta_sketch_distinct(integer, integer) (
    SFUNC = theta_sketch_add_int4, STYPE = internal, FINALFUNC = theta_sketch_final_estimate, COMBINEFUNC = theta_sketch_combine,
    SERIALFUNC = theta_sketch_serialize, DESERIALFUNC = theta_sketch_deserialize, PARALLEL = SAFE);
CREATE FUNCTION theta_sketch_add(theta_sketch, integer, integer) RETURNS theta_sketch
    AS 'MODULE_PATHNAME', 'theta_sketch_insert_int4' LANGUAGE C IMMUTABLE PARALLEL SAFE COST 1000;
CREATE AGGREGATE tuple_sketch_build(integer, bigint) (
    SFUNC = tuple_sketch_add_int4, STYPE = internal, FINALFUNC = tuple_sketch_final, COMBINEFUNC = tuple_sketch_combine,
    SERIALFUNC = tuple_sketch_serialize, DESERIALFUNC = tuple_sketch_deserialize, PARALLEL = SAFE);
CREATE FUNCTION tuple_sketch_add(tuple_sketch, integer, bigint) RETURNS tuple_sketch
    AS 'MODULE_PATHNAME', 'tuple_sketch_insert_int4' LANGUAGE C IMMUTABLE PARALLEL SAFE COST 1000;
CREATE AGGREGATE tuple_sketch_build(integer, bigint, integer) (
    SFUNC = tuple_sketch_add_int4, STYPE = internal, FINALFUNC = tuple_sketch_final, COMBINEFUNC = tuple_sketch_combine,
    SERIALFUNC = tuple_sketch_serialize, DESERIALFUNC = tuple_sketch_deserialize, PARALLEL = SAFE);
CREATE AGGREGATE tuple_sketch_build(integer, bigint, integer, text) (
    SFUNC = tuple_sketch_add_int4, STYPE = internal, FINALFUNC = tuple_sketch_final, COMBINEFUNC = tuple_sketch_combine,
    SERIALFUNC = tuple_sketch_serialize, DESERIALFUNC = tuple_sketch_deserialize, PARALLEL = SAFE);
CREATE FUNCTION tuple_sketch_add(tuple_sketch, integer, bigint, integer) RETURNS tuple_sketch
    AS 'MODULE_PATHNAME', 'tuple_sketch_insert_int4' LANGUAGE C IMMUTABLE PARALLEL SAFE COST 1000;
CREATE FUNCTION tuple_sketch_add(tuple_sketch, integer, bigint, integer, text) RETURNS tuple_sketch
    AS 'MODULE_PATHNAME', 'tuple_sketch_insert_int4' LANGUAGE C IMMUTABLE PARALLEL SAFE COST 1000;
CREATE FUNCTION theta_sketch_add_oid(internal, oid) RETURNS internal
    AS 'MODULE_PATHNAME', 'theta_sketch_add_oid' LANGUAGE C IMMUTABLE PARALLEL SAFE COST 2;
CREATE FUNCTION theta_sketch_add_oid(internal, oid, integer) RETURNS internal
    AS 'MODULE_PATHNAME', 'theta_sketch_add_oid' LANGUAGE C IMMUTABLE PARALLEL SAFE COST 2;
CREATE FUNCTION tuple_sketch_add_oid(internal, oid, bigint) RETURNS internal
    AS 'MODULE_PATHNAME', 'tuple_sketch_add_oid' LANGUAGE C IMMUTABLE PARALLEL SAFE COST 2;
CREATE FUNCTION tuple_sketch_add_oid(internal, oid, bigint, integer) RETURNS internal
    AS 'MODULE_PATHNAME', 'tuple_sketch_add_oid' LANGUAGE C IMMUTABLE PARALLEL SAFE COST 2;
CREATE FUNCTION tuple_sketch_add_oid(internal, oid, bigint, integer, text) RETURNS internal
    AS 'MODULE_PATHNAME', 'tuple_sketch_add_oid' LANGUAGE C IMMUTABLE PARALLEL SAFE COST 2;
CREATE AGGREGATE theta_sketch_build(oid) (
    SFUNC = theta_sketch_add_oid, STYPE = internal, FINALFUNC = theta_sketch_final, COMBINEFUNC = theta_sketch_combine,
    SERIALFUNC = theta_sketch_serialize, DESERIALFUNC = theta_sketch_deserialize, PARALLEL = SAFE);
CREATE AGGREGATE theta_sketch_distinct(oid) (
    SFUNC = theta_sketch_add_oid, STYPE = internal, FINALFUNC = theta_sketch_final_estimate, COMBINEFUNC = theta_sketch_combine,
    SERIALFUNC = theta_sketch_serialize, DESERIALFUNC = theta_sketch_deserialize, PARALLEL = SAFE);
CREATE FUNCTION theta_sketch_add(theta_sketch, oid) RETURNS theta_sketch
    AS 'MODULE_PATHNAME', 'theta_sketch_insert_oid' LANGUAGE C IMMUTABLE PARALLEL SAFE COST 1000;
CREATE AGGREGATE theta_sketch_build(oid, integer) (
    SFUNC = theta_sketch_add_oid, STYPE = internal, FINALFUNC = theta_sketch_final, COMBINEFUNC = theta_sketch_combine,
    SERIALFUNC = theta_sketch_serialize, DESERIALFUNC = theta_sketch_deserialize, PARALLEL = SAFE);
CREATE AGGREGATE theta_sketch_distinct(oid, integer) (
    SFUNC = theta_sketch_add_oid, STYPE = internal, FINALFUNC = theta_sketch_final_estimate, COMBINEFUNC = theta_sketch_combine,
    SERIALFUNC = theta_sketch_serialize, DESERIALFUNC = theta_sketch_deserialize, PARALLEL = SAFE);
CREATE FUNCTION theta_sketch_add(theta_sketch, oid, integer) RETURNS theta_sketch
    AS 'MODULE_PATHNAME', 'theta_sketch_insert_oid' LANGUAGE C IMMUTABLE PARALLEL SAFE COST 1000;
CREATE AGGREGATE tuple_sketch_build(oid, bigint) (
    SFUNC = tuple_sketch_add_oid, STYPE = internal, FINALFUNC = tuple_sketch_final, COMBINEFUNC = tuple_sketch_combine,
    SERIALFUNC = tuple_sketch_serialize, DESERIALFUNC = tuple_sketch_deserialize, PARALLEL = SAFE);
CREATE FUNCTION tuple_sketch_add(tuple_sketch, oid, bigint) RETURNS tuple_sketch
    AS 'MODULE_PATHNAME', 'tuple_sketch_insert_oid' LANGUAGE C IMMUTABLE PARALLEL SAFE COST 1000;
CREATE AGGREGATE tuple_sketch_build(oid, bigint, integer) (
    SFUNC = tuple_sketch_add_oid, STYPE = internal, FINALFUNC = tuple_sketch_final, COMBINEFUNC = tuple_sketch_combine,
    SERIALFUNC = tuple_sketch_serialize, DESERIALFUNC = tuple_sketch_deserialize, PARALLEL = SAFE);
CREATE AGGREGATE tuple_sketch_build(oid, bigint, integer, text) (
    SFUNC = tuple_sketch_add_oid, STYPE = internal, FINALFUNC = tuple_sketch_final, COMBINEFUNC = tuple_sketch_combine,
    SERIALFUNC = tuple_sketch_serialize, DESERIALFUNC = tuple_sketch_deserialize, PARALLEL = SAFE);
CREATE FUNCTION tuple_sketch_add(tuple_sketch, oid, bigint, integer) RETURNS tuple_sketch
    AS 'MODULE_PATHNAME', 'tuple_sketch_insert_oid' LANGUAGE C IMMUTABLE PARALLEL SAFE COST 1000;
CREATE FUNCTION tuple_sketch_add(tuple_sketch, oid, bigint, integer, text) RETURNS tuple_sketch
    AS 'MODULE_PATHNAME', 'tuple_sketch_insert_oid' LANGUAGE C IMMUTABLE PARALLEL SAFE COST 1000;
CREATE FUNCTION theta_sketch_add_float8(internal, double precision) RETURNS internal
    AS 'MODULE_PATHNAME', 'theta_sketch_add_float8' LANGUAGE C IMMUTABLE PARALLEL SAFE COST 2;
CREATE FUNCTION theta_sketch_add_float8(internal, double precision, integer) RETURNS internal
    AS 'MODULE_PATHNAME', 'theta_sketch_add_float8' LANGUAGE C IMMUTABLE PARALLEL SAFE COST 2;
CREATE FUNCTION tuple_sketch_add_float8(internal, double precision, bigint) RETURNS internal
    AS 'MODULE_PATHNAME', 'tuple_sketch_add_float8' LANGUAGE C IMMUTABLE PARALLEL SAFE COST 2;
CREATE FUNCTION tuple_sketch_add_float8(internal, double precision, bigint, integer) RETURNS internal
    AS 'MODULE_PATHNAME', 'tuple_sketch_add_float8' LANGUAGE C IMMUTABLE PARALLEL SAFE COST 2;
CREATE FUNCTION tuple_sketch_add_float8(internal, double precision, bigint, integer, text) RETURNS internal
    AS 'MODULE_PATHNAME', 'tuple_sketch_add_float8' LANGUAGE C IMMUTABLE PARALLEL SAFE COST 2;
CREATE AGGREGATE theta_sketch_build(double precision) (
    SFUNC = theta_sketch_add_float8, STYPE = internal, FINALFUNC = theta_sketch_final, COMBINEFUNC = theta_sketch_combine,
    SERIALFUNC = theta_sketch_serialize, DESERIALFUNC = theta_sketch_deserialize, PARALLEL = SAFE);
CREATE AGGREGATE theta_sketch_distinct(double precision) (
    SFUNC = theta_sketch_add_float8, STYPE = internal, FINALFUNC = theta_sketch_final_estimate, COMBINEFUNC = theta_sketch_combine,
    SERIALFUNC = theta_sketch_serialize, DESERIALFUNC = theta_sketch_deserialize, PARALLEL = SAFE);
CREATE FUNCTION theta_sketch_add(theta_sketch, double precision) RETURNS theta_sketch
    AS 'MODULE_PATHNAME', 'theta_sketch_insert_float8' LANGUAGE C IMMUTABLE PARALLEL SAFE COST 1000;
CREATE AGGREGATE theta_sketch_build(double precision, integer) (
    SFUNC = theta_sketch_add_float8, STYPE = internal, FINALFUNC = theta_sketch_final, COMBINEFUNC = theta_sketch_combine,
    SERIALFUNC = theta_sketch_serialize, DESERIALFUNC = theta_sketch_deserialize, PARALLEL = SAFE);
CREATE AGGREGATE theta_sketch_distinct(double precision, integer) (
    SFUNC = theta_sketch_add_float8, STYPE = internal, FINALFUNC = theta_sketch_final_estimate, COMBINEFUNC = theta_sketch_combine,
    SERIALFUNC = theta_sketch_serialize, DESERIALFUNC = theta_sketch_deserialize, PARALLEL = SAFE);
CREATE FUNCTION theta_sketch_add(theta_sketch, double precision, integer) RETURNS theta_sketch
    AS 'MODULE_PATHNAME', 'theta_sketch_insert_float8' LANGUAGE C IMMUTABLE PARALLEL SAFE COST 1000;
CREATE AGGREGATE tuple_sketch_build(double precision, bigint) (
    SFUNC = tuple_sketch_add_float8, STYPE = internal, FINALFUNC = tuple_sketch_final, COMBINEFUNC = tuple_sketch_combine,
    SERIALFUNC = tuple_sketch_serialize, DESERIALFUNC = tuple_sketch_deserialize, PARALLEL = SAFE);
CREATE FUNCTION tuple_sketch_add(tuple_sketch, double precision, bigint) RETURNS tuple_sketch
    AS 'MODULE_PATHNAME', 'tuple_sketch_insert_float8' LANGUAGE C IMMUTABLE PARALLEL SAFE COST 1000;
CREATE AGGREGATE tuple_sketch_build(double precision, bigint, integer) (
    SFUNC = tuple_sketch_add_float8, STYPE = internal, FINALFUNC = tuple_sketch_final, COMBINEFUNC = tuple_sketch_combine,
    SERIALFUNC = tuple_sketch_serialize, DESERIALFUNC = tuple_sketch_deserialize, PARALLEL = SAFE);
CREATE AGGREGATE tuple_sketch_build(double precision, bigint, integer, text) (
    SFUNC = tuple_sketch_add_float8, STYPE = internal, FINALFUNC = tuple_sketch_final, COMBINEFUNC = tuple_sketch_combine,
    SERIALFUNC = tuple_sketch_serialize, DESERIALFUNC = tuple_sketch_deserialize, PARALLEL = SAFE);
CREATE FUNCTION tuple_sketch_add(tuple_sketch, double precision, bigint, integer) RETURNS tuple_sketch
    AS 'MODULE_PATHNAME', 'tuple_sketch_insert_float8' LANGUAGE C IMMUTABLE PARALLEL SAFE COST 1000;
CREATE FUNCTION tuple_sketch_add(tuple_sketch, double precision, bigint, integer, text) RETURNS tuple_sketch
    AS 'MODULE_PATHNAME', 'tuple_sketch_insert_float8' LANGUAGE C IMMUTABLE PARALLEL SAFE COST 1000;
CREATE AGGREGATE theta_sketch_build(numeric) (
    SFUNC = theta_sketch_add_text, STYPE = internal, FINALFUNC = theta_sketch_final, COMBINEFUNC = theta_sketch_combine,
    SERIALFUNC = theta_sketch_serialize, DESERIALFUNC = theta_sketch_deserialize, PARALLEL = SAFE);
CREATE AGGREGATE theta_sketch_distinct(numeric) (
    SFUNC = theta_sketch_add_text, STYPE = internal, FINALFUNC = theta_sketch_final_estimate, COMBINEFUNC = theta_sketch_combine,
    SERIALFUNC = theta_sketch_serialize, DESERIALFUNC = theta_sketch_deserialize, PARALLEL = SAFE);
CREATE FUNCTION theta_sketch_add(theta_sketch, numeric) RETURNS theta_sketch
    AS 'MODULE_PATHNAME', 'theta_sketch_insert_text' LANGUAGE C IMMUTABLE PARALLEL SAFE COST 1000;
CREATE AGGREGATE theta_sketch_build(numeric, integer) (
    SFUNC = theta_sketch_add_text, STYPE = internal, FINALFUNC = theta_sketch_final, COMBINEFUNC = theta_sketch_combine,
    SERIALFUNC = theta_sketch_serialize, DESERIALFUNC = theta_sketch_deserialize, PARALLEL = SAFE);
CREATE AGGREGATE theta_sketch_distinct(numeric, integer) (
    SFUNC = theta_sketch_add_text, STYPE = internal, FINALFUNC = theta_sketch_final_estimate, COMBINEFUNC = theta_sketch_combine,
    SERIALFUNC = theta_sketch_serialize, DESERIALFUNC = theta_sketch_deserialize, PARALLEL = SAFE);
CREATE FUNCTION theta_sketch_add(theta_sketch, numeric, integer) RETURNS theta_sketch
    AS 'MODULE_PATHNAME', 'theta_sketch_insert_text' LANGUAGE C IMMUTABLE PARALLEL SAFE COST 1000;
CREATE AGGREGATE tuple_sketch_build(numeric, bigint) (
    SFUNC = tuple_sketch_add_text, STYPE = internal, FINALFUNC = tuple_sketch_final, COMBINEFUNC = tuple_sketch_combine,
    SERIALFUNC = tuple_sketch_serialize, DESERIALFUNC = tuple_sketch_deserialize, PARALLEL = SAFE);
CREATE FUNCTION tuple_sketch_add(tuple_sketch, numeric, bigint) RETURNS tuple_sketch
    AS 'MODULE_PATHNAME', 'tuple_sketch_insert_text' LANGUAGE C IMMUTABLE PARALLEL SAFE COST 1000;
CREATE AGGREGATE tuple_sketch_build(numeric, bigint, integer) (
    SFUNC = tuple_sketch_add_text, STYPE = internal, FINALFUNC = tuple_sketch_final, COMBINEFUNC = tuple_sketch_combine,
    SERIALFUNC = tuple_sketch_serialize, DESERIALFUNC = tuple_sketch_deserialize, PARALLEL = SAFE);
CREATE AGGREGATE tuple_sketch_build(numeric, bigint, integer, text) (
    SFUNC = tuple_sketch_add_text, STYPE = internal, FINALFUNC = tuple_sketch_final, COMBINEFUNC = tuple_sketch_combine,
    SERIALFUNC = tuple_sketch_serialize, DESERIALFUNC = tuple_sketch_deserialize, PARALLEL = SAFE);
CREATE FUNCTION tuple_sketch_add(tuple_sketch, numeric, bigint, integer) RETURNS tuple_sketch
    AS 'MODULE_PATHNAME', 'tuple_sketch_insert_text' LANGUAGE C IMMUTABLE PARALLEL SAFE COST 1000;
CREATE FUNCTION tuple_sketch_add(tuple_sketch, numeric, bigint, integer, text) RETURNS tuple_sketch
    AS 'MODULE_PATHNAME', 'tuple_sketch_insert_text' LANGUAGE C IMMUTABLE PARALLEL SAFE COST 1000;

-- ---- Comparisons: equal sketches have equal images, so these are PostgreSQL's own functions of bytes ----

CREATE FUNCTION theta_sketch_eq(theta_sketch, theta_sketch) RETURNS boolean AS 'byteaeq' LANGUAGE internal IMMUTABLE STRICT LEAKPROOF PARALLEL SAFE;
CREATE FUNCTION theta_sketch_ne(theta_sketch, theta_sketch) RETURNS boolean AS 'byteane' LANGUAGE internal IMMUTABLE STRICT LEAKPROOF PARALLEL SAFE;
CREATE FUNCTION theta_sketch_lt(theta_sketch, theta_sketch) RETURNS boolean AS 'bytealt' LANGUAGE internal IMMUTABLE STRICT LEAKPROOF PARALLEL SAFE;
CREATE FUNCTION theta_sketch_le(theta_sketch, theta_sketch) RETURNS boolean AS 'byteale' LANGUAGE internal IMMUTABLE STRICT LEAKPROOF PARALLEL SAFE;
CREATE FUNCTION theta_sketch_gt(theta_sketch, theta_sketch) RETURNS boolean AS 'byteagt' LANGUAGE internal IMMUTABLE STRICT LEAKPROOF PARALLEL SAFE;
CREATE FUNCTION theta_sketch_ge(theta_sketch, theta_sketch) RETURNS boolean AS 'byteage' LANGUAGE internal IMMUTABLE STRICT LEAKPROOF PARALLEL SAFE;
CREATE FUNCTION theta_sketch_cmp(theta_sketch, theta_sketch) RETURNS integer AS 'byteacmp' LANGUAGE internal IMMUTABLE STRICT LEAKPROOF PARALLEL SAFE;
CREATE FUNCTION theta_sketch_hash(theta_sketch) RETURNS integer AS 'hashvarlena' LANGUAGE internal IMMUTABLE STRICT PARALLEL SAFE;
CREATE FUNCTION theta_sketch_hash_extended(theta_sketch, bigint) RETURNS bigint AS 'hashvarlenaextended' LANGUAGE internal IMMUTABLE STRICT PARALLEL SAFE;
CREATE OPERATOR = (LEFTARG = theta_sketch, RIGHTARG = theta_sketch, FUNCTION = theta_sketch_eq, COMMUTATOR = =, NEGATOR = <>,
    RESTRICT = eqsel, JOIN = eqjoinsel, HASHES, MERGES);
CREATE OPERATOR <> (LEFTARG = theta_sketch, RIGHTARG = theta_sketch, FUNCTION = theta_sketch_ne, COMMUTATOR = <>, NEGATOR = =,
    RESTRICT = neqsel, JOIN = neqjoinsel);
CREATE OPERATOR < (LEFTARG = theta_sketch, RIGHTARG = theta_sketch, FUNCTION = theta_sketch_lt, COMMUTATOR = >, NEGATOR = >=,
    RESTRICT = scalarltsel, JOIN = scalarltjoinsel);
CREATE OPERATOR <= (LEFTARG = theta_sketch, RIGHTARG = theta_sketch, FUNCTION = theta_sketch_le, COMMUTATOR = >=, NEGATOR = >,
    RESTRICT = scalarlesel, JOIN = scalarlejoinsel);
CREATE OPERATOR > (LEFTARG = theta_sketch, RIGHTARG = theta_sketch, FUNCTION = theta_sketch_gt, COMMUTATOR = <, NEGATOR = <=,
    RESTRICT = scalargtsel, JOIN = scalargtjoinsel);
CREATE OPERATOR >= (LEFTARG = theta_sketch, RIGHTARG = theta_sketch, FUNCTION = theta_sketch_ge, COMMUTATOR = <=, NEGATOR = <,
    RESTRICT = scalargesel, JOIN = scalargejoinsel);
CREATE OPERATOR CLASS theta_sketch_btree_ops DEFAULT FOR TYPE theta_sketch USING btree AS
    OPERATOR 1 <, OPERATOR 2 <=, OPERATOR 3 =, OPERATOR 4 >=, OPERATOR 5 >, FUNCTION 1 theta_sketch_cmp(theta_sketch, theta_sketch);
CREATE OPERATOR CLASS theta_sketch_hash_ops DEFAULT FOR TYPE theta_sketch USING hash AS
    OPERATOR 1 =, FUNCTION 1 theta_sketch_hash(theta_sketch), FUNCTION 2 theta_sketch_hash_extended(theta_sketch, bigint);

CREATE FUNCTION tuple_sketch_eq(tuple_sketch, tuple_sketch) RETURNS boolean AS 'byteaeq' LANGUAGE internal IMMUTABLE STRICT LEAKPROOF PARALLEL SAFE;
CREATE FUNCTION tuple_sketch_ne(tuple_sketch, tuple_sketch) RETURNS boolean AS 'byteane' LANGUAGE internal IMMUTABLE STRICT LEAKPROOF PARALLEL SAFE;
CREATE FUNCTION tuple_sketch_lt(tuple_sketch, tuple_sketch) RETURNS boolean AS 'bytealt' LANGUAGE internal IMMUTABLE STRICT LEAKPROOF PARALLEL SAFE;
CREATE FUNCTION tuple_sketch_le(tuple_sketch, tuple_sketch) RETURNS boolean AS 'byteale' LANGUAGE internal IMMUTABLE STRICT LEAKPROOF PARALLEL SAFE;
CREATE FUNCTION tuple_sketch_gt(tuple_sketch, tuple_sketch) RETURNS boolean AS 'byteagt' LANGUAGE internal IMMUTABLE STRICT LEAKPROOF PARALLEL SAFE;
CREATE FUNCTION tuple_sketch_ge(tuple_sketch, tuple_sketch) RETURNS boolean AS 'byteage' LANGUAGE internal IMMUTABLE STRICT LEAKPROOF PARALLEL SAFE;
CREATE FUNCTION tuple_sketch_cmp(tuple_sketch, tuple_sketch) RETURNS integer AS 'byteacmp' LANGUAGE internal IMMUTABLE STRICT LEAKPROOF PARALLEL SAFE;
CREATE FUNCTION tuple_sketch_hash(tuple_sketch) RETURNS integer AS 'hashvarlena' LANGUAGE internal IMMUTABLE STRICT PARALLEL SAFE;
CREATE FUNCTION tuple_sketch_hash_extended(tuple_sketch, bigint) RETURNS bigint AS 'hashvarlenaextended' LANGUAGE internal IMMUTABLE STRICT PARALLEL SAFE;
CREATE OPERATOR = (LEFTARG = tuple_sketch, RIGHTARG = tuple_sketch, FUNCTION = tuple_sketch_eq, COMMUTATOR = =, NEGATOR = <>,
    RESTRICT = eqsel, JOIN = eqjoinsel, HASHES, MERGES);
CREATE OPERATOR <> (LEFTARG = tuple_sketch, RIGHTARG = tuple_sketch, FUNCTION = tuple_sketch_ne, COMMUTATOR = <>, NEGATOR = =,
    RESTRICT = neqsel, JOIN = neqjoinsel);
CREATE OPERATOR < (LEFTARG = tuple_sketch, RIGHTARG = tuple_sketch, FUNCTION = tuple_sketch_lt, COMMUTATOR = >, NEGATOR = >=,
    RESTRICT = scalarltsel, JOIN = scalarltjoinsel);
CREATE OPERATOR <= (LEFTARG = tuple_sketch, RIGHTARG = tuple_sketch, FUNCTION = tuple_sketch_le, COMMUTATOR = >=, NEGATOR = >,
    RESTRICT = scalarlesel, JOIN = scalarlejoinsel);
CREATE OPERATOR > (LEFTARG = tuple_sketch, RIGHTARG = tuple_sketch, FUNCTION = tuple_sketch_gt, COMMUTATOR = <, NEGATOR = <=,
    RESTRICT = scalargtsel, JOIN = scalargtjoinsel);
CREATE OPERATOR >= (LEFTARG = tuple_sketch, RIGHTARG = tuple_sketch, FUNCTION = tuple_sketch_ge, COMMUTATOR = <=, NEGATOR = <,
    RESTRICT = scalargesel, JOIN = scalargejoinsel);
CREATE OPERATOR CLASS tuple_sketch_btree_ops DEFAULT FOR TYPE tuple_sketch USING btree AS
    OPERATOR 1 <, OPERATOR 2 <=, OPERATOR 3 =, OPERATOR 4 >=, OPERATOR 5 >, FUNCTION 1 tuple_sketch_cmp(tuple_sketch, tuple_sketch);
CREATE OPERATOR CLASS tuple_sketch_hash_ops DEFAULT FOR TYPE tuple_sketch USING hash AS
    OPERATOR 1 =, FUNCTION 1 tuple_sketch_hash(tuple_sketch), FUNCTION 2 tuple_sketch_hash_extended(tuple_sketch, bigint);

-- ---- What a call costs, in units of about 25 ns: most read or write an image ----

ALTER FUNCTION theta_sketch_in(cstring) COST 1000;
ALTER FUNCTION theta_sketch_out(theta_sketch) COST 1000;
ALTER FUNCTION theta_sketch_recv(internal) COST 1000;
ALTER FUNCTION theta_sketch_from_bytea(bytea) COST 1000;
ALTER FUNCTION theta_sketch_get_estimate(theta_sketch) COST 1000;
ALTER FUNCTION theta_sketch_get_estimate_and_bounds(theta_sketch) COST 1000;
ALTER FUNCTION theta_sketch_get_estimate_and_bounds(theta_sketch, integer) COST 1000;
ALTER FUNCTION theta_sketch_to_string(theta_sketch) COST 1000;
ALTER FUNCTION theta_sketch_union(theta_sketch, theta_sketch) COST 1000;
ALTER FUNCTION theta_sketch_union(theta_sketch, theta_sketch, integer) COST 1000;
ALTER FUNCTION theta_sketch_intersection(theta_sketch, theta_sketch) COST 1000;
ALTER FUNCTION theta_sketch_a_not_b(theta_sketch, theta_sketch) COST 1000;
ALTER FUNCTION theta_sketch_add_bytes(internal, text) COST 2;
ALTER FUNCTION theta_sketch_add_bytes(internal, text, integer) COST 2;
ALTER FUNCTION theta_sketch_add_bytes(internal, bytea) COST 2;
ALTER FUNCTION theta_sketch_add_bytes(internal, bytea, integer) COST 2;
ALTER FUNCTION theta_sketch_add_int8(internal, bigint) COST 2;
ALTER FUNCTION theta_sketch_add_int8(internal, bigint, integer) COST 2;
ALTER FUNCTION theta_sketch_add_sketch(internal, theta_sketch) COST 1000;
ALTER FUNCTION theta_sketch_add_sketch(internal, theta_sketch, integer) COST 1000;
ALTER FUNCTION theta_sketch_combine(internal, internal) COST 1000;
ALTER FUNCTION theta_sketch_serialize(internal) COST 1000;
ALTER FUNCTION theta_sketch_deserialize(bytea, internal) COST 1000;
ALTER FUNCTION theta_sketch_final(internal) COST 1000;
ALTER FUNCTION theta_sketch_final_estimate(internal) COST 1000;
ALTER FUNCTION theta_sketch_meet(internal, theta_sketch) COST 1000;
ALTER FUNCTION theta_sketch_meet_combine(internal, internal) COST 1000;
ALTER FUNCTION theta_sketch_meet_serialize(internal) COST 1000;
ALTER FUNCTION theta_sketch_meet_deserialize(bytea, internal) COST 1000;
ALTER FUNCTION theta_sketch_meet_final(internal) COST 1000;

-- ---- What each is for ----

COMMENT ON TYPE theta_sketch IS 'a sketch of keys';
COMMENT ON TYPE tuple_sketch IS 'a sketch of keys, and of the sum, the least or the greatest of the values of each';
COMMENT ON FUNCTION theta_sketch_in(cstring) IS 'reads a sketch from base64';
COMMENT ON FUNCTION theta_sketch_out(theta_sketch) IS 'writes a sketch in base64';
COMMENT ON FUNCTION theta_sketch_recv(internal) IS 'reads the image of a sketch';
COMMENT ON FUNCTION theta_sketch_send(theta_sketch) IS 'writes the image of a sketch';
COMMENT ON FUNCTION theta_sketch_from_bytea(bytea) IS 'reads the image of a sketch';
COMMENT ON FUNCTION theta_sketch_get_estimate(theta_sketch) IS 'estimates how many different keys a sketch was given';
COMMENT ON FUNCTION theta_sketch_get_estimate_and_bounds(theta_sketch) IS 'the estimate, a lower and an upper bound, by 1, 2 or 3 standard deviations (2)';
COMMENT ON FUNCTION theta_sketch_get_estimate_and_bounds(theta_sketch, integer) IS 'the estimate, a lower and an upper bound, by 1, 2 or 3 standard deviations (2)';
COMMENT ON FUNCTION theta_sketch_to_string(theta_sketch) IS 'describes a sketch';
COMMENT ON FUNCTION theta_sketch_union(theta_sketch, theta_sketch) IS 'the union of two sketches';
COMMENT ON FUNCTION theta_sketch_union(theta_sketch, theta_sketch, integer) IS 'the union of two sketches, of 2^lg_k nominal entries';
COMMENT ON FUNCTION theta_sketch_intersection(theta_sketch, theta_sketch) IS 'the intersection of two sketches';
COMMENT ON FUNCTION theta_sketch_a_not_b(theta_sketch, theta_sketch) IS 'the first sketch without the keys of the second';
COMMENT ON FUNCTION theta_sketch_add_bytes(internal, text) IS 'adds a key to a state';
COMMENT ON FUNCTION theta_sketch_add_bytes(internal, text, integer) IS 'adds a key to a state';
COMMENT ON FUNCTION theta_sketch_add_bytes(internal, bytea) IS 'adds a key to a state';
COMMENT ON FUNCTION theta_sketch_add_bytes(internal, bytea, integer) IS 'adds a key to a state';
COMMENT ON FUNCTION theta_sketch_add_int8(internal, bigint) IS 'adds a key to a state';
COMMENT ON FUNCTION theta_sketch_add_int8(internal, bigint, integer) IS 'adds a key to a state';
COMMENT ON FUNCTION theta_sketch_add_sketch(internal, theta_sketch) IS 'adds a sketch to a state';
COMMENT ON FUNCTION theta_sketch_add_sketch(internal, theta_sketch, integer) IS 'adds a sketch to a state';
COMMENT ON FUNCTION theta_sketch_combine(internal, internal) IS 'merges two states';
COMMENT ON FUNCTION theta_sketch_serialize(internal) IS 'writes a state';
COMMENT ON FUNCTION theta_sketch_deserialize(bytea, internal) IS 'reads a state';
COMMENT ON FUNCTION theta_sketch_final(internal) IS 'the sketch of a state';
COMMENT ON FUNCTION theta_sketch_final_estimate(internal) IS 'the estimate of a state';
COMMENT ON AGGREGATE theta_sketch_build(text) IS 'the sketch of all keys';
COMMENT ON AGGREGATE theta_sketch_build(text, integer) IS 'the sketch of all keys, of 2^lg_k nominal entries';
COMMENT ON AGGREGATE theta_sketch_build(bytea) IS 'the sketch of all keys';
COMMENT ON AGGREGATE theta_sketch_build(bytea, integer) IS 'the sketch of all keys, of 2^lg_k nominal entries';
COMMENT ON AGGREGATE theta_sketch_build(bigint) IS 'the sketch of all keys';
COMMENT ON AGGREGATE theta_sketch_build(bigint, integer) IS 'the sketch of all keys, of 2^lg_k nominal entries';
COMMENT ON AGGREGATE theta_sketch_distinct(text) IS 'estimates how many keys differ';
COMMENT ON AGGREGATE theta_sketch_distinct(text, integer) IS 'estimates how many keys differ, of 2^lg_k nominal entries';
COMMENT ON AGGREGATE theta_sketch_distinct(bytea) IS 'estimates how many keys differ';
COMMENT ON AGGREGATE theta_sketch_distinct(bytea, integer) IS 'estimates how many keys differ, of 2^lg_k nominal entries';
COMMENT ON AGGREGATE theta_sketch_distinct(bigint) IS 'estimates how many keys differ';
COMMENT ON AGGREGATE theta_sketch_distinct(bigint, integer) IS 'estimates how many keys differ, of 2^lg_k nominal entries';
COMMENT ON AGGREGATE theta_sketch_union(theta_sketch) IS 'the union of all sketches';
COMMENT ON AGGREGATE theta_sketch_union(theta_sketch, integer) IS 'the union of all sketches, of 2^lg_k nominal entries';
COMMENT ON FUNCTION theta_sketch_meet(internal, theta_sketch) IS 'intersects a state with a sketch';
COMMENT ON FUNCTION theta_sketch_meet_combine(internal, internal) IS 'intersects two states';
COMMENT ON FUNCTION theta_sketch_meet_serialize(internal) IS 'writes a state';
COMMENT ON FUNCTION theta_sketch_meet_deserialize(bytea, internal) IS 'reads a state';
COMMENT ON FUNCTION theta_sketch_meet_final(internal) IS 'the sketch of a state';
COMMENT ON AGGREGATE theta_sketch_intersection(theta_sketch) IS 'the intersection of all sketches';
COMMENT ON FUNCTION theta_sketch_add(theta_sketch, text) IS 'the sketch with one more key';
COMMENT ON FUNCTION theta_sketch_add(theta_sketch, text, integer) IS 'the sketch with one more key, of 2^lg_k nominal entries';
COMMENT ON FUNCTION theta_sketch_add(theta_sketch, bytea) IS 'the sketch with one more key';
COMMENT ON FUNCTION theta_sketch_add(theta_sketch, bytea, integer) IS 'the sketch with one more key, of 2^lg_k nominal entries';
COMMENT ON FUNCTION theta_sketch_add(theta_sketch, bigint) IS 'the sketch with one more key';
COMMENT ON FUNCTION theta_sketch_add(theta_sketch, bigint, integer) IS 'the sketch with one more key, of 2^lg_k nominal entries';
COMMENT ON FUNCTION tuple_sketch_in(cstring) IS 'reads a sketch from base64';
COMMENT ON FUNCTION tuple_sketch_out(tuple_sketch) IS 'writes a sketch in base64';
COMMENT ON FUNCTION tuple_sketch_recv(internal) IS 'reads the image of a sketch';
COMMENT ON FUNCTION tuple_sketch_send(tuple_sketch) IS 'writes the image of a sketch';
COMMENT ON FUNCTION tuple_sketch_from_bytea(bytea) IS 'reads the image of a sketch';
COMMENT ON FUNCTION tuple_sketch_get_estimate(tuple_sketch) IS 'estimates how many different keys a sketch was given';
COMMENT ON FUNCTION tuple_sketch_get_total(tuple_sketch) IS 'estimates the sum of the summaries of all keys, with mode sum that of all values';
COMMENT ON FUNCTION tuple_sketch_get_bounds(tuple_sketch) IS 'a lower and an upper bound of the number of keys, by 1, 2 or 3 standard deviations (2)';
COMMENT ON FUNCTION tuple_sketch_get_bounds(tuple_sketch, integer) IS 'a lower and an upper bound of the number of keys, by 1, 2 or 3 standard deviations (2)';
COMMENT ON FUNCTION tuple_sketch_to_string(tuple_sketch) IS 'describes a sketch';
COMMENT ON FUNCTION tuple_sketch_union(tuple_sketch, tuple_sketch) IS 'the union of two sketches, which adds up the sums of a key';
COMMENT ON FUNCTION tuple_sketch_union(tuple_sketch, tuple_sketch, integer) IS 'the union of two sketches, which adds up the sums of a key, of 2^lg_k nominal entries';
COMMENT ON FUNCTION tuple_sketch_union(tuple_sketch, tuple_sketch, integer, text) IS 'the union of two sketches, which combines the summaries of a key by mode, of 2^lg_k nominal entries';
COMMENT ON FUNCTION tuple_sketch_intersection(tuple_sketch, tuple_sketch) IS 'the intersection of two sketches, which adds up the sums of a key';
COMMENT ON FUNCTION tuple_sketch_intersection(tuple_sketch, tuple_sketch, text) IS 'the intersection of two sketches, which combines the summaries of a key by mode';
COMMENT ON FUNCTION tuple_sketch_a_not_b(tuple_sketch, tuple_sketch) IS 'the first sketch without the keys of the second';
COMMENT ON FUNCTION tuple_sketch_add(tuple_sketch, text, bigint) IS 'the sketch with a value added to the sum of a key';
COMMENT ON FUNCTION tuple_sketch_add(tuple_sketch, text, bigint, integer) IS 'the sketch with a value added to the sum of a key, of 2^lg_k nominal entries';
COMMENT ON FUNCTION tuple_sketch_add(tuple_sketch, text, bigint, integer, text) IS 'the sketch with a value of a key, combined by mode, of 2^lg_k nominal entries';
COMMENT ON FUNCTION tuple_sketch_add(tuple_sketch, bytea, bigint) IS 'the sketch with a value added to the sum of a key';
COMMENT ON FUNCTION tuple_sketch_add(tuple_sketch, bytea, bigint, integer) IS 'the sketch with a value added to the sum of a key, of 2^lg_k nominal entries';
COMMENT ON FUNCTION tuple_sketch_add(tuple_sketch, bytea, bigint, integer, text) IS 'the sketch with a value of a key, combined by mode, of 2^lg_k nominal entries';
COMMENT ON FUNCTION tuple_sketch_add(tuple_sketch, bigint, bigint) IS 'the sketch with a value added to the sum of a key';
COMMENT ON FUNCTION tuple_sketch_add(tuple_sketch, bigint, bigint, integer) IS 'the sketch with a value added to the sum of a key, of 2^lg_k nominal entries';
COMMENT ON FUNCTION tuple_sketch_add(tuple_sketch, bigint, bigint, integer, text) IS 'the sketch with a value of a key, combined by mode, of 2^lg_k nominal entries';
COMMENT ON FUNCTION tuple_sketch_add_bytes(internal, text, bigint) IS 'adds a value of a key to a state';
COMMENT ON FUNCTION tuple_sketch_add_bytes(internal, text, bigint, integer) IS 'adds a value of a key to a state';
COMMENT ON FUNCTION tuple_sketch_add_bytes(internal, text, bigint, integer, text) IS 'adds a value of a key to a state';
COMMENT ON FUNCTION tuple_sketch_add_bytes(internal, bytea, bigint) IS 'adds a value of a key to a state';
COMMENT ON FUNCTION tuple_sketch_add_bytes(internal, bytea, bigint, integer) IS 'adds a value of a key to a state';
COMMENT ON FUNCTION tuple_sketch_add_bytes(internal, bytea, bigint, integer, text) IS 'adds a value of a key to a state';
COMMENT ON FUNCTION tuple_sketch_add_int8(internal, bigint, bigint) IS 'adds a value of a key to a state';
COMMENT ON FUNCTION tuple_sketch_add_int8(internal, bigint, bigint, integer) IS 'adds a value of a key to a state';
COMMENT ON FUNCTION tuple_sketch_add_int8(internal, bigint, bigint, integer, text) IS 'adds a value of a key to a state';
COMMENT ON FUNCTION tuple_sketch_add_sketch(internal, tuple_sketch) IS 'adds a sketch to a state';
COMMENT ON FUNCTION tuple_sketch_add_sketch(internal, tuple_sketch, integer) IS 'adds a sketch to a state';
COMMENT ON FUNCTION tuple_sketch_add_sketch(internal, tuple_sketch, integer, text) IS 'adds a sketch to a state';
COMMENT ON FUNCTION tuple_sketch_combine(internal, internal) IS 'merges two states';
COMMENT ON FUNCTION tuple_sketch_serialize(internal) IS 'writes a state';
COMMENT ON FUNCTION tuple_sketch_deserialize(bytea, internal) IS 'reads a state';
COMMENT ON FUNCTION tuple_sketch_final(internal) IS 'the sketch of a state';
COMMENT ON AGGREGATE tuple_sketch_build(text, bigint) IS 'the sketch of all keys and of the sums of their values';
COMMENT ON AGGREGATE tuple_sketch_build(text, bigint, integer) IS 'the sketch of all keys and of the sums of their values, of 2^lg_k nominal entries';
COMMENT ON AGGREGATE tuple_sketch_build(text, bigint, integer, text) IS 'the sketch of all keys, and of the sum, the least or the greatest of their values by mode, of 2^lg_k nominal entries';
COMMENT ON AGGREGATE tuple_sketch_build(bytea, bigint) IS 'the sketch of all keys and of the sums of their values';
COMMENT ON AGGREGATE tuple_sketch_build(bytea, bigint, integer) IS 'the sketch of all keys and of the sums of their values, of 2^lg_k nominal entries';
COMMENT ON AGGREGATE tuple_sketch_build(bytea, bigint, integer, text) IS 'the sketch of all keys, and of the sum, the least or the greatest of their values by mode, of 2^lg_k nominal entries';
COMMENT ON AGGREGATE tuple_sketch_build(bigint, bigint) IS 'the sketch of all keys and of the sums of their values';
COMMENT ON AGGREGATE tuple_sketch_build(bigint, bigint, integer) IS 'the sketch of all keys and of the sums of their values, of 2^lg_k nominal entries';
COMMENT ON AGGREGATE tuple_sketch_build(bigint, bigint, integer, text) IS 'the sketch of all keys, and of the sum, the least or the greatest of their values by mode, of 2^lg_k nominal entries';
COMMENT ON AGGREGATE tuple_sketch_union(tuple_sketch) IS 'the union of all sketches, which adds up the sums of a key';
COMMENT ON AGGREGATE tuple_sketch_union(tuple_sketch, integer) IS 'the union of all sketches, which adds up the sums of a key, of 2^lg_k nominal entries';
COMMENT ON AGGREGATE tuple_sketch_union(tuple_sketch, integer, text) IS 'the union of all sketches, which combines the summaries of a key by mode, of 2^lg_k nominal entries';
COMMENT ON FUNCTION tuple_sketch_meet(internal, tuple_sketch) IS 'intersects a state with a sketch';
COMMENT ON FUNCTION tuple_sketch_meet(internal, tuple_sketch, text) IS 'intersects a state with a sketch';
COMMENT ON FUNCTION tuple_sketch_meet_combine(internal, internal) IS 'intersects two states';
COMMENT ON FUNCTION tuple_sketch_meet_serialize(internal) IS 'writes a state';
COMMENT ON FUNCTION tuple_sketch_meet_deserialize(bytea, internal) IS 'reads a state';
COMMENT ON FUNCTION tuple_sketch_meet_final(internal) IS 'the sketch of a state';
COMMENT ON AGGREGATE tuple_sketch_intersection(tuple_sketch) IS 'the intersection of all sketches, which adds up the sums of a key';
COMMENT ON AGGREGATE tuple_sketch_intersection(tuple_sketch, text) IS 'the intersection of all sketches, which combines the summaries of a key by mode';
COMMENT ON FUNCTION theta_sketch_eq(theta_sketch, theta_sketch) IS 'whether two sketches are equal';
COMMENT ON FUNCTION theta_sketch_ne(theta_sketch, theta_sketch) IS 'whether two sketches differ';
COMMENT ON FUNCTION theta_sketch_lt(theta_sketch, theta_sketch) IS 'compares images';
COMMENT ON FUNCTION theta_sketch_le(theta_sketch, theta_sketch) IS 'compares images';
COMMENT ON FUNCTION theta_sketch_gt(theta_sketch, theta_sketch) IS 'compares images';
COMMENT ON FUNCTION theta_sketch_ge(theta_sketch, theta_sketch) IS 'compares images';
COMMENT ON FUNCTION theta_sketch_cmp(theta_sketch, theta_sketch) IS 'compares images';
COMMENT ON FUNCTION theta_sketch_hash(theta_sketch) IS 'hashes an image';
COMMENT ON FUNCTION theta_sketch_hash_extended(theta_sketch, bigint) IS 'hashes an image';
COMMENT ON FUNCTION tuple_sketch_eq(tuple_sketch, tuple_sketch) IS 'whether two sketches are equal';
COMMENT ON FUNCTION tuple_sketch_ne(tuple_sketch, tuple_sketch) IS 'whether two sketches differ';
COMMENT ON FUNCTION tuple_sketch_lt(tuple_sketch, tuple_sketch) IS 'compares images';
COMMENT ON FUNCTION tuple_sketch_le(tuple_sketch, tuple_sketch) IS 'compares images';
COMMENT ON FUNCTION tuple_sketch_gt(tuple_sketch, tuple_sketch) IS 'compares images';
COMMENT ON FUNCTION tuple_sketch_ge(tuple_sketch, tuple_sketch) IS 'compares images';
COMMENT ON FUNCTION tuple_sketch_cmp(tuple_sketch, tuple_sketch) IS 'compares images';
COMMENT ON FUNCTION tuple_sketch_hash(tuple_sketch) IS 'hashes an image';
COMMENT ON FUNCTION tuple_sketch_hash_extended(tuple_sketch, bigint) IS 'hashes an image';
COMMENT ON FUNCTION theta_sketch_add_text(internal, anyelement) IS 'adds a key to a state';
COMMENT ON FUNCTION theta_sketch_add_text(internal, anyelement, integer) IS 'adds a key to a state';
COMMENT ON FUNCTION tuple_sketch_add_text(internal, anyelement, bigint) IS 'adds a value of a key to a state';
COMMENT ON FUNCTION tuple_sketch_add_text(internal, anyelement, bigint, integer) IS 'adds a value of a key to a state';
COMMENT ON FUNCTION tuple_sketch_add_text(internal, anyelement, bigint, integer, text) IS 'adds a value of a key to a state';
COMMENT ON AGGREGATE theta_sketch_build(boolean) IS 'the sketch of all keys';
COMMENT ON AGGREGATE theta_sketch_distinct(boolean) IS 'estimates how many keys differ';
COMMENT ON FUNCTION theta_sketch_add(theta_sketch, boolean) IS 'the sketch with one more key';
COMMENT ON AGGREGATE theta_sketch_build(boolean, integer) IS 'the sketch of all keys, of 2^lg_k nominal entries';
COMMENT ON AGGREGATE theta_sketch_distinct(boolean, integer) IS 'estimates how many keys differ, of 2^lg_k nominal entries';
COMMENT ON FUNCTION theta_sketch_add(theta_sketch, boolean, integer) IS 'the sketch with one more key, of 2^lg_k nominal entries';
COMMENT ON AGGREGATE tuple_sketch_build(boolean, bigint) IS 'the sketch of all keys and of the sums of their values';
COMMENT ON FUNCTION tuple_sketch_add(tuple_sketch, boolean, bigint) IS 'the sketch with a value added to the sum of a key';
COMMENT ON AGGREGATE tuple_sketch_build(boolean, bigint, integer) IS 'the sketch of all keys and of the sums of their values, of 2^lg_k nominal entries';
COMMENT ON AGGREGATE tuple_sketch_build(boolean, bigint, integer, text) IS 'the sketch of all keys, and of the sum, the least or the greatest of their values by mode, of 2^lg_k nominal entries';
COMMENT ON FUNCTION tuple_sketch_add(tuple_sketch, boolean, bigint, integer) IS 'the sketch with a value added to the sum of a key, of 2^lg_k nominal entries';
COMMENT ON FUNCTION tuple_sketch_add(tuple_sketch, boolean, bigint, integer, text) IS 'the sketch with a value of a key, combined by mode, of 2^lg_k nominal entries';
COMMENT ON AGGREGATE theta_sketch_build(date) IS 'the sketch of all keys';
COMMENT ON AGGREGATE theta_sketch_distinct(date) IS 'estimates how many keys differ';
COMMENT ON FUNCTION theta_sketch_add(theta_sketch, date) IS 'the sketch with one more key';
COMMENT ON AGGREGATE theta_sketch_build(date, integer) IS 'the sketch of all keys, of 2^lg_k nominal entries';
COMMENT ON AGGREGATE theta_sketch_distinct(date, integer) IS 'estimates how many keys differ, of 2^lg_k nominal entries';
COMMENT ON FUNCTION theta_sketch_add(theta_sketch, date, integer) IS 'the sketch with one more key, of 2^lg_k nominal entries';
COMMENT ON AGGREGATE tuple_sketch_build(date, bigint) IS 'the sketch of all keys and of the sums of their values';
COMMENT ON FUNCTION tuple_sketch_add(tuple_sketch, date, bigint) IS 'the sketch with a value added to the sum of a key';
COMMENT ON AGGREGATE tuple_sketch_build(date, bigint, integer) IS 'the sketch of all keys and of the sums of their values, of 2^lg_k nominal entries';
COMMENT ON AGGREGATE tuple_sketch_build(date, bigint, integer, text) IS 'the sketch of all keys, and of the sum, the least or the greatest of their values by mode, of 2^lg_k nominal entries';
COMMENT ON FUNCTION tuple_sketch_add(tuple_sketch, date, bigint, integer) IS 'the sketch with a value added to the sum of a key, of 2^lg_k nominal entries';
COMMENT ON FUNCTION tuple_sketch_add(tuple_sketch, date, bigint, integer, text) IS 'the sketch with a value of a key, combined by mode, of 2^lg_k nominal entries';
COMMENT ON AGGREGATE theta_sketch_build(timestamp) IS 'the sketch of all keys';
COMMENT ON AGGREGATE theta_sketch_distinct(timestamp) IS 'estimates how many keys differ';
COMMENT ON FUNCTION theta_sketch_add(theta_sketch, timestamp) IS 'the sketch with one more key';
COMMENT ON AGGREGATE theta_sketch_build(timestamp, integer) IS 'the sketch of all keys, of 2^lg_k nominal entries';
COMMENT ON AGGREGATE theta_sketch_distinct(timestamp, integer) IS 'estimates how many keys differ, of 2^lg_k nominal entries';
COMMENT ON FUNCTION theta_sketch_add(theta_sketch, timestamp, integer) IS 'the sketch with one more key, of 2^lg_k nominal entries';
COMMENT ON AGGREGATE tuple_sketch_build(timestamp, bigint) IS 'the sketch of all keys and of the sums of their values';
COMMENT ON FUNCTION tuple_sketch_add(tuple_sketch, timestamp, bigint) IS 'the sketch with a value added to the sum of a key';
COMMENT ON AGGREGATE tuple_sketch_build(timestamp, bigint, integer) IS 'the sketch of all keys and of the sums of their values, of 2^lg_k nominal entries';
COMMENT ON AGGREGATE tuple_sketch_build(timestamp, bigint, integer, text) IS 'the sketch of all keys, and of the sum, the least or the greatest of their values by mode, of 2^lg_k nominal entries';
COMMENT ON FUNCTION tuple_sketch_add(tuple_sketch, timestamp, bigint, integer) IS 'the sketch with a value added to the sum of a key, of 2^lg_k nominal entries';
COMMENT ON FUNCTION tuple_sketch_add(tuple_sketch, timestamp, bigint, integer, text) IS 'the sketch with a value of a key, combined by mode, of 2^lg_k nominal entries';
COMMENT ON AGGREGATE theta_sketch_build(timestamptz) IS 'the sketch of all keys';
COMMENT ON AGGREGATE theta_sketch_distinct(timestamptz) IS 'estimates how many keys differ';
COMMENT ON FUNCTION theta_sketch_add(theta_sketch, timestamptz) IS 'the sketch with one more key';
COMMENT ON AGGREGATE theta_sketch_build(timestamptz, integer) IS 'the sketch of all keys, of 2^lg_k nominal entries';
COMMENT ON AGGREGATE theta_sketch_distinct(timestamptz, integer) IS 'estimates how many keys differ, of 2^lg_k nominal entries';
COMMENT ON FUNCTION theta_sketch_add(theta_sketch, timestamptz, integer) IS 'the sketch with one more key, of 2^lg_k nominal entries';
COMMENT ON AGGREGATE tuple_sketch_build(timestamptz, bigint) IS 'the sketch of all keys and of the sums of their values';
COMMENT ON FUNCTION tuple_sketch_add(tuple_sketch, timestamptz, bigint) IS 'the sketch with a value added to the sum of a key';
COMMENT ON AGGREGATE tuple_sketch_build(timestamptz, bigint, integer) IS 'the sketch of all keys and of the sums of their values, of 2^lg_k nominal entries';
COMMENT ON AGGREGATE tuple_sketch_build(timestamptz, bigint, integer, text) IS 'the sketch of all keys, and of the sum, the least or the greatest of their values by mode, of 2^lg_k nominal entries';
COMMENT ON FUNCTION tuple_sketch_add(tuple_sketch, timestamptz, bigint, integer) IS 'the sketch with a value added to the sum of a key, of 2^lg_k nominal entries';
COMMENT ON FUNCTION tuple_sketch_add(tuple_sketch, timestamptz, bigint, integer, text) IS 'the sketch with a value of a key, combined by mode, of 2^lg_k nominal entries';
COMMENT ON AGGREGATE theta_sketch_build(uuid) IS 'the sketch of all keys';
COMMENT ON AGGREGATE theta_sketch_distinct(uuid) IS 'estimates how many keys differ';
COMMENT ON FUNCTION theta_sketch_add(theta_sketch, uuid) IS 'the sketch with one more key';
COMMENT ON AGGREGATE theta_sketch_build(uuid, integer) IS 'the sketch of all keys, of 2^lg_k nominal entries';
COMMENT ON AGGREGATE theta_sketch_distinct(uuid, integer) IS 'estimates how many keys differ, of 2^lg_k nominal entries';
COMMENT ON FUNCTION theta_sketch_add(theta_sketch, uuid, integer) IS 'the sketch with one more key, of 2^lg_k nominal entries';
COMMENT ON AGGREGATE tuple_sketch_build(uuid, bigint) IS 'the sketch of all keys and of the sums of their values';
COMMENT ON FUNCTION tuple_sketch_add(tuple_sketch, uuid, bigint) IS 'the sketch with a value added to the sum of a key';
COMMENT ON AGGREGATE tuple_sketch_build(uuid, bigint, integer) IS 'the sketch of all keys and of the sums of their values, of 2^lg_k nominal entries';
COMMENT ON AGGREGATE tuple_sketch_build(uuid, bigint, integer, text) IS 'the sketch of all keys, and of the sum, the least or the greatest of their values by mode, of 2^lg_k nominal entries';
COMMENT ON FUNCTION tuple_sketch_add(tuple_sketch, uuid, bigint, integer) IS 'the sketch with a value added to the sum of a key, of 2^lg_k nominal entries';
COMMENT ON FUNCTION tuple_sketch_add(tuple_sketch, uuid, bigint, integer, text) IS 'the sketch with a value of a key, combined by mode, of 2^lg_k nominal entries';
COMMENT ON AGGREGATE theta_sketch_build(inet) IS 'the sketch of all keys';
COMMENT ON AGGREGATE theta_sketch_distinct(inet) IS 'estimates how many keys differ';
COMMENT ON FUNCTION theta_sketch_add(theta_sketch, inet) IS 'the sketch with one more key';
COMMENT ON AGGREGATE theta_sketch_build(inet, integer) IS 'the sketch of all keys, of 2^lg_k nominal entries';
COMMENT ON AGGREGATE theta_sketch_distinct(inet, integer) IS 'estimates how many keys differ, of 2^lg_k nominal entries';
COMMENT ON FUNCTION theta_sketch_add(theta_sketch, inet, integer) IS 'the sketch with one more key, of 2^lg_k nominal entries';
COMMENT ON AGGREGATE tuple_sketch_build(inet, bigint) IS 'the sketch of all keys and of the sums of their values';
COMMENT ON FUNCTION tuple_sketch_add(tuple_sketch, inet, bigint) IS 'the sketch with a value added to the sum of a key';
COMMENT ON AGGREGATE tuple_sketch_build(inet, bigint, integer) IS 'the sketch of all keys and of the sums of their values, of 2^lg_k nominal entries';
COMMENT ON AGGREGATE tuple_sketch_build(inet, bigint, integer, text) IS 'the sketch of all keys, and of the sum, the least or the greatest of their values by mode, of 2^lg_k nominal entries';
COMMENT ON FUNCTION tuple_sketch_add(tuple_sketch, inet, bigint, integer) IS 'the sketch with a value added to the sum of a key, of 2^lg_k nominal entries';
COMMENT ON FUNCTION tuple_sketch_add(tuple_sketch, inet, bigint, integer, text) IS 'the sketch with a value of a key, combined by mode, of 2^lg_k nominal entries';
COMMENT ON AGGREGATE theta_sketch_build(anyenum) IS 'the sketch of all keys';
COMMENT ON AGGREGATE theta_sketch_distinct(anyenum) IS 'estimates how many keys differ';
COMMENT ON FUNCTION theta_sketch_add(theta_sketch, anyenum) IS 'the sketch with one more key';
COMMENT ON AGGREGATE theta_sketch_build(anyenum, integer) IS 'the sketch of all keys, of 2^lg_k nominal entries';
COMMENT ON AGGREGATE theta_sketch_distinct(anyenum, integer) IS 'estimates how many keys differ, of 2^lg_k nominal entries';
COMMENT ON FUNCTION theta_sketch_add(theta_sketch, anyenum, integer) IS 'the sketch with one more key, of 2^lg_k nominal entries';
COMMENT ON AGGREGATE tuple_sketch_build(anyenum, bigint) IS 'the sketch of all keys and of the sums of their values';
COMMENT ON FUNCTION tuple_sketch_add(tuple_sketch, anyenum, bigint) IS 'the sketch with a value added to the sum of a key';
COMMENT ON AGGREGATE tuple_sketch_build(anyenum, bigint, integer) IS 'the sketch of all keys and of the sums of their values, of 2^lg_k nominal entries';
COMMENT ON AGGREGATE tuple_sketch_build(anyenum, bigint, integer, text) IS 'the sketch of all keys, and of the sum, the least or the greatest of their values by mode, of 2^lg_k nominal entries';
COMMENT ON FUNCTION tuple_sketch_add(tuple_sketch, anyenum, bigint, integer) IS 'the sketch with a value added to the sum of a key, of 2^lg_k nominal entries';
COMMENT ON FUNCTION tuple_sketch_add(tuple_sketch, anyenum, bigint, integer, text) IS 'the sketch with a value of a key, combined by mode, of 2^lg_k nominal entries';
COMMENT ON FUNCTION theta_sketch_add_int2(internal, smallint) IS 'adds a key to a state';
COMMENT ON FUNCTION theta_sketch_add_int2(internal, smallint, integer) IS 'adds a key to a state';
COMMENT ON FUNCTION tuple_sketch_add_int2(internal, smallint, bigint) IS 'adds a value of a key to a state';
COMMENT ON FUNCTION tuple_sketch_add_int2(internal, smallint, bigint, integer) IS 'adds a value of a key to a state';
COMMENT ON FUNCTION tuple_sketch_add_int2(internal, smallint, bigint, integer, text) IS 'adds a value of a key to a state';
COMMENT ON AGGREGATE theta_sketch_build(smallint) IS 'the sketch of all keys';
COMMENT ON AGGREGATE theta_sketch_distinct(smallint) IS 'estimates how many keys differ';
COMMENT ON FUNCTION theta_sketch_add(theta_sketch, smallint) IS 'the sketch with one more key';
COMMENT ON AGGREGATE theta_sketch_build(smallint, integer) IS 'the sketch of all keys, of 2^lg_k nominal entries';
COMMENT ON AGGREGATE theta_sketch_distinct(smallint, integer) IS 'estimates how many keys differ, of 2^lg_k nominal entries';
COMMENT ON FUNCTION theta_sketch_add(theta_sketch, smallint, integer) IS 'the sketch with one more key, of 2^lg_k nominal entries';
COMMENT ON AGGREGATE tuple_sketch_build(smallint, bigint) IS 'the sketch of all keys and of the sums of their values';
COMMENT ON FUNCTION tuple_sketch_add(tuple_sketch, smallint, bigint) IS 'the sketch with a value added to the sum of a key';
COMMENT ON AGGREGATE tuple_sketch_build(smallint, bigint, integer) IS 'the sketch of all keys and of the sums of their values, of 2^lg_k nominal entries';
COMMENT ON AGGREGATE tuple_sketch_build(smallint, bigint, integer, text) IS 'the sketch of all keys, and of the sum, the least or the greatest of their values by mode, of 2^lg_k nominal entries';
COMMENT ON FUNCTION tuple_sketch_add(tuple_sketch, smallint, bigint, integer) IS 'the sketch with a value added to the sum of a key, of 2^lg_k nominal entries';
COMMENT ON FUNCTION tuple_sketch_add(tuple_sketch, smallint, bigint, integer, text) IS 'the sketch with a value of a key, combined by mode, of 2^lg_k nominal entries';
COMMENT ON FUNCTION theta_sketch_add_int4(internal, integer) IS 'adds a key to a state';
COMMENT ON FUNCTION theta_sketch_add_int4(internal, integer, integer) IS 'adds a key to a state';
COMMENT ON FUNCTION tuple_sketch_add_int4(internal, integer, bigint) IS 'adds a value of a key to a state';
COMMENT ON FUNCTION tuple_sketch_add_int4(internal, integer, bigint, integer) IS 'adds a value of a key to a state';
COMMENT ON FUNCTION tuple_sketch_add_int4(internal, integer, bigint, integer, text) IS 'adds a value of a key to a state';
COMMENT ON AGGREGATE theta_sketch_build(integer) IS 'the sketch of all keys';
COMMENT ON AGGREGATE theta_sketch_distinct(integer) IS 'estimates how many keys differ';
COMMENT ON FUNCTION theta_sketch_add(theta_sketch, integer) IS 'the sketch with one more key';
COMMENT ON AGGREGATE theta_sketch_build(integer, integer) IS 'the sketch of all keys, of 2^lg_k nominal entries';
COMMENT ON AGGREGATE theta_sketch_distinct(integer, integer) IS 'estimates how many keys differ, of 2^lg_k nominal entries';
COMMENT ON FUNCTION theta_sketch_add(theta_sketch, integer, integer) IS 'the sketch with one more key, of 2^lg_k nominal entries';
COMMENT ON AGGREGATE tuple_sketch_build(integer, bigint) IS 'the sketch of all keys and of the sums of their values';
COMMENT ON FUNCTION tuple_sketch_add(tuple_sketch, integer, bigint) IS 'the sketch with a value added to the sum of a key';
COMMENT ON AGGREGATE tuple_sketch_build(integer, bigint, integer) IS 'the sketch of all keys and of the sums of their values, of 2^lg_k nominal entries';
COMMENT ON AGGREGATE tuple_sketch_build(integer, bigint, integer, text) IS 'the sketch of all keys, and of the sum, the least or the greatest of their values by mode, of 2^lg_k nominal entries';
COMMENT ON FUNCTION tuple_sketch_add(tuple_sketch, integer, bigint, integer) IS 'the sketch with a value added to the sum of a key, of 2^lg_k nominal entries';
COMMENT ON FUNCTION tuple_sketch_add(tuple_sketch, integer, bigint, integer, text) IS 'the sketch with a value of a key, combined by mode, of 2^lg_k nominal entries';
COMMENT ON FUNCTION theta_sketch_add_oid(internal, oid) IS 'adds a key to a state';
COMMENT ON FUNCTION theta_sketch_add_oid(internal, oid, integer) IS 'adds a key to a state';
COMMENT ON FUNCTION tuple_sketch_add_oid(internal, oid, bigint) IS 'adds a value of a key to a state';
COMMENT ON FUNCTION tuple_sketch_add_oid(internal, oid, bigint, integer) IS 'adds a value of a key to a state';
COMMENT ON FUNCTION tuple_sketch_add_oid(internal, oid, bigint, integer, text) IS 'adds a value of a key to a state';
COMMENT ON AGGREGATE theta_sketch_build(oid) IS 'the sketch of all keys';
COMMENT ON AGGREGATE theta_sketch_distinct(oid) IS 'estimates how many keys differ';
COMMENT ON FUNCTION theta_sketch_add(theta_sketch, oid) IS 'the sketch with one more key';
COMMENT ON AGGREGATE theta_sketch_build(oid, integer) IS 'the sketch of all keys, of 2^lg_k nominal entries';
COMMENT ON AGGREGATE theta_sketch_distinct(oid, integer) IS 'estimates how many keys differ, of 2^lg_k nominal entries';
COMMENT ON FUNCTION theta_sketch_add(theta_sketch, oid, integer) IS 'the sketch with one more key, of 2^lg_k nominal entries';
COMMENT ON AGGREGATE tuple_sketch_build(oid, bigint) IS 'the sketch of all keys and of the sums of their values';
COMMENT ON FUNCTION tuple_sketch_add(tuple_sketch, oid, bigint) IS 'the sketch with a value added to the sum of a key';
COMMENT ON AGGREGATE tuple_sketch_build(oid, bigint, integer) IS 'the sketch of all keys and of the sums of their values, of 2^lg_k nominal entries';
COMMENT ON AGGREGATE tuple_sketch_build(oid, bigint, integer, text) IS 'the sketch of all keys, and of the sum, the least or the greatest of their values by mode, of 2^lg_k nominal entries';
COMMENT ON FUNCTION tuple_sketch_add(tuple_sketch, oid, bigint, integer) IS 'the sketch with a value added to the sum of a key, of 2^lg_k nominal entries';
COMMENT ON FUNCTION tuple_sketch_add(tuple_sketch, oid, bigint, integer, text) IS 'the sketch with a value of a key, combined by mode, of 2^lg_k nominal entries';
COMMENT ON FUNCTION theta_sketch_add_float8(internal, double precision) IS 'adds a key to a state';
COMMENT ON FUNCTION theta_sketch_add_float8(internal, double precision, integer) IS 'adds a key to a state';
COMMENT ON FUNCTION tuple_sketch_add_float8(internal, double precision, bigint) IS 'adds a value of a key to a state';
COMMENT ON FUNCTION tuple_sketch_add_float8(internal, double precision, bigint, integer) IS 'adds a value of a key to a state';
COMMENT ON FUNCTION tuple_sketch_add_float8(internal, double precision, bigint, integer, text) IS 'adds a value of a key to a state';
COMMENT ON AGGREGATE theta_sketch_build(double precision) IS 'the sketch of all keys';
COMMENT ON AGGREGATE theta_sketch_distinct(double precision) IS 'estimates how many keys differ';
COMMENT ON FUNCTION theta_sketch_add(theta_sketch, double precision) IS 'the sketch with one more key';
COMMENT ON AGGREGATE theta_sketch_build(double precision, integer) IS 'the sketch of all keys, of 2^lg_k nominal entries';
COMMENT ON AGGREGATE theta_sketch_distinct(double precision, integer) IS 'estimates how many keys differ, of 2^lg_k nominal entries';
COMMENT ON FUNCTION theta_sketch_add(theta_sketch, double precision, integer) IS 'the sketch with one more key, of 2^lg_k nominal entries';
COMMENT ON AGGREGATE tuple_sketch_build(double precision, bigint) IS 'the sketch of all keys and of the sums of their values';
COMMENT ON FUNCTION tuple_sketch_add(tuple_sketch, double precision, bigint) IS 'the sketch with a value added to the sum of a key';
COMMENT ON AGGREGATE tuple_sketch_build(double precision, bigint, integer) IS 'the sketch of all keys and of the sums of their values, of 2^lg_k nominal entries';
COMMENT ON AGGREGATE tuple_sketch_build(double precision, bigint, integer, text) IS 'the sketch of all keys, and of the sum, the least or the greatest of their values by mode, of 2^lg_k nominal entries';
COMMENT ON FUNCTION tuple_sketch_add(tuple_sketch, double precision, bigint, integer) IS 'the sketch with a value added to the sum of a key, of 2^lg_k nominal entries';
COMMENT ON FUNCTION tuple_sketch_add(tuple_sketch, double precision, bigint, integer, text) IS 'the sketch with a value of a key, combined by mode, of 2^lg_k nominal entries';
COMMENT ON AGGREGATE theta_sketch_build(numeric) IS 'the sketch of all keys';
COMMENT ON AGGREGATE theta_sketch_distinct(numeric) IS 'estimates how many keys differ';
COMMENT ON FUNCTION theta_sketch_add(theta_sketch, numeric) IS 'the sketch with one more key';
COMMENT ON AGGREGATE theta_sketch_build(numeric, integer) IS 'the sketch of all keys, of 2^lg_k nominal entries';
COMMENT ON AGGREGATE theta_sketch_distinct(numeric, integer) IS 'estimates how many keys differ, of 2^lg_k nominal entries';
COMMENT ON FUNCTION theta_sketch_add(theta_sketch, numeric, integer) IS 'the sketch with one more key, of 2^lg_k nominal entries';
COMMENT ON AGGREGATE tuple_sketch_build(numeric, bigint) IS 'the sketch of all keys and of the sums of their values';
COMMENT ON FUNCTION tuple_sketch_add(tuple_sketch, numeric, bigint) IS 'the sketch with a value added to the sum of a key';
COMMENT ON AGGREGATE tuple_sketch_build(numeric, bigint, integer) IS 'the sketch of all keys and of the sums of their values, of 2^lg_k nominal entries';
COMMENT ON AGGREGATE tuple_sketch_build(numeric, bigint, integer, text) IS 'the sketch of all keys, and of the sum, the least or the greatest of their values by mode, of 2^lg_k nominal entries';
COMMENT ON FUNCTION tuple_sketch_add(tuple_sketch, numeric, bigint, integer) IS 'the sketch with a value added to the sum of a key, of 2^lg_k nominal entries';
COMMENT ON FUNCTION tuple_sketch_add(tuple_sketch, numeric, bigint, integer, text) IS 'the sketch with a value of a key, combined by mode, of 2^lg_k nominal entries';
