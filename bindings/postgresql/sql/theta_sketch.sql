-- One call of each function, over an installed extension: make installcheck. bindings/postgresql/check has the tests in depth.
CREATE EXTENSION theta_sketch;
CREATE TABLE visits(day text, name text, id bigint, n bigint);
INSERT INTO visits VALUES ('mon', 'ann', 1, 2), ('mon', 'bob', 2, 3), ('tue', 'bob', 2, 4), ('tue', 'cid', 3, 5), ('tue', NULL, NULL, 6);

-- Theta sketches.
CREATE TABLE days AS SELECT day, theta_sketch_build(name) AS s FROM visits GROUP BY day;
SELECT theta_sketch_distinct(name), theta_sketch_distinct(id), theta_sketch_distinct(name::bytea, 9) FROM visits;
SELECT day, s, theta_sketch_get_estimate(s), theta_sketch_get_estimate_and_bounds(s), theta_sketch_to_string(s) FROM days ORDER BY day;
SELECT theta_sketch_to_string(theta_sketch_union(s)), theta_sketch_to_string(theta_sketch_intersection(s)) FROM days;
SELECT theta_sketch_to_string(theta_sketch_union(a.s, b.s)), theta_sketch_to_string(theta_sketch_intersection(a.s, b.s)),
    theta_sketch_to_string(theta_sketch_a_not_b(a.s, b.s)) FROM days a, days b WHERE a.day < b.day;
SELECT theta_sketch_to_string(theta_sketch_build(x, 5)), theta_sketch_get_estimate_and_bounds(theta_sketch_build(x, 5), 3)
    FROM generate_series(1::bigint, 1000) x;
SELECT theta_sketch_add(s, 'ann') = s, theta_sketch_to_string(theta_sketch_add(s, 'dan', 12)) FROM days ORDER BY day;
SELECT theta_sketch_build(258) = theta_sketch_build('\x0201000000000000'::bytea), theta_sketch_build(1::smallint) = theta_sketch_build(1::oid),
    theta_sketch_build(1.5::real) = theta_sketch_build('\x000000000000f83f'::bytea), theta_sketch_distinct(x) FROM (VALUES (0.0::float8), ('-0'::float8)) v(x);
SELECT theta_sketch_build(x) = theta_sketch_build('1'), count(DISTINCT x), tuple_sketch_build(x, 2) = tuple_sketch_add(NULL, 1.000, 4)
    FROM (VALUES (1.0), (1.00)) v(x);

-- Tuple sketches of sums.
CREATE TABLE sums AS SELECT day, tuple_sketch_build(name, n) AS s FROM visits GROUP BY day;
SELECT day, s, tuple_sketch_get_total(s), tuple_sketch_get_estimate(s), tuple_sketch_get_bounds(s), tuple_sketch_to_string(s) FROM sums ORDER BY day;
SELECT tuple_sketch_to_string(tuple_sketch_union(s)), tuple_sketch_to_string(tuple_sketch_intersection(s)) FROM sums;
SELECT tuple_sketch_to_string(tuple_sketch_union(a.s, b.s)), tuple_sketch_to_string(tuple_sketch_intersection(a.s, b.s)),
    tuple_sketch_to_string(tuple_sketch_a_not_b(a.s, b.s)) FROM sums a, sums b WHERE a.day < b.day;
SELECT tuple_sketch_to_string(tuple_sketch_add(s, 'ann', 7)) FROM sums ORDER BY day;

-- The least and the greatest value of each key.
CREATE TABLE modes AS SELECT unnest(ARRAY['sum', 'min', 'max']) AS mode;
SELECT mode, tuple_sketch_to_string(tuple_sketch_build(name, n, 12, mode)) FROM visits, modes GROUP BY mode ORDER BY mode;
SELECT mode, tuple_sketch_get_total(tuple_sketch_union(s, 12, mode)), tuple_sketch_get_total(tuple_sketch_intersection(s, mode))
    FROM sums, modes GROUP BY mode ORDER BY mode;
SELECT mode, tuple_sketch_get_total(tuple_sketch_union(a.s, b.s, 12, mode)), tuple_sketch_get_total(tuple_sketch_intersection(a.s, b.s, mode))
    FROM sums a, sums b, modes WHERE a.day < b.day ORDER BY mode;
SELECT mode, day, tuple_sketch_get_total(tuple_sketch_add(s, 'bob', 1, 12, mode)) FROM sums, modes ORDER BY mode, day;

-- Comparisons, types and errors.
SELECT count(DISTINCT s) FROM (SELECT s FROM days UNION ALL SELECT s FROM days) t;
SELECT s::text::theta_sketch = s, s::bytea::theta_sketch = s FROM days;
SELECT s::text::tuple_sketch = s, s::bytea::tuple_sketch = s FROM sums;
SELECT theta_sketch_build('ann', 27);
SELECT theta_sketch_union(s, NULL) FROM days ORDER BY day;
SELECT tuple_sketch_build('ann', -1);
SELECT tuple_sketch_build('ann', x) FROM (VALUES (9223372036854775807), (9223372036854775807), (2)) v(x);
SELECT tuple_sketch_build('ann', 1, 12, 'avg');
SELECT tuple_sketch_union(s, 12, mode ORDER BY mode) FROM sums, modes;
SELECT '\x00'::bytea::theta_sketch;
SELECT 'AQMD?AAeAAA='::theta_sketch;
SELECT s::bytea::tuple_sketch FROM days;
SELECT theta_sketch_get_estimate_and_bounds(s, 4) FROM days;
DROP TABLE visits, days, sums, modes;
DROP EXTENSION theta_sketch;
