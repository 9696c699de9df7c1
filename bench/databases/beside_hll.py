#!/usr/bin/env python3
"""Times and sizes of sketches beside those of the extension hll and of exact counts, in PostgreSQL, in one run: seconds by the clock, the
least of three rounds in turns, of exact counts of one. Prints a table.

    bench/databases/beside_hll.py [ROWS]    default 5,000,000 rows, of which half of the ids and of the texts differ, in 1200 groups

It needs what bindings/postgresql/check needs, but not distinct, and Debian's package postgresql-15-hll. Both kinds of sketches have their
default settings: 4096 hashes (a standard error of 1.6 %), and 2048 registers (2.3 %).
"""
import os
import re
import sys

sys.dont_write_bytecode = True
HERE = os.path.dirname(os.path.abspath(__file__))
sys.path.insert(0, os.path.join(HERE, "..", "..", "bindings", "postgresql"))
from server import Server  # noqa: E402

ROUNDS, GROUPS, KEYS = 3, 1200, 2000
EXACT, THETA, HLL = "exact", "theta_sketch", "hll"
# A stored sketch is updated with one key after another, each in a transaction: one that was empty, and one of all ids, which has half of the keys.
ONE_BY_ONE = """DO $$ BEGIN UPDATE one SET {of} = {first}; FOR i IN 1..{keys} LOOP UPDATE one SET {of} = {add}; COMMIT; END LOOP; END $$;
SELECT {estimate}({of}) FROM one"""
ADD = {THETA: "theta_sketch_add(theta_sketch, ({})::bigint)", HLL: "hll_add(hll, hll_hash_bigint({}))"}
ESTIMATE = {THETA: "theta_sketch_get_estimate", HLL: "hll_cardinality"}
EMPTY = {THETA: "NULL", HLL: "hll_empty()"}


def one_by_one(key, first):
    """The statement of each kind that adds many keys to a first sketch."""
    return {of: ONE_BY_ONE.format(of=of, first=first[of], keys=KEYS, add=ADD[of].format(key), estimate=ESTIMATE[of]) for of in (THETA, HLL)}


CASES = {
    "distinct texts": {
        EXACT: "SELECT count(DISTINCT name) FROM events", THETA: "SELECT theta_sketch_distinct(name) FROM events",
        HLL: "SELECT hll_cardinality(hll_add_agg(hll_hash_text(name))) FROM events",
    },
    "distinct `bigint`s": {
        EXACT: "SELECT count(DISTINCT id) FROM events", THETA: "SELECT theta_sketch_distinct(id) FROM events",
        HLL: "SELECT hll_cardinality(hll_add_agg(hll_hash_bigint(id))) FROM events",
    },
    f"texts by {GROUPS} groups": {
        EXACT: "SELECT sum(n) FROM (SELECT count(DISTINCT name) AS n FROM events GROUP BY tag) t",
        THETA: "SELECT sum(n) FROM (SELECT theta_sketch_distinct(name) AS n FROM events GROUP BY tag) t",
        HLL: "SELECT sum(n) FROM (SELECT hll_cardinality(hll_add_agg(hll_hash_text(name))) AS n FROM events GROUP BY tag) t",
    },
    f"a union of {GROUPS} stored sketches": {
        THETA: "SELECT theta_sketch_get_estimate(theta_sketch_union(s)) FROM stored_theta_sketch",
        HLL: "SELECT hll_cardinality(hll_union_agg(s)) FROM stored_hll",
    },
    f"{KEYS} new keys, one by one": one_by_one("i * 7919", EMPTY),
    f"{KEYS} keys, one by one, into the sketch of all": one_by_one("i * 3 % 1000 + i % 2 * 10000000", {THETA: "all_theta_sketch", HLL: "all_hll"}),
}
SIZES = {
    f"bytes of {GROUPS} sketches": "SELECT sum(pg_column_size(s)) FROM stored_{}", "bytes of the sketch of all": "SELECT pg_column_size(all_{}) FROM one",
}
TABLES = """
CREATE EXTENSION hll;
CREATE UNLOGGED TABLE events AS SELECT (i % {groups})::int AS tag, i * 2654435761 % {distinct} AS id, 'user' || (i * 2654435761 % {distinct}) AS name
    FROM generate_series(0::bigint, {last}) i;
CREATE TABLE stored_theta_sketch AS SELECT tag, theta_sketch_build(name) AS s FROM events GROUP BY tag;
CREATE TABLE stored_hll AS SELECT tag, hll_add_agg(hll_hash_text(name)) AS s FROM events GROUP BY tag;
CREATE TABLE one AS SELECT theta_sketch_build(id) AS all_theta_sketch, hll_add_agg(hll_hash_bigint(id)) AS all_hll,
    NULL::theta_sketch AS theta_sketch, NULL::hll AS hll FROM events;
ALTER TABLE events SET (parallel_workers = 0); VACUUM ANALYZE;
"""


def timed(server, sql):
    """The seconds of the first statement of SQL, and what is printed last."""
    found, messages = server.psql(f"SET max_parallel_workers_per_gather = 0;\n\\timing on\n{sql};", 3600)
    if messages:
        sys.exit(f"{sql}: {messages[:3]}")
    seconds = [float(re.search(r"[\d.]+", line).group()) / 1000 for line in found if line.startswith("Time: ")]
    return seconds[0], [line for line in found if not line.startswith("Time: ")][-1]


def main():
    rows = int(sys.argv[1].replace(",", "")) if len(sys.argv) > 1 else 5000000
    with Server(shared_buffers="2GB", max_wal_size="8GB") as server:
        server.query(TABLES.format(groups=GROUPS, distinct=rows // 2 + 11, last=rows - 1))
        least, answers = {}, {}
        for turn in range(ROUNDS):
            for name, case in CASES.items():
                for of, sql in case.items():
                    if of == EXACT and turn > 0:
                        continue
                    seconds, answers[name, of] = timed(server, sql)
                    least[name, of] = min(seconds, least.get((name, of), seconds))
        sizes = {(name, of): server.value(sql.format(of)) for name, sql in SIZES.items() for of in (THETA, HLL)}
    print(f"\n| {rows} rows | `theta_sketch` | `hll` | ratio | exact | errors |\n|---|---|---|---|---|---|")
    for name, case in CASES.items():
        times = [f"{least[name, of]:.3f}" if of in case else "" for of in (THETA, HLL)]
        truth = float(answers.get((name, EXACT), 0))
        errors = [f"{100 * (float(answers[name, of]) / truth - 1):+.1f} %" for of in (THETA, HLL)] if truth else []
        ratio = least[name, THETA] / least[name, HLL]
        exact = f"{least[name, EXACT]:.2f}" if EXACT in case else ""
        print(f"| {name} | {times[0]} | {times[1]} | {ratio:.2f} | {exact} | {', '.join(errors)} |")
    for name in SIZES:
        print(f"| {name} | {sizes[name, THETA]} | {sizes[name, HLL]} | | | |")


main()
