#!/usr/bin/env python3
"""Times distinct counts by sketches beside exact ones, in SQLite and in PostgreSQL, on rows of one table: seconds by the clock, of sketches
the least of three runs in turns, of exact counts of one run. Prints a table for each database.

    bench/databases/run.py [ROWS [DATABASE]]    default 10,000,000 rows, of which 5,000,011 ids and as many texts differ, in both databases

It needs what bindings/sqlite/check and bindings/postgresql/check need, but not distinct. 10,000,000 rows take 2 GB on disk and some
minutes. SQLite has the table in memory. PostgreSQL has a server of its own, with its default of 4 MB of work_mem, and warm caches.
"""
import os
import re
import subprocess
import sys

sys.dont_write_bytecode = True
HERE = os.path.dirname(os.path.abspath(__file__))
BINDINGS = os.path.join(HERE, "..", "..", "bindings")
sys.path[:0] = [os.path.join(BINDINGS, "databases"), os.path.join(BINDINGS, "postgresql")]
from checking import build  # noqa: E402
from server import Server  # noqa: E402

ROUNDS = 3
EXACT = {
    "`count(DISTINCT id)`": "SELECT count(DISTINCT id) FROM visits",
    "`count(DISTINCT name)`": "SELECT count(DISTINCT name) FROM visits",
    "`count(*)` of `SELECT DISTINCT name`": "SELECT count(*) FROM (SELECT DISTINCT name FROM visits) t",
    "by hour, `count(DISTINCT name)`": "SELECT sum(n) FROM (SELECT count(DISTINCT name) AS n FROM visits GROUP BY hour) t",
}
SKETCHES = {
    "a scan: `count(id)`": "SELECT count(id) FROM visits",
    "a scan: `sum(length(name))`": "SELECT sum(length(name)) FROM visits",
    "`theta_sketch_distinct(id)`": "SELECT theta_sketch_distinct(id) FROM visits",
    "`theta_sketch_distinct(name)`": "SELECT theta_sketch_distinct(name) FROM visits",
    "by hour, `theta_sketch_distinct(name)`": "SELECT sum(n) FROM (SELECT theta_sketch_distinct(name) AS n FROM visits GROUP BY hour) t",
    "`theta_sketch_union` of the 24 images": "SELECT theta_sketch_get_estimate(theta_sketch_union(s)) FROM hours",
}


def in_sqlite(rows):
    """Each query's name with its seconds and its answer."""
    build("sqlite")
    queries = [*EXACT.items(), *list(SKETCHES.items()) * ROUNDS]
    script = f"""
.load {os.path.join(BINDINGS, "sqlite", "build", "theta_sketch")}
CREATE TABLE visits(hour INTEGER, id INTEGER, name TEXT);
WITH RECURSIVE n(i) AS (SELECT 0 UNION ALL SELECT i + 1 FROM n WHERE i < {rows - 1})
INSERT INTO visits SELECT i % 24, i * 2654435761 % 5000011, 'user' || (i * 2654435761 % 5000011) FROM n;
CREATE TABLE hours AS SELECT hour, theta_sketch_build(name) AS s FROM visits GROUP BY hour;
.timer on
""" + "".join(f"{sql};\n" for _, sql in queries)
    text = subprocess.run(["sqlite3", "-batch", ":memory:"], input=script, capture_output=True, text=True, check=True).stdout
    found = re.findall(r"^(\S+)\nRun Time: real (\S+)", text, re.M)
    return [(name, float(seconds), answer) for (name, _), (answer, seconds) in zip(queries, found, strict=True)]


def in_postgresql(rows):
    """The same, by so many workers beside the session's own process."""
    with Server(shared_buffers="2GB", max_wal_size="8GB") as server:
        server.query(f"""CREATE UNLOGGED TABLE visits AS SELECT (i % 24)::int AS hour, i * 2654435761 % 5000011 AS id,
            'user' || (i * 2654435761 % 5000011) AS name FROM generate_series(0::bigint, {rows - 1}) i;
            CREATE TABLE hours AS SELECT hour, theta_sketch_build(name) AS s FROM visits GROUP BY hour; VACUUM ANALYZE;""")
        answers = []
        for workers, some in ((0, EXACT), *[(n, SKETCHES) for n in (0, 1, 3)] * ROUNDS):
            setup = f"ALTER TABLE visits SET (parallel_workers = {workers}); SET max_parallel_workers_per_gather = {workers};\n\\timing on\n"
            for name, sql in some.items():
                found, messages = server.psql(f"{setup}{sql};", 3600)
                if messages:
                    sys.exit(f"{sql}: {messages[:3]}")
                seconds = float(re.search(r"[\d.]+", found[-1]).group()) / 1000
                answers.append((name if some is EXACT else f"{name}, {workers} workers", seconds, found[-2]))
        return answers


def report(database, answers):
    print(f"\n| {database} | seconds | answer |\n|---|---|---|")
    for name in dict.fromkeys(name for name, _, _ in answers):
        mine = [(seconds, answer) for other, seconds, answer in answers if other == name]
        print(f"| {name} | {min(mine)[0]:.2f} | {mine[0][1]} |", flush=True)


count = int(sys.argv[1].replace(",", "")) if len(sys.argv) > 1 else 10000000
for database, measure in (("SQLite", in_sqlite), ("PostgreSQL", in_postgresql)):
    if len(sys.argv) < 3 or sys.argv[2].lower() == database.lower():
        report(database, measure(count))
