"""Drawn conditions: a filter has the rows that a plain table of the same items has, or refuses."""

import random
import sqlite3

import pytest
from conftest import connect

INSERTED = ["1", "-2", "2.5", "'a'", "'b'", "'c'", "'d'", "x'00'"]
ITEMS = [*INSERTED, "3", "0.5", "'e'", "'f'", "x'ff'", "NULL"]
# Queries of each kind, of a table and a condition.
ALONE = [
    "SELECT item FROM {0} WHERE {1}",
    "SELECT rowid IS NULL, item FROM {0} WHERE {1} ORDER BY item",
    "SELECT count(*), min(item) FROM {0} WHERE {1}",
    "SELECT n FROM t WHERE EXISTS(SELECT 1 FROM {0} WHERE {1})",
]
JOINED = [
    "SELECT n, item FROM t JOIN {0} ON {1}",
    "SELECT n, item FROM {0} JOIN t ON {1}",
    "SELECT n, item FROM t LEFT JOIN {0} ON {1}",
    "SELECT n, item FROM t CROSS JOIN {0} WHERE {1}",
    "SELECT n, s.item, o.item FROM t JOIN {0} AS s ON s.item = k JOIN {0} AS o ON "
    "(o.item = s.item OR o.item IS j) AND s.item IN (SELECT item FROM plain WHERE {1})",
    "SELECT n FROM t WHERE EXISTS(SELECT 1 FROM {0} WHERE {1})",
]


def draw_condition(draw, is_joined, depth):
    """Conditions on items, most of which a filter can look up."""
    one, two = draw.choice(ITEMS), draw.choice(ITEMS)
    if depth > 0 and draw.random() < 0.8:
        word = draw.choice(["OR", "OR", "AND"])
        parts = [draw_condition(draw, is_joined, depth - 1) for _ in range(draw.choice([2, 2, 3]))]
        return f"({f' {word} '.join(parts)})"
    asked = [
        f"item = {one}",
        f"{one} = item",
        f"item IS {one}",
        f"item IN ({one}, {two})",
        f"item IN (SELECT j FROM t WHERE n < {draw.randrange(9)})",
        f"item = {one} AND length(item) = 1",
        f"item IS {one} AND item <> {two}",
    ]
    if is_joined:
        asked += ["item = k", "item IS j", "item IN (k, j)", f"item IN (j, {one})"]
        asked += ["item = k AND n > 4", f"item IN (k, {one}) AND j IS NOT {two}"]
    return draw.choice(asked)


@pytest.mark.parametrize("session", range(8))
def test_rows_are_those_of_a_plain_table(session):
    db = connect()
    db.create()
    db.execute("CREATE TABLE plain(item)")
    db.execute("CREATE TABLE t(n INTEGER PRIMARY KEY, k, j)")
    for table in ("plain", "seen(item)"):
        db.execute(f"INSERT INTO {table} VALUES ({'), ('.join(INSERTED)})")
    assert [db.one(f"SELECT bloom_in('seen', {it})") for it in ITEMS] == [1] * 8 + [0] * 6
    draw = random.Random(session)
    for _ in range(12):
        db.execute(f"INSERT INTO t(k, j) VALUES ({draw.choice(ITEMS)}, {draw.choice(ITEMS)})")
    answered = 0
    by_indexes = 0
    for _ in range(300):
        is_joined = draw.random() < 0.5
        condition = draw_condition(draw, is_joined, draw.randrange(3))
        query = draw.choice(JOINED if is_joined else ALONE)
        wanted = db.execute(query.format("plain", condition)).fetchall()
        try:
            found = db.execute(query.format("seen", condition)).fetchall()
        except sqlite3.Error as error:
            assert "a filter answers only" in str(error) or "no query solution" in str(error)
            continue
        assert sorted(map(repr, found)) == sorted(map(repr, wanted)), (query, condition)
        answered += 1
        plan = str(db.execute("EXPLAIN QUERY PLAN " + query.format("seen", condition)).fetchall())
        by_indexes += "MULTI-INDEX OR" in plan
    assert answered > 240 and by_indexes > 60
    db.close()
