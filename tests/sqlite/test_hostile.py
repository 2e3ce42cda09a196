"""Databases whose shadow table isn't the one that the extension made.

No statement ends the process, and the connection can be closed.
"""

import subprocess

import pytest
from conftest import EXTENSION

MADE = """
CREATE VIRTUAL TABLE seen USING bloom(items=1000, rate='1/1000');
INSERT INTO seen(item) VALUES('a');
CREATE TABLE kept AS SELECT * FROM seen_data;
"""
# What comes into the shadow table's place, or to the table. ALL statements are then refused, or
# those that insert (WRITES), or NONE. Where SQLite's version decides (EITHER), a statement is
# refused, or it returns what it does on a whole filter.
ALL, WRITES, NONE, EITHER = range(4)
INSTEAD = {
    "VIEW seen_data AS SELECT 0 AS page, file AS bits FROM seen": ALL,
    "VIEW seen_data AS SELECT page, bits FROM kept JOIN seen ON item = 'a'": ALL,
    "VIEW seen_data(page, rowid, bits) AS SELECT page, page, bits FROM kept": ALL,
    "VIEW seen_data AS SELECT page, bits FROM seen_data": ALL,
    "VIEW seen_data AS SELECT 0 AS page, bloom_in('seen', 'a') AS bits": ALL,
    "VIRTUAL TABLE seen_data USING bloom(items=1000, rate='1/1000')": ALL,
    "VIRTUAL TABLE seen_data USING fts5(page, bits)": ALL,
    "TABLE seen_data(page INTEGER PRIMARY KEY, bits) WITHOUT ROWID": ALL,
    "TABLE seen_data(page TEXT UNIQUE, bits)": ALL,
    "TABLE seen_data(page INTEGER PRIMARY KEY, bats)": ALL,
    "TABLE seen_data(page INTEGER PRIMARY KEY, bits TEXT CHECK(length(bits) > 9))": NONE,
    "TABLE seen_data(page INTEGER PRIMARY KEY, bits, g AS (bits || 'x'))": EITHER,
    "TABLE seen_data(page INTEGER PRIMARY KEY, bits, g AS (bits || 'x') STORED)": EITHER,
    "TABLE seen_data(page INTEGER PRIMARY KEY, g AS (page + 1), bits)": EITHER,
    "TABLE seen_data(page INTEGER PRIMARY KEY, g AS (page + 1) STORED, bits)": EITHER,
    "TABLE seen_data(page INTEGER PRIMARY KEY, bits AS (o), o)": EITHER,
    "TABLE seen_data(page INTEGER PRIMARY KEY, o, bits AS (o) STORED)": EITHER,
    "TABLE seen_data(page INTEGER PRIMARY KEY, bits, g AS (hex(bits)) UNIQUE)": EITHER,
}
CHANGED = {
    "ALTER TABLE seen_data RENAME TO moved": ALL,
    "UPDATE seen_data SET bits = page + 0.5": ALL,
    "CREATE INDEX i ON seen_data(bits)": WRITES,
    "CREATE UNIQUE INDEX i ON seen_data(length(bits) + page)": WRITES,
    "CREATE INDEX i ON seen_data(page) WHERE length(bits) > 9": EITHER,
    "UPDATE seen_data SET bits = CAST(bits AS TEXT) WHERE page > 0": NONE,
    "ALTER TABLE seen_data ADD COLUMN more DEFAULT 7": NONE,
    "CREATE TEMP VIEW seen_data AS SELECT 0 AS page, file AS bits FROM seen": NONE,
    "CREATE TRIGGER one BEFORE INSERT ON seen_data BEGIN INSERT INTO seen(item) VALUES('z'); END;"
    "CREATE TRIGGER two AFTER UPDATE ON seen_data BEGIN INSERT INTO seen(item) VALUES('z'); END;"
    "CREATE TRIGGER three BEFORE DELETE ON seen_data BEGIN SELECT raise(ABORT, 'no'); END": NONE,
}
FILLED = "INSERT INTO seen_data SELECT * FROM kept"
SCHEMAS = {
    **{f"DROP TABLE seen_data; CREATE {it}; {FILLED}": INSTEAD[it] for it in INSTEAD},
    **CHANGED,
}
READS = {
    "SELECT item FROM seen WHERE item IN ('a', 'no')": "a",
    "SELECT info ->> 'estimate' FROM seen": "1",
    "SELECT bloom_contains(file, 'a') FROM seen": "1",
    "SELECT bloom_in('seen', 'a')": "1",
}
INSERTS = {
    "INSERT INTO seen(item) VALUES('b'); SELECT bloom_in('seen', 'b')": "1",
    "INSERT INTO seen(file) SELECT bloom('c', 1000, '1/1000'); SELECT bloom_in('seen', 'c')": "1",
}


def run(path, *statements):
    """What the program sqlite3 prints for each statement. It closes the database at its end."""
    lines = [f".load {EXTENSION}", "PRAGMA trusted_schema = OFF;"]
    for statement in statements:
        lines += [".print --", f"{statement};"]
    done = subprocess.run(
        ["sqlite3", "-batch", str(path)],
        input="\n".join([*lines, ".print --end", ""]),
        text=True,
        stdout=subprocess.PIPE,
        stderr=subprocess.STDOUT,
        check=False,
    )
    told, end, rest = done.stdout.partition("--end\n")
    assert end and not rest and done.returncode in (0, 1), (done.returncode, done.stdout)
    return [it.strip() for it in told.split("--\n")[1:]]


def is_refused(told):
    return "row 0 of seen_data is damaged" in told or "row 1 of seen_data is damaged" in told


@pytest.mark.parametrize("is_read", [False, True], ids=["fresh", "read"])
@pytest.mark.parametrize("schema", SCHEMAS)
def test_a_shadow_table_of_others(schema, is_read, tmp_path):
    """In a connection that opens the filter then, and in one that has read its head before."""
    path, refused = tmp_path / "db", SCHEMAS[schema]
    asked = [*READS.items(), *INSERTS.items()]
    if is_read:
        told = run(path, MADE, schema, *(statement for statement, _ in asked))[2:]
    else:
        run(path, MADE, schema)
        told = run(path, *(statement for statement, _ in asked))
    for (statement, wanted), found in zip(asked, told):
        if refused == ALL or (refused == WRITES and statement in INSERTS):
            assert is_refused(found), (statement, found)
        else:
            assert found == wanted or (refused == EITHER and is_refused(found)), (statement, found)
    dropped = "DROP TABLE seen; SELECT count(*) FROM sqlite_schema WHERE name LIKE 'seen%'"
    assert run(path, dropped) == ["0"]
