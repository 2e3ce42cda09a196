"""Tables in databases: transactions, connections, copies, damage and crashes."""

import json
import os
import random
import signal
import sqlite3
import subprocess
import sys
import time

import pytest
from conftest import EXTENSION, connect

ITEMS = [f"k{number}" for number in range(2000)]


def shell(path, text):
    """What the program sqlite3 prints, and its errors."""
    done = subprocess.run(
        ["sqlite3", "-batch", str(path)], input=text, text=True, capture_output=True, check=False
    )
    return done.stdout, done.stderr


def found(db, items, table="seen"):
    return sum(db.has(item, table) for item in items)


# A statement that is undone in a transaction, and what has to be there inside and afterwards, and
# what not. 'old' was inserted before.
UNDONE = [
    ("INSERT INTO seen(item) VALUES('new')", "new", ""),
    ("INSERT INTO seen(file) SELECT bloom('new', 1000, '1/1000')", "new", ""),
    ("INSERT INTO t VALUES('new', 1)", "new", ""),
    ("DROP TABLE seen; CREATE VIRTUAL TABLE seen USING bloom(items=9, rate='1/9')", "", "old"),
    ("ALTER TABLE seen RENAME TO other; ALTER TABLE other RENAME TO seen", "old", ""),
]


@pytest.mark.parametrize("way", ["ROLLBACK", "ROLLBACK TO a; RELEASE a; COMMIT"])
@pytest.mark.parametrize("sql, inside, gone", UNDONE)
def test_what_is_undone_leaves_nothing(db, way, sql, inside, gone):
    db.insert("old")
    db.execute("CREATE TABLE t(k, n CHECK(n < 3))")
    db.execute("CREATE TRIGGER g AFTER INSERT ON t BEGIN INSERT INTO seen(item) VALUES(NEW.k); END")
    before = db.file()
    db.run(f"BEGIN; SAVEPOINT a; {sql}")
    assert all(db.has(item) for item in inside.split()) and not any(map(db.has, gone.split()))
    db.run(way)
    assert db.file() == before and db.has("old") and not db.has("new")
    db.insert("new")
    assert db.has("new")


def test_savepoints_are_undone_one_by_one(db):
    db.run("BEGIN; INSERT INTO seen VALUES('a'); SAVEPOINT one; INSERT INTO seen VALUES('b')")
    db.run("SAVEPOINT two; INSERT INTO seen VALUES('c'); ROLLBACK TO two")
    assert found(db, "abc") == 2 and not db.has("c")
    db.run(
        "INSERT INTO seen VALUES('d'); RELEASE two; ROLLBACK TO one; INSERT INTO seen VALUES('e')"
    )
    assert found(db, "ae") == 2 and found(db, "bcd") == 0
    db.execute("COMMIT")
    assert found(db, "ae") == 2 and found(db, "bcd") == 0


def test_a_rename_that_is_undone(db):
    db.insert("old")
    db.run("BEGIN; ALTER TABLE seen RENAME TO \"we \"\"ird\"; ")
    assert db.has("old", '"we ""ird"') and db.insert("new", into='"we ""ird"') == 1
    db.execute("ROLLBACK")
    assert db.has("old") and not db.has("new")
    db.run("ALTER TABLE seen RENAME TO \"we \"\"ird\"")
    assert db.one("""SELECT group_concat(name) FROM sqlite_schema""") == 'we "ird,we "ird_data'
    assert db.insert("new", into='"we ""ird"') == 1
    assert db.refuses("a filter answers only", 'SELECT * FROM "we ""ird"')
    db.execute('DROP TABLE "we ""ird"')
    assert db.one("SELECT count(*) FROM sqlite_schema") == 0


def test_a_rename_that_fails_says_why(db):
    db.insert("old")
    db.execute("CREATE TABLE other_data(k)")
    assert db.refuses("other_data", "ALTER TABLE seen RENAME TO other")
    assert db.has("old") and db.insert("new") == 1
    db.execute("DROP TABLE other_data")
    db.execute("DROP TABLE seen_data")
    assert db.refuses("no such table: main.seen_data", "ALTER TABLE seen RENAME TO other")
    db.execute("CREATE VIEW seen_data AS SELECT 1 AS page")
    assert db.refuses("view seen_data may not be altered", "ALTER TABLE seen RENAME TO other")
    names = "SELECT group_concat(name) FROM sqlite_schema"
    assert db.one(names) == "seen,seen_data"
    db.execute("DROP TABLE seen")
    assert db.one(names) is None


def test_a_shadow_table_of_a_module_that_is_missing(tmp_path):
    """The filter is dropped, and what isn't its own stays."""
    db = connect(tmp_path / "db")
    db.create()
    db.execute("DROP TABLE seen_data")
    db.execute("PRAGMA writable_schema = ON")
    made = "CREATE VIRTUAL TABLE seen_data USING missing(page)"
    db.execute("INSERT INTO sqlite_schema VALUES('table', 'seen_data', 'seen_data', 0, ?)", (made,))
    db.close()
    db = connect(tmp_path / "db")
    assert db.refuses("row 0 of seen_data is damaged", "SELECT info FROM seen")
    assert db.refuses("no such module: missing", "ALTER TABLE seen RENAME TO other")
    db.execute("DROP TABLE seen")
    assert db.one("SELECT group_concat(name) FROM sqlite_schema") == "seen_data"
    again = "CREATE VIRTUAL TABLE seen USING bloom(items=9, rate='1/9')"
    assert db.refuses("seen_data", again)
    db.close()


def test_repeated_arguments_of_a_table_that_is_there(tmp_path):
    """The last of them counts, as it did when the table was made."""
    db = connect(tmp_path / "db")
    db.create()
    db.insert("a")
    db.execute("PRAGMA writable_schema = ON")
    db.execute("UPDATE sqlite_schema SET sql = replace(sql, '(items', '(items=5, items')")
    db.close()
    db = connect(tmp_path / "db")
    assert db.has("a") and db.one("SELECT info ->> 'items' FROM seen") == 1000
    db.close()


def test_statements_that_look_up_at_once():
    """One goes on where it was when others change the filter, are undone, or are refused."""
    db = connect()
    db.create(items=10000)
    db.insert(*ITEMS)
    looks = "SELECT value FROM json_each(?) WHERE EXISTS(SELECT 1 FROM seen WHERE item = value)"
    one, two = (db.execute(looks, (json.dumps(ITEMS),)) for _ in "12")
    assert (next(one), next(two)) == (("k0",), ("k0",))
    for place, change in enumerate(("INSERT INTO seen(item) VALUES('new')", "CREATE TABLE t(k)")):
        db.run(f"BEGIN; {change}")
        assert next(one) == (f"k{2 * place + 1}",)
        db.execute("ROLLBACK")
        assert next(one) == (f"k{2 * place + 2}",) and not db.has("new")
    assert len(two.fetchall()) == len(ITEMS) - 1
    db.execute("DELETE FROM seen_data WHERE page = 2")
    gone = [it for it in ITEMS if db.refuses("row 2 of", "SELECT 1 FROM seen WHERE item = ?", it)]
    there = [it for it in ITEMS if it not in gone]
    two = db.execute(looks, (json.dumps(there),))
    assert next(two) == (there[0],) and gone
    assert db.refuses("row 2 of", looks, json.dumps(gone))
    assert two.fetchall() == [(it,) for it in there[1:]]
    one.close()
    db.execute("DROP TABLE seen")
    db.close()


def test_a_statement_that_fails_midway_is_undone(db):
    db.execute("CREATE TABLE t(k, n CHECK(n < 3))")
    db.execute("CREATE TRIGGER g AFTER INSERT ON t BEGIN INSERT INTO seen(item) VALUES(NEW.k); END")
    for begin, end in (("SELECT 1", "SELECT 1"), ("BEGIN", "COMMIT")):
        db.execute(begin)
        assert db.refuses("CHECK", "INSERT INTO t VALUES('a', 1), ('b', 2), ('c', 3)")
        db.execute(end)
        assert found(db, "abc") == 0
    for values in (
        "VALUES('a'), (abs(-9223372036854775807 - 1))",
        "SELECT 'b' UNION SELECT zeroblob(2e9)",
    ):
        db.execute("BEGIN")
        assert db.refuses("", f"INSERT INTO seen(item) {values}")
        db.execute("COMMIT")
        assert found(db, "ab") == 0
    db.execute("INSERT OR IGNORE INTO t VALUES('d', 1), ('e', 9), ('f', 2), ('d', 1)")
    assert db.has("d") and db.has("f") and not db.has("e")
    # What the filter leaves out isn't left out of the table.
    assert db.one("SELECT count(*) FROM t") == 3
    db.execute("INSERT INTO t VALUES('g', 1), (NULL, 1)")
    assert db.execute("SELECT last_insert_rowid(), changes()").fetchone() == (5, 2)


@pytest.mark.parametrize("size", [512, 1024, 4096, 16384, 65536])
def test_page_sizes(size, tmp_path):
    """The file is the same, and each row fits a page of the usual size."""
    db = connect(tmp_path / "db")
    db.execute(f"PRAGMA page_size = {size}")
    db.create(items=10000)
    assert db.insert(*ITEMS) == len(ITEMS)
    assert found(db, ITEMS) == len(ITEMS)
    other = connect()
    other.create(items=10000)
    other.insert(*ITEMS)
    assert db.file() == other.file() and db.one("PRAGMA integrity_check") == "ok"
    rows = db.one("SELECT count(*) FROM seen_data")
    pages = os.path.getsize(tmp_path / "db") / size
    assert size != 4096 or pages == rows + 2


def test_two_connections(tmp_path):
    one, two = connect(tmp_path / "db"), connect(tmp_path / "db", timeout=0.1)
    one.execute("PRAGMA journal_mode = WAL")
    one.create()
    assert not two.has("a")
    one.execute("BEGIN IMMEDIATE")
    one.insert("a")
    assert one.has("a") and not two.has("a")
    assert two.refuses("locked", "INSERT INTO seen(item) VALUES('b')")
    two.execute("BEGIN")
    assert not two.has("a")
    one.execute("COMMIT")
    # It still reads what was there when it began, and may not write over what came since.
    assert not two.has("a") and two.one("SELECT bloom_in('seen', 'a')") == 0
    assert two.refuses("locked", "INSERT INTO seen(item) VALUES('b')")
    two.execute("COMMIT")
    assert two.has("a") and two.insert("b") == 1 and one.has("a") and one.has("b")
    one.execute("DROP TABLE seen")
    one.create(items=50)
    assert one.insert("c") == 1 and two.has("c") and not two.has("a")
    assert two.insert("d") == 1 and one.has("d") and len(two.file()) == len(one.file())
    two.close()
    one.execute("PRAGMA journal_mode = DELETE")
    two = connect(tmp_path / "db", timeout=0.1)
    one.execute("BEGIN EXCLUSIVE")
    for sql in ("SELECT bloom_in('seen', 'c')", "SELECT 1 FROM seen WHERE item = 'c'"):
        with pytest.raises(sqlite3.OperationalError) as refused:
            two.execute(sql).fetchall()
        assert refused.value.sqlite_errorcode == sqlite3.SQLITE_BUSY


def test_attached_databases(tmp_path, db):
    other = connect(tmp_path / "db")
    other.create(items=50)
    other.close()
    db.execute("ATTACH ? AS o", (str(tmp_path / "db"),))
    assert db.insert("a", into="o.seen") == 1 and db.has("a", "o.seen") and not db.has("a")
    assert db.execute("SELECT bloom_in('o.seen', 'a'), bloom_in('seen', 'a')").fetchone() == (1, 0)
    db.create("o.more")
    assert db.insert("b", into="more") == 1
    assert db.one("SELECT count(*) FROM o.sqlite_schema WHERE name = 'more_data'") == 1
    db.create("temp.seen", items=50)
    assert (
        db.insert("c", into="seen") == 1
        and db.has("c", "temp.seen")
        and not db.has("c", "main.seen")
    )
    assert db.one("SELECT bloom_in('temp.seen', 'c') + bloom_in('seen', 'c')") == 2


def test_copies(tmp_path):
    path = tmp_path / "db"
    db = connect(path)
    db.create()
    db.insert(*ITEMS[:500])
    file = db.file()
    db.execute("VACUUM")
    assert db.file() == file
    db.execute("VACUUM INTO ?", (str(tmp_path / "into"),))
    with connect(tmp_path / "backup") as backup:
        backup.create(items=50)
        assert backup.insert("z") == 1
        db.backup(backup)
        assert backup.file() == file and not backup.has("z")
    dumped = shell(path, f".load {EXTENSION}\n.dump")[0]
    assert dumped == shell(path, ".dump")[0]
    shell(tmp_path / "with", f".load {EXTENSION}\n{dumped}")
    shell(tmp_path / "without", dumped)
    for name in ("into", "backup", "with", "without"):
        with connect(tmp_path / name) as copy:
            assert copy.file() == file and copy.insert("another") == 1 and copy.has("another")
    # The rows are the file, but for the seal.
    rows = sqlite3.connect(path).execute("SELECT bits FROM seen_data ORDER BY page")
    bits = b"".join(row[0] for row in rows)
    assert (bits[:40], bits[40:48], bits[48:]) == (file[:40], bytes(8), file[48:])


def test_read_only(tmp_path):
    db = connect(tmp_path / "db")
    db.create()
    db.insert("a")
    db.close()
    db = connect(f"file:{tmp_path / 'db'}?mode=ro", uri=True)
    assert db.has("a") and not db.has("b") and len(db.file()) > 64
    assert db.refuses("readonly", "INSERT INTO seen(item) VALUES('b')")
    db.close()
    db = connect(tmp_path / "db")
    db.execute("PRAGMA query_only = ON")
    assert db.refuses("readonly", "INSERT INTO seen(item) VALUES('b')") and db.has("a")


def test_defensive_mode():
    told, errors = shell(
        ":memory:",
        f""".load {EXTENSION}
.dbconfig defensive on
.dbconfig trusted_schema off
CREATE VIRTUAL TABLE seen USING bloom(items=1000, rate='1/1000');
INSERT INTO seen(item) VALUES('a');
SELECT item FROM seen WHERE item IN ('a', 'b');
UPDATE seen_data SET bits = x'';
DROP TABLE seen_data;
ALTER TABLE seen RENAME TO other;
INSERT INTO other(file) SELECT bloom('c', 1000, '1/1000');
SELECT item FROM other WHERE item IN ('a', 'b', 'c');
DROP TABLE other;
SELECT count(*) FROM sqlite_schema;
""",
    )
    assert [line for line in told.splitlines() if " on" not in line and " off" not in line] == list(
        "aac0"
    )
    assert errors.count("table seen_data may not be modified") == 1
    assert errors.count("table seen_data may not be dropped") == 1 and errors.count("error") == 2


CHANGED = "CAST(substr(bits, 1, {}) || x'{}' || substr(bits, {}) AS BLOB)"
# What a hand does to the rows, and which row is told as damaged: of 46, of which 45 have lines.
DAMAGES = {
    "UPDATE seen_data SET bits = substr(bits, 1, 100) WHERE page > 0": "",
    "DELETE FROM seen_data WHERE page > 0": "",
    "DELETE FROM seen_data WHERE page = 0": "0",
    "UPDATE seen_data SET bits = zeroblob(64) WHERE page = 0": "0",
    "UPDATE seen_data SET bits = substr(bits, 1, 63) WHERE page = 0": "0",
    "UPDATE seen_data SET bits = 5": "0",
    "UPDATE seen_data SET bits = NULL WHERE page > 0": "",
    "UPDATE seen_data SET bits = bits || x'00' WHERE page > 0": "",
    "UPDATE seen_data SET page = page + 100 WHERE page > 0": "",
    "DROP TABLE seen_data": "0",
    "ALTER TABLE seen_data RENAME bits TO bats": "0",
    f"UPDATE seen_data SET bits = {CHANGED.format(8, 'ffffffff00000000', 17)} WHERE page = 0": "0",
    f"UPDATE seen_data SET bits = {CHANGED.format(16, 'f8ffffffffffff03', 25)} WHERE page = 0": "0",
}
ASKED = [
    "SELECT info FROM seen",
    "SELECT file FROM seen",
    "SELECT 1 FROM seen WHERE item IN ('k', 'a', 'b', 'c')",
    "SELECT bloom_in('seen', 'k')",
    "INSERT INTO seen(item) VALUES('k')",
    "INSERT INTO seen(item) VALUES('never before')",
]


@pytest.mark.parametrize("damage, row", DAMAGES.items())
def test_damaged_rows_are_refused_by_name(tmp_path, damage, row):
    db = connect(tmp_path / "db")
    db.create(items=100000)
    db.insert("k")
    db.execute(damage)
    db.close()
    db = connect(tmp_path / "db")
    for sql in ASKED:
        assert db.refuses(f"bloom: row {row}", sql) and db.refuses("of seen_data is damaged", sql)
    db.execute("DROP TABLE seen")
    assert db.one("SELECT count(*) FROM sqlite_schema") == 0
    db.create()
    assert db.insert("k") == 1


def test_one_row_that_is_missing(tmp_path):
    """An item whose line is there is found, and the others are refused, but never absent."""
    db = connect(tmp_path / "db")
    db.create(items=10000)
    db.insert(*ITEMS)
    db.execute("DELETE FROM seen_data WHERE page = 2")
    query = "SELECT 1 FROM seen WHERE item = ?"
    refused = 0
    for item in ITEMS:
        try:
            assert db.execute(query, (item,)).fetchall() == [(1,)]
        except sqlite3.DatabaseError as error:
            assert "row 2 of seen_data is damaged" in str(error)
            refused += 1
    assert 0.1 < refused / len(ITEMS) < 0.5
    # A file is refused whole, and nothing of it is kept.
    other = connect()
    other.create(items=10000)
    other.insert(*range(1000))
    rows = "SELECT group_concat(hex(bits)) FROM seen_data"
    before = db.one(rows)
    db.execute("BEGIN")
    assert db.refuses("row 2 of", "INSERT INTO seen(file) VALUES(?)", other.file())
    db.execute("COMMIT")
    assert db.one(rows) == before


WRITER = """
import sys
sys.path.insert(0, {folder!r})
from conftest import connect
db = connect({path!r})
db.execute("PRAGMA journal_mode = {mode}")
db.execute("PRAGMA cache_size = 20")
db.execute("PRAGMA synchronous = OFF")
db.execute("CREATE TABLE t(k)")
db.create(items=100000)
db.execute("CREATE TRIGGER g AFTER INSERT ON t BEGIN INSERT INTO seen(item) VALUES(NEW.k); END")
count = 0
while True:
    with db:
        db.execute("BEGIN")
        db.executemany("INSERT INTO t VALUES(?)", [(f"k{{count + it}}",) for it in range(500)])
    count += 500
    print(count, flush=True)
"""


@pytest.mark.parametrize("mode", ["DELETE", "WAL"])
def test_a_process_that_is_killed(mode, tmp_path):
    """What was committed is found, and no bit is there of what wasn't."""
    for turn in range(10):
        path = str(tmp_path / f"{mode}{turn}")
        code = WRITER.format(folder=os.path.dirname(__file__), path=path, mode=mode)
        with subprocess.Popen([sys.executable, "-c", code], stdout=-1, text=True) as process:
            told = [process.stdout.readline()]
            time.sleep(random.Random(turn).random() / 4)
            process.send_signal(signal.SIGKILL)
            told += process.stdout.readlines()
        db = connect(path)
        count = db.one("SELECT count(*) FROM t")
        assert count % 500 == 0 and count >= int([it for it in told if it.endswith("\n")][-1])
        assert db.one("SELECT count(*) FROM t WHERE NOT bloom_in('seen', k)") == 0
        assert db.one("PRAGMA integrity_check") == "ok"
        assert db.file() == db.one("SELECT bloom(k, 100000, '1/1000') FROM t")
        db.close()
