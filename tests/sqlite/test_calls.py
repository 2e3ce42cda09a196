"""What statements and functions return and refuse."""

import json
import random
import sqlite3
import subprocess

import pytest
from conftest import KEY, TOP, connect, model_file, model_hash, read_model

MODEL = read_model()
BLOOM = "CREATE VIRTUAL TABLE made USING bloom"
NAMES = [f"item{number}" for number in range(1000)]
# Items of each kind, and the bytes whose hash they have.
ITEMS = [
    ("crab", b"crab"),
    ("", b""),
    (b"", b""),
    ("a\0b", b"a\0b"),
    (b"\xff\x00", b"\xff\x00"),
    ("é", "é".encode()),
    (5, b"5"),
    (-1, b"-1"),
    (2**63 - 1, b"9223372036854775807"),
    (-(2**63), b"-9223372036854775808"),
    (5.0, b"5"),
    (-0.0, b"0"),
    (-(2.0**63), b"-9223372036854775808"),
    (2.0**63, bytes.fromhex("000000000000e043")),
    (-1e300, bytes.fromhex("9c7500883ce437fe")),
    (2.5, bytes.fromhex("0000000000000440")),
    (float("inf"), bytes.fromhex("000000000000f07f")),
]


@pytest.mark.parametrize("encoding", ["UTF-8", "UTF-16le", "UTF-16be"])
def test_items_are_hashed_by_their_bytes(encoding):
    for item, text in ITEMS:
        db = connect()
        db.execute(f"PRAGMA encoding = '{encoding}'")
        db.create(items=10)
        model = MODEL.Blocked(1, int.from_bytes(db.file()[8:16], "little"))
        assert len(db.file()) == 64 + 64 and not db.has(item)
        assert db.insert(item) == 1 and db.has(item) and db.insert(item) == 0
        model.insert(model_hash(MODEL, text))
        assert db.file() == model_file(MODEL, model), item
        assert db.one("SELECT bloom(?, 10, '1/1000')", item) == db.file()
        assert db.one("SELECT bloom_contains(?, ?)", db.file(), item) == 1
        assert db.one("SELECT bloom_in('seen', ?)", item) == 1
        assert db.one("SELECT item FROM seen WHERE item IN ('no', ?)", item) == item
        db.close()


def test_null_is_never_in(db):
    empty = db.file()
    assert db.insert(None) == 0 and db.file() == empty
    db.execute("INSERT INTO seen(item) VALUES(NULL)")
    assert db.file() == empty and not db.has(None)
    assert db.one("SELECT bloom_in('seen', NULL)") == 0
    assert db.one("SELECT bloom_contains(?, NULL)", empty) == 0
    assert db.one("SELECT bloom(NULL, 1000, '1/1000')") == empty
    for sql in (
        "SELECT bloom_contains(NULL, 1)",
        "SELECT bloom_in(NULL, 1)",
        "SELECT bloom(1, 1000, '1/1000') WHERE 1 = 0",
    ):
        assert db.one(sql) is None


def test_drawn_sessions_are_those_of_the_model():
    """Replies of inserts and look-ups by all ways, and whole files, in filters of several rows."""
    for session in range(24):
        draw = random.Random(session)
        key = bytes(draw.randrange(256) for _ in range(16))
        db = connect()
        items = draw.choice([1, 50, 700, 4000, 9000])
        db.create(items=items, key=key.hex() if session % 2 else key.hex().upper())
        head = db.file()[:64]
        words = int.from_bytes(head[16:24], "little")
        model = MODEL.Blocked(words // 8, int.from_bytes(head[8:16], "little"))
        for _ in range(300):
            item = draw.randrange(400)
            source = model_hash(MODEL, str(item).encode(), key)
            way = draw.randrange(5)
            if way == 0:
                assert db.insert(item) == (not model.insert(source))
            elif way == 1:
                db.execute("INSERT INTO seen(item) VALUES(?)", (str(item),))
                model.insert(source)
            elif way == 2:
                some = [draw.randrange(400) for _ in range(20)]
                for it in some:
                    model.insert(model_hash(MODEL, str(it).encode(), key))
                db.execute(
                    "INSERT INTO seen(file) SELECT bloom(value, ?, '1/1000', ?) FROM json_each(?)",
                    (items, key, json.dumps(some)),
                )
            elif way == 3:
                assert db.has(item) == model.contains(source)
            else:
                assert db.one("SELECT bloom_in('main.seen', ?)", item) == model.contains(source)
        assert db.file() == model_file(MODEL, model, key)
        db.close()


def test_files_are_those_of_the_library(db):
    fastbloom = pytest.importorskip("fastbloom")
    filter = fastbloom.BlockedFilter(1000, "1/1000")
    filter.update(NAMES)
    db.insert(*NAMES)
    assert db.file() == filter.to_bytes()
    made = db.execute("SELECT bloom(value, 1000, '1/1000') FROM json_each(?)", (json.dumps(NAMES),))
    assert made.fetchone()[0] == filter.to_bytes()
    plain = fastbloom.Filter(1000, "1/1000").to_bytes()
    assert db.refuses("the file's filter isn't blocked", "SELECT bloom_contains(?, 1)", plain)


@pytest.mark.parametrize("items, count", [(1, 1), (9, 9), (9, 99), (1000, 7), (50000, 90000)])
def test_info_is_that_of_the_library(items, count):
    fastbloom = pytest.importorskip("fastbloom")
    filter = fastbloom.BlockedFilter(items, "1/1000")
    db = connect()
    db.create(items=items)
    for inserted in {count // 3, count}:
        names = [str(number) for number in range(inserted)]
        filter.update(names)
        db.insert(*names)
        info = json.loads(db.one("SELECT info FROM seen"))
        rate = float(filter.exact_false_positive_rate()[1])
        low, high = filter.estimate()
        assert low <= info["estimate"] <= high and info["rate"] == pytest.approx(rate, rel=1e-5)
    db.close()


def test_files_are_those_of_summaries(db):
    summaries = TOP / "crates/summaries/out/summaries"
    if not summaries.exists():
        pytest.skip("the program summaries isn't built")
    words = [summaries, "build", "--items", "1000", "--rate", "1/1000", "--blocked"]
    made = subprocess.run(words, input="\n".join(NAMES).encode(), stdout=-1, check=True).stdout
    db.insert(*NAMES)
    assert db.file() == made
    db.create("other")
    db.execute("INSERT INTO other(file) VALUES(?)", (made,))
    assert db.file("other") == made


def test_inserts_tell_what_is_new(db):
    assert db.execute("INSERT OR IGNORE INTO seen VALUES('a'),('b'),('a')").rowcount == 2
    assert db.execute("INSERT INTO seen(item) VALUES('a'),('c')").rowcount == 2
    assert db.insert("a", "b", "c", "d") == 1
    db.execute("CREATE TABLE t(k)")
    db.execute("INSERT INTO t(rowid) VALUES(77)")
    assert db.insert("e") == 1 and db.one("SELECT last_insert_rowid()") == 77
    for word in ("REPLACE", "FAIL", "ABORT", "ROLLBACK"):
        assert db.execute(f"INSERT OR {word} INTO seen VALUES('a')").rowcount == 1
    # A file isn't left out where all of it is there.
    assert db.execute("INSERT OR IGNORE INTO seen(file) SELECT file FROM seen").rowcount == 1


def test_returning_has_what_is_left_out(db):
    """SQLite makes these rows before it inserts."""
    db.insert("a")
    returned = db.execute("INSERT OR IGNORE INTO seen VALUES('a'), ('b'), (NULL) RETURNING item")
    assert returned.fetchall() == [("a",), ("b",), (None,)]
    assert db.one("SELECT changes()") == 1


# What finds 'crab' and 5 alone, among rows of which the others are 'no' and NULL.
FINDS = [
    "SELECT k FROM t WHERE EXISTS(SELECT 1 FROM seen WHERE item = k)",
    "SELECT k FROM t WHERE EXISTS(SELECT 1 FROM seen WHERE item IS k)",
    "SELECT item FROM seen WHERE item IN (SELECT k FROM t)",
    "SELECT item FROM seen WHERE item IN ('no', 'crab', 5, NULL) ORDER BY 1 DESC",
    "SELECT item FROM seen WHERE item = 'crab' OR item = 5 OR item = 'no'",
    "SELECT item FROM seen WHERE item IN ('crab', 'no') OR item = 5",
    "SELECT item FROM seen WHERE item = 'crab' OR item IS 5",
    "SELECT k FROM t JOIN seen ON item = k",
    "SELECT k FROM seen JOIN t ON item = k",
    "SELECT item FROM (SELECT 'crab' AS a, 5 AS b) JOIN seen ON item = a OR item = b",
    "SELECT k FROM t LEFT JOIN seen ON item = k WHERE item IS NOT NULL",
    "SELECT k FROM t EXCEPT SELECT k FROM t WHERE NOT bloom_in('seen', k)",
    "SELECT k FROM t WHERE bloom_in('seen', k)",
    "SELECT k FROM t WHERE bloom_in(lower('SEEN'), k)",
    "SELECT k FROM t WHERE bloom_contains((SELECT file FROM seen), k)",
    "SELECT k FROM t, (SELECT file AS f FROM seen) WHERE bloom_contains(f, k)",
    "SELECT k FROM t, json_each('[\"seen\", \"main.seen\"]') WHERE bloom_in(value, k) GROUP BY k "
    "HAVING count(*) = 2 ORDER BY 1 DESC",
    "SELECT k FROM t WHERE NOT NOT EXISTS(SELECT 1 FROM seen WHERE item = +k COLLATE BINARY)",
]


@pytest.mark.parametrize("sql", FINDS)
def test_queries_find_what_was_inserted(db, sql):
    db.execute("CREATE TABLE t(k)")
    db.execute("INSERT INTO t VALUES('crab'), ('no'), (5), (NULL)")
    db.insert("crab", "5")
    found = sorted((str(row[0]) for row in db.execute(sql)), reverse=True)
    assert found == ["crab", "5"]


REFUSED = {
    "a filter answers only WHERE item = ..": [
        "SELECT * FROM seen",
        "SELECT count(*) FROM seen",
        "SELECT 1 FROM seen",
        "SELECT item FROM seen WHERE item > 'a'",
        "SELECT item FROM seen WHERE item LIKE 'a%'",
        "SELECT k FROM t WHERE k IN (SELECT item FROM seen)",
        "SELECT k FROM t EXCEPT SELECT item FROM seen",
        "DELETE FROM seen",
        "UPDATE seen SET item = 1",
    ],
    "can't delete or change an item: make the table anew": [
        "DELETE FROM seen WHERE item = 'crab'",
        "UPDATE seen SET item = 'x' WHERE item = 'crab'",
    ],
    "only WHERE item = .. COLLATE BINARY": [
        "SELECT 1 FROM seen WHERE item = 'CRAB' COLLATE NOCASE",
        "SELECT 1 FROM t WHERE EXISTS(SELECT 1 FROM seen WHERE nocase = item)",
    ],
    "no query solution": ["SELECT 1 FROM seen a, seen b WHERE a.item = b.item"],
    "insert an item or a file": [
        "INSERT INTO seen(item, file) SELECT 1, file FROM seen",
        "INSERT INTO seen(info) VALUES('x')",
    ],
    "not a filter": [
        "INSERT INTO seen(file) VALUES('text')",
        "INSERT INTO seen(file) VALUES(zeroblob(128))",
        "SELECT bloom_contains('text', 1)",
        "SELECT bloom_contains(5, 1)",
        "SELECT bloom_contains(x'', 1)",
        "SELECT bloom_contains(zeroblob(63), 1)",
        "SELECT bloom_contains(substr(file, 1, 63), 1) FROM seen",
        "SELECT bloom_contains(CAST(file AS TEXT), 1) FROM seen",
    ],
    "the file is cut": [
        "SELECT bloom_contains(substr(file, 1, length(file) - 1), 1) FROM seen",
        "INSERT INTO seen(file) SELECT substr(file, 1, 64) FROM seen",
    ],
    "goes on after its last word": [
        "SELECT bloom_contains(CAST(file || 'x' AS BLOB), 1) FROM seen",
    ],
    "the seal is wrong": [
        "SELECT bloom_contains(CAST(substr(file, 1, 99) || 'x' || substr(file, 101) AS BLOB), 1) "
        "FROM seen",
        "INSERT INTO seen(file) "
        "SELECT CAST(substr(file, 1, 99) || 'x' || substr(file, 101) AS BLOB) FROM seen",
    ],
    "more hashes than are allowed": [
        "SELECT bloom_contains(CAST(substr(file, 1, 8) || x'41' || substr(file, 10) AS BLOB), 1) "
        "FROM seen",
    ],
    "other items, another rate or another key": [
        "INSERT INTO seen(file) SELECT bloom(k, 2000, '1/1000') FROM t",
        "INSERT INTO seen(file) SELECT bloom(k, 1000, '1/9999') FROM t",
        # as many words, and another number of hashes
        "INSERT INTO seen(file) SELECT bloom(k, 905, '1/2000') FROM t",
    ],
    "another key": [
        "INSERT INTO seen(file) SELECT bloom(k, 1000, '1/1000', zeroblob(15) || x'01') FROM t",
    ],
    "the key is a BLOB of 16 bytes": [
        "SELECT bloom(1, 10, '1/10', x'00')",
        "SELECT bloom(1, 10, '1/10', '')",
        "SELECT bloom(1, 10, '1/10', NULL)",
    ],
    "the number of items is": [
        *(f"SELECT bloom(1, {items}, '1/10')" for items in ("0", "-5", "'x'", "1.5", "NULL")),
        *(f"{BLOOM}(items={items}, rate='1/10')" for items in ("", "0", "-1", "1e3", "2" * 20)),
        f"{BLOOM}(rate='1/10')",
        BLOOM,
    ],
    "the rate is a text like '1/1000'": [
        *(
            f"SELECT bloom(1, 10, {rate})"
            for rate in ("NULL", "0.5", "2", "'1/10x'", "'0/1'", "'1/0'", "'2/1'", "'1/1'", "'/9'")
        ),
        *(f"{BLOOM}(items=9, rate={rate})" for rate in ("", "1/", "'1'", "'1/0'", "1/" + "9" * 20)),
        f"{BLOOM}(items=9)",
    ],
    "write bloom(items=N, ": [
        *(f"{BLOOM}(items=9, rate='1/9', {it})" for it in ("foo=1", "key=0", "key=", "random")),
        f"{BLOOM}(items=9, rate='1/9', key='{'0' * 31}g')",
        f"{BLOOM}(items=9, rate='1/9', key='{'0' * 33}')",
        f"{BLOOM}(items=9, rate=1/{'1' * 80})",
    ],
    "an argument is repeated": [
        f"{BLOOM}(items=9, rate='1/9', items=9)",
        f"{BLOOM}(rate='1/9', items=9, RATE='1/10')",
        f"{BLOOM}(items=9, rate='1/9', key='{'0' * 32}', key='{'1' * 32}')",
        f"{BLOOM}(key=random, items=9, rate='1/9', key='{'0' * 32}')",
    ],
    "size too large": [
        f"{BLOOM}(items={2**63 - 1}, rate='1/10')",
        f"SELECT bloom(1, {2**63 - 1}, '1/10')",
    ],
    "more than 64 GiB": [
        f"{BLOOM}(items={10**12}, rate='1/10')",
        f"SELECT bloom(1, {10**12}, '1/10')",
    ],
    "too many words": [
        "SELECT bloom_contains(CAST(substr(file, 1, 16) || x'0800000002000000' "
        "|| substr(file, 25) AS BLOB), 1) FROM seen",
    ],
    "table t already exists": ["CREATE VIRTUAL TABLE t USING bloom(items=9, rate='1/9')"],
    "may not be used as a window function": ["SELECT bloom(k, 9, '1/9') OVER () FROM t"],
    "no such table": ["SELECT bloom_in('none', 1)", "SELECT bloom_in('none.seen', 1)"],
    "no such column": ["SELECT bloom_in('t', 1)"],
    "no more rows": ["SELECT bloom_in('f', 1)"],
}


@pytest.mark.parametrize(
    "text, sql", [(text, sql) for text, statements in REFUSED.items() for sql in statements]
)
def test_refusals_say_what_to_do(db, text, sql):
    db.insert("crab")
    db.execute("CREATE TABLE t(k, nocase TEXT COLLATE NOCASE)")
    db.execute("CREATE TABLE f(file)")
    db.execute("INSERT INTO t VALUES('crab', 'CRAB')")
    before = db.file()
    assert db.refuses(text, sql)
    assert db.file() == before
    assert db.one("SELECT count(*) FROM sqlite_schema") == 4


def test_a_file_that_differs_by_row_is_checked_in_each(db):
    """Files at every address, the last of which has another byte."""
    db.execute("CREATE TABLE files(pad, file)")
    for length in range(9):
        db.execute("INSERT INTO files SELECT ?, bloom('in', 10, '1/100')", ("x" * length,))
    query = "SELECT bloom_contains(file, 'in'), bloom_contains(file, 'out') FROM files"
    assert db.execute(query).fetchall() == [(1, 0)] * 9
    changed = "CAST(substr(file, 1, 99) || 'x' || substr(file, 101) AS BLOB)"
    db.execute(f"INSERT INTO files SELECT 1, {changed} FROM files")
    assert db.refuses("the seal is wrong", query)
    db.execute(f"CREATE TABLE other AS SELECT {changed} AS file FROM seen")
    assert db.refuses("the seal is wrong", "SELECT bloom_in('other', 'in')")


def test_files_that_others_may_make(db):
    """A file without a seal, and one with as many hashes as are allowed."""
    db.insert("in")
    unsealed = db.file()[:40] + bytes(8) + db.file()[48:]
    db.create("other")
    db.execute("INSERT INTO other(file) VALUES(?)", (unsealed,))
    assert db.file("other") == db.file() and db.one("SELECT bloom_contains(?, 'in')", unsealed) == 1
    model = MODEL.Blocked(1, 64)
    model.insert(model_hash(MODEL, b"in"))
    query = "SELECT bloom_contains(?1, 'in'), bloom_contains(?1, 'out')"
    assert db.execute(query, (model_file(MODEL, model),)).fetchone() == (1, 0)


def test_info_tells_items_estimate_and_rate():
    db = connect()
    db.create(items=20000)
    assert json.loads(db.one("SELECT info FROM seen")) == {
        "items": 20000,
        "estimate": 0,
        "rate": 0,
    }
    for count in (1, 2000, 20000, 60000):
        db.execute("DROP TABLE seen")
        db.create(items=20000)
        db.insert(*range(count))
        info = json.loads(db.one("SELECT info FROM seen"))
        assert abs(info["estimate"] - count) < 0.01 * count + 2
        # The rate is the mean of the lines', each of which is told by its set bits.
        file = db.file()
        hashes = int.from_bytes(file[8:16], "little")
        lines = [file[at : at + 64] for at in range(64, len(file), 64)]
        ones = [bin(int.from_bytes(line, "little")).count("1") for line in lines]
        rate = sum((set_bits / 512) ** hashes for set_bits in ones) / len(lines)
        assert info["rate"] == pytest.approx(rate, rel=1e-5)
    false = sum(db.has(f"no{number}") for number in range(20000))
    assert abs(false / 20000 - rate) < 0.2 * rate
    # One item, of which some positions are the same.
    for item in range(50):
        db.create("one", items=1)
        db.insert(item, into="one")
        assert json.loads(db.one("SELECT info FROM one"))["estimate"] == 1
        db.execute("DROP TABLE one")
    # Each bit is set.
    db.create("full", items=1)
    assert db.insert(*range(5000), into="full") > 100
    assert json.loads(db.one("SELECT info FROM full")) == {"items": 1, "estimate": None, "rate": 1}
    db.close()


def test_rows_about_the_filter(db):
    db.insert("crab")
    assert db.execute("SELECT info FROM seen WHERE info = 'crab'").fetchall() == []
    for where in ("item = 'crab'", "info ->> 'items' = 1000", "file NOT NULL"):
        assert db.execute(f"SELECT info ->> 'items' FROM seen WHERE {where}").fetchall() == [
            (1000,)
        ]
    assert db.execute("SELECT info FROM seen WHERE item = 'no'").fetchall() == []


def test_the_rate_is_met():
    db = connect()
    db.create(items=10**5)
    db.execute("CREATE TABLE t(n)")
    db.executemany("INSERT INTO t VALUES(?)", ((number,) for number in range(1, 10**5 + 1)))
    db.execute("INSERT INTO seen(item) SELECT n FROM t")
    for way in ("bloom_in('seen', {})", "EXISTS(SELECT 1 FROM seen WHERE item = {})"):
        query = f"SELECT sum({way.format('n')}), sum({way.format('-n')}) FROM t"
        found, false = db.execute(query).fetchone()
        assert found == 10**5 and 50 < false < 130
    db.close()


def test_random_keys_differ(tmp_path):
    files = []
    for name in "abc":
        db = connect(tmp_path / name)
        db.create(key="random")
        db.insert("crab")
        files.append(db.file())
        db.close()
        db = connect(tmp_path / name)
        assert db.file() == files[-1] and db.has("crab")
        key = db.one("SELECT substr(file, 25, 16) FROM seen")
        db.execute("INSERT INTO seen(file) SELECT bloom('krill', 1000, '1/1000', ?)", (key,))
        assert db.has("krill")
        db.close()
    assert len({file[24:40] for file in files}) == 3
    db = connect()
    db.create(key=KEY.hex())
    assert db.file()[24:40] == KEY


def test_arguments_in_any_order_and_case(db):
    db.execute('CREATE VIRTUAL TABLE made USING bloom( RATE = "1/1000" , Items=\'1000\' )')
    assert db.file("made") == db.file()
    db.execute(f"CREATE VIRTUAL TABLE keyed USING bloom(Key='{KEY.hex()}', items=9, rate=1/9)")
    assert db.file("keyed")[24:40] == KEY


def test_a_name_that_is_taken(db):
    db.execute("CREATE TABLE made_data(k)")
    db.execute("INSERT INTO made_data VALUES(7)")
    assert db.refuses('table "made_data" already exists', f"{BLOOM}(items=9, rate='1/9')")
    assert db.one("SELECT k FROM made_data") == 7
    assert db.one("SELECT count(*) FROM sqlite_schema") == 3
    db.execute("DROP TABLE made_data")
    db.execute(f"{BLOOM}(items=9, rate='1/9')")
    assert db.insert("crab", into="made") == 1


# What returns or reads a file in one piece, where it is too long for SQLite.
TOO_LONG = [
    "SELECT file FROM seen",
    "SELECT bloom_in('seen', 1)",
    "SELECT bloom(1, {}, '1/1000')",
]


def test_a_filter_larger_than_a_value_may_be():
    db = connect()
    db.create(items=10**5)
    db.setlimit(sqlite3.SQLITE_LIMIT_LENGTH, 10000)
    assert db.insert("crab") == 1 and db.has("crab")
    assert json.loads(db.one("SELECT info FROM seen"))["estimate"] == 1
    for sql in TOO_LONG:
        assert db.refuses("bytes is too big: SQLITE_LIMIT_LENGTH is 10000", sql.format(10**5))
    db.close()


@pytest.mark.parametrize("gibibytes, items", [(1, 6 * 10**8), (2, 10**9), (64, 3 * 10**10)])
def test_a_limit_is_told_before_the_work(tmp_path, gibibytes, items):
    """The head tells of so many gibibytes, and only the first rows are there."""
    db = connect(tmp_path / "db")
    db.create(items=10**5)
    words = (gibibytes << 27).to_bytes(8, "little").hex()
    db.execute(
        "UPDATE seen_data SET bits = CAST(substr(bits, 1, 16) || "
        f"x'{words}' || substr(bits, 25) AS BLOB) WHERE page = 0"
    )
    db.close()
    db = connect(tmp_path / "db")
    limit = db.getlimit(sqlite3.SQLITE_LIMIT_LENGTH)
    for sql in TOO_LONG:
        assert db.refuses(f"bytes is too big: SQLITE_LIMIT_LENGTH is {limit}", sql.format(items))
    # It is read row by row, up to the first that isn't whole.
    assert db.refuses("row 50 of seen_data is damaged", "SELECT info FROM seen")
    db.close()


def test_bloom_in_tells_what_its_table_tells(db):
    db.execute("DELETE FROM seen_data")
    with pytest.raises(sqlite3.DatabaseError, match="^bloom: row 1 of seen_data is damaged"):
        db.one("SELECT bloom_in('seen', 1)")


def test_a_large_item(db):
    large = "x" * 10**8
    assert db.insert(large) == 1 and db.has(large) and not db.has(large[1:])


def test_what_a_schema_may_call(db):
    """Reading a table by name is for statements alone, the rest is for triggers and views, too."""
    db.execute("CREATE TABLE t(k)")
    db.execute("CREATE TRIGGER g AFTER INSERT ON t BEGIN INSERT INTO seen(item) VALUES(NEW.k); END")
    db.execute("CREATE VIEW v AS SELECT bloom_contains(bloom(k, 10, '1/10'), 'crab') FROM t")
    db.execute("CREATE VIEW w AS SELECT bloom_in('seen', 'crab')")
    for trusted in ("ON", "OFF"):
        db.execute(f"PRAGMA trusted_schema = {trusted}")
        db.execute("INSERT INTO t VALUES('crab')")
        assert db.has("crab") and db.one("SELECT * FROM v") == 1
        assert db.refuses("unsafe use of bloom_in", "SELECT * FROM w")


def test_bloom_in_is_of_the_first_row(db):
    """A statement sees the filter as it is when it first asks."""
    query = db.execute("SELECT bloom_in('seen', value) FROM json_each('[1, 2, 3]')")
    assert query.fetchone() == (0,)
    db.insert(2, 3)
    assert query.fetchall() == [(0,), (0,)]
    again = db.execute("SELECT bloom_in('seen', value) FROM json_each('[1, 2, 3]')")
    assert again.fetchall() == [(0,), (1,), (1,)]
