"""How the tests in this folder open databases with the extension."""

import importlib.machinery
import importlib.util
import os
import sqlite3
from pathlib import Path

import pytest

TOP = Path(__file__).resolve().parents[2]
EXTENSION = os.environ.get("FASTBLOOM_SQLITE", str(TOP / "out/c/fastbloom_sqlite.so"))
KEY = bytes(range(16))


class Database(sqlite3.Connection):
    """A connection in autocommit mode, which has the extension."""

    def __init__(self, *words, **options):
        super().__init__(*words, isolation_level=None, **options)
        self.enable_load_extension(True)
        self.load_extension(EXTENSION)
        self.execute("PRAGMA synchronous = OFF")

    def one(self, sql, *values):
        """The first column of the first row."""
        return self.execute(sql, values).fetchone()[0]

    def create(self, name="seen", items=1000, **more):
        arguments = "".join(f", {key}='{value}'" for key, value in more.items())
        self.execute(
            f"CREATE VIRTUAL TABLE {name} USING bloom(items={items}, rate='1/1000'{arguments})"
        )

    def run(self, script):
        """Executes statements, which no other than they end a transaction."""
        for sql in script.split(";"):
            self.execute(sql)

    def insert(self, *items, into="seen"):
        """Inserts items, and returns how many of them were new."""
        before = self.total_changes
        self.execute("SAVEPOINT inserts")
        self.executemany(f"INSERT OR IGNORE INTO {into}(item) VALUES(?)", [(it,) for it in items])
        self.execute("RELEASE inserts")
        return self.total_changes - before

    def has(self, item, table="seen"):
        return self.one(f"SELECT EXISTS(SELECT 1 FROM {table} WHERE item = ?)", item) == 1

    def file(self, table="seen"):
        return self.one(f"SELECT file FROM {table}")

    def refuses(self, text, sql, *values):
        """Whether a statement fails with a text."""
        try:
            self.execute(sql, values).fetchall()
        except (sqlite3.Error, MemoryError) as error:
            assert text in str(error), error
            return True
        return False


def connect(path=":memory:", **options):
    return sqlite3.connect(path, factory=Database, **options)


@pytest.fixture
def db():
    """A database in memory, with the filter `seen` for 1,000 items."""
    it = connect()
    it.create()
    yield it
    it.close()


def read_model():
    """The model of blocked filters, which was written from their description."""
    loader = importlib.machinery.SourceFileLoader("model", str(TOP / "dev/blocked-model"))
    module = importlib.util.module_from_spec(importlib.util.spec_from_loader("model", loader))
    loader.exec_module(module)
    return module


def model_hash(model, item, key=bytes(16)):
    """The hash of bytes by the model."""
    return model.sip([int.from_bytes(key[at : at + 8], "little") for at in (0, 8)], item)


def model_file(model, filter, key=bytes(16)):
    """The file of a filter of the model."""
    words = b"".join(map(model.number, filter.words()))
    head = b"fbloom\x001" + model.number(filter.hashes) + model.number(len(words) // 8) + key
    seal = model.sip([0, 0], head + model.number(1) + words)
    return head + model.number(seal) + model.number(1) + bytes(8) + words
