"""A table of SQLite behind a filter of its keys, which is saved in a file beside the database.

A key that the filter lacks isn't in the table, so the table isn't asked for it. This pays where the
table is far larger than memory. Other programs may write to the table without the filter. Assumed
is that the table is as it is made here, and that nobody writes the token, turns triggers off, or
gives the table another name.
"""

import os
import sqlite3

from fastbloom import Filter

# Each change that may bring a key renews a token, in its own transaction and whoever makes it. The
# token is drawn, since two copies of a database would count alike; PRAGMA data_version is of one
# connection, and isn't kept. Who makes the table anew drops its triggers, but changes the version
# of the schema. So a filter has each key while token and version are those that it was saved with.
BEGIN = """
BEGIN IMMEDIATE;
CREATE TABLE IF NOT EXISTS store (key TEXT PRIMARY KEY NOT NULL, value NOT NULL);
CREATE TABLE IF NOT EXISTS last_change (id INTEGER PRIMARY KEY CHECK (id = 1), token TEXT NOT NULL);
INSERT OR IGNORE INTO last_change VALUES (1, hex(randomblob(16)));
CREATE TRIGGER IF NOT EXISTS store_insert AFTER INSERT ON store BEGIN
    UPDATE last_change SET token = hex(randomblob(16)); END;
CREATE TRIGGER IF NOT EXISTS store_update AFTER UPDATE ON store BEGIN
    UPDATE last_change SET token = hex(randomblob(16)); END;
"""


class Guarded:
    """A table, and a filter that has each key that the table had when `state` was its state."""

    def __init__(self, path):
        self.db = sqlite3.connect(path, isolation_level=None)
        self.path, self.state = f"{path}.bloom", None
        try:
            with open(self.path, "rb") as file:
                self.state, self.filter = file.readline(), Filter.from_bytes(file.read())
        except (FileNotFoundError, ValueError):  # no file, or a damaged one
            pass
        self.renew()

    def read_state(self):
        """The token and the version of the schema, as a line."""
        rows = self.db.execute(
            "SELECT token, schema_version FROM last_change, pragma_schema_version"
        )
        return ("%s %d\n" % rows.fetchone()).encode()

    def renew(self):
        """Makes the filter anew of all keys, for twice as many, unless the state is its own."""
        with self.db:  # commits at the end, or rolls back
            self.db.executescript(BEGIN)
            state = self.read_state()
            if state == self.state:
                return
            (count,) = self.db.execute("SELECT count(*) FROM store").fetchone()
            made = Filter(max(1000, 2 * count), "1/100", key=os.urandom(16))
            made.update(key for key, in self.db.execute("SELECT key FROM store"))
        self.state, self.filter = state, made

    def get(self, key):
        """The value of a key, or None. Where others wrote, it asks the table until `renew`."""
        if key not in self.filter and self.read_state() == self.state:
            return None
        row = self.db.execute("SELECT value FROM store WHERE key = ?", (key,)).fetchone()
        return row and row[0]

    def put(self, key, value):
        """Gives a key a value. The filter takes the key first, whatever becomes of the change."""
        self.filter.add(key)
        with self.db:
            self.db.execute("BEGIN IMMEDIATE")
            is_of_filter = self.read_state() == self.state
            self.db.execute("INSERT OR REPLACE INTO store VALUES (?, ?)", (key, value))
            state = self.read_state()
        if is_of_filter:
            self.state = state

    def save(self):
        """Saves the filter and its state, whole or not at all."""
        part = f"{self.path}.{os.getpid()}"
        with open(part, "wb") as file:
            file.write(self.state + self.filter.to_bytes())
        os.replace(part, self.path)
