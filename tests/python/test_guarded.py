"""Tests of examples/python/guarded.py: a key that is in the table is never called absent."""

import contextlib
import os
import shutil
import sqlite3
import subprocess
import sys
import tempfile
import unittest
from pathlib import Path

EXAMPLES = Path(__file__).resolve().parents[2] / "examples/python"
sys.path.insert(0, str(EXAMPLES))

from guarded import Guarded  # noqa: E402

# What a program without the filter does to a table that has crab, so that it has eel.
WRITES = {
    "an insert": "INSERT INTO store VALUES ('eel', 9)",
    "a replacement": "REPLACE INTO store VALUES ('eel', 9)",
    "an insert or update": "INSERT INTO store VALUES ('eel', 9)"
    " ON CONFLICT DO UPDATE SET value = 9",
    "another key": "UPDATE store SET key = 'eel', value = 9",
    "a table made anew": """
        BEGIN;
        CREATE TABLE made (key TEXT PRIMARY KEY NOT NULL, value NOT NULL);
        INSERT INTO made SELECT key, value FROM store;
        INSERT INTO made VALUES ('eel', 9);
        DROP TABLE store;
        ALTER TABLE made RENAME TO store;
        COMMIT""",
    "no triggers": """
        DROP TRIGGER store_insert;
        INSERT INTO store VALUES ('eel', 9)""",
}


class GuardedTables(unittest.TestCase):
    def setUp(self):
        folder = tempfile.TemporaryDirectory()
        self.addCleanup(folder.cleanup)
        self.folder = Path(folder.name)
        self.path = self.folder / "fish.db"

    def opened(self, path=None):
        guarded = Guarded(path or self.path)
        self.addCleanup(guarded.db.close)
        return guarded

    def clear(self):
        for left in self.folder.iterdir():
            left.unlink()

    def saved(self, path, **entries):
        """A table of these entries, whose filter is saved."""
        guarded = self.opened(path)
        for key, value in entries.items():
            guarded.put(key, value)
        guarded.save()
        return guarded

    def elsewhere(self, script):
        """Runs lines in another process, which ends at once where they end, as by a crash."""
        words = [
            sys.executable,
            "-c",
            f"""
import os, sys
sys.path.insert(0, {str(EXAMPLES)!r})
from guarded import Guarded
guarded = Guarded({str(self.path)!r})
{script}
os._exit(7)""",
        ]
        self.assertEqual(subprocess.run(words, check=False).returncode, 7)

    def asks(self, guarded, key):
        """What a look-up returns, and whether it asks the table."""
        asked = []
        guarded.db.set_trace_callback(lambda text: asked.append("FROM store" in text))
        value = guarded.get(key)
        guarded.db.set_trace_callback(None)
        return value, any(asked)

    def test_a_key_that_the_filter_lacks_is_not_asked_for(self):
        guarded = self.saved(self.path, crab=10)
        for each in guarded, self.opened():
            self.assertEqual(self.asks(each, "crab"), (10, True))
            self.assertEqual(self.asks(each, "whale"), (None, False))

    def test_a_saved_filter_is_taken(self):
        guarded = self.saved(self.path, crab=10)
        self.assertEqual(self.opened().filter, guarded.filter)
        guarded.put("eel", 9)
        self.assertNotEqual(self.opened().filter.key, guarded.filter.key)

    def test_a_crash_behind_a_commit_and_before_the_save(self):
        self.saved(self.path, crab=10)
        self.elsewhere("guarded.put('eel', 9)")
        self.assertEqual(self.opened().get("eel"), 9)

    def test_a_crash_before_a_commit(self):
        guarded = self.saved(self.path, crab=10)
        self.elsewhere(
            "guarded.db.set_trace_callback(lambda text: text == 'COMMIT' and os._exit(7))\n"
            "guarded.put('eel', 9)\n"
            "os._exit(8)"
        )
        for each in guarded, self.opened():
            self.assertEqual(self.asks(each, "eel"), (None, False))
            self.assertEqual(self.asks(each, "crab"), (10, True))

    def test_a_crash_in_a_save(self):
        self.saved(self.path, crab=10)
        self.elsewhere(
            "os.replace = lambda *names: os._exit(7)\n"
            "guarded.put('eel', 9)\n"
            "guarded.save()\n"
            "os._exit(8)"
        )
        self.assertEqual(self.opened().get("eel"), 9)

    def test_a_change_that_fails(self):
        guarded = self.saved(self.path, crab=10)
        with self.assertRaises(sqlite3.IntegrityError):
            guarded.put("eel", None)
        self.assertEqual(self.asks(guarded, "eel"), (None, True))
        self.assertEqual(self.asks(guarded, "whale"), (None, False))

    def test_a_damaged_file_is_made_anew(self):
        self.saved(self.path, crab=10)
        file = Path(f"{self.path}.bloom")
        whole = file.read_bytes()
        place = whole.index(b"\n") + 1
        damaged = [whole[:size] for size in (0, 1, place - 1, place, place + 8, len(whole) - 1)]
        damaged += [
            whole[:at] + bytes([whole[at] ^ 1]) + whole[at + 1 :]
            for at in (0, place - 1, place, place + 8, place + 64, len(whole) - 1)
        ]
        for data in damaged:
            file.write_bytes(data)
            guarded = self.opened()
            self.assertEqual(self.asks(guarded, "crab"), (10, True))
            self.assertEqual(self.asks(guarded, "whale"), (None, False))

    def test_files_of_another_database_that_are_moved_over(self):
        other = self.folder / "other.db"
        for moved in ("", ".bloom"):
            with self.subTest(moved):
                # As many changes of each.
                self.saved(self.path, crab=10).db.close()
                self.saved(other, eel=9).db.close()
                os.replace(f"{other}{moved}", f"{self.path}{moved}")
                key, value = ("crab", 10) if moved else ("eel", 9)
                self.assertEqual(self.opened().get(key), value)
                self.clear()

    def test_copies_of_a_database_that_go_on_alike(self):
        self.saved(self.path, crab=10).db.close()
        copied = self.folder / "copied.db"
        shutil.copy(self.path, copied)
        self.saved(copied, eel=9)
        self.saved(self.path, ray=8)
        shutil.copy(f"{copied}.bloom", f"{self.path}.bloom")
        self.assertEqual(self.opened().get("ray"), 8)

    def test_two_processes(self):
        guarded = self.saved(self.path, crab=10)
        self.elsewhere("guarded.put('eel', 9)\nguarded.save()")
        self.assertEqual(guarded.get("eel"), 9)
        # What this one puts and saves makes its filter none of the other's.
        guarded.put("ray", 8)
        self.assertEqual(self.asks(guarded, "eel"), (9, True))
        guarded.save()
        again = self.opened()
        guarded.renew()
        for each in again, guarded:
            self.assertEqual([each.get(key) for key in ("crab", "eel", "ray")], [10, 9, 8])
            self.assertEqual(self.asks(each, "whale"), (None, False))

    def written(self, script):
        """Has a program without the filter write to the table."""
        with contextlib.closing(sqlite3.connect(self.path)) as base:
            base.executescript(script)

    def test_a_program_without_the_filter(self):
        for what, script in WRITES.items():
            for is_live in (False, True):
                with self.subTest(what, is_live=is_live):
                    guarded = self.saved(self.path, crab=10)
                    self.written(script)
                    self.assertEqual(guarded.get("eel"), 9)
                    again = guarded if is_live else self.opened()
                    again.renew()
                    self.assertEqual(self.asks(again, "eel"), (9, True))
                    self.assertEqual(self.asks(again, "whale"), (None, False))
                    # From then on the token is renewed again.
                    self.written("INSERT INTO store VALUES ('ray', 8)")
                    for each in again, self.opened():
                        self.assertEqual(each.get("ray"), 8)
                    self.clear()

    def test_a_change_that_is_rolled_back_leaves_the_filter(self):
        guarded = self.saved(self.path, crab=10)
        base = sqlite3.connect(self.path)
        base.execute("INSERT INTO store VALUES ('eel', 9)")
        base.rollback()
        base.close()
        self.assertEqual(self.asks(guarded, "whale"), (None, False))


if __name__ == "__main__":
    unittest.main()
