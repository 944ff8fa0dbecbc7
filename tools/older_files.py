"""Files of older schemas, made by SQLite of a registry's file: the same registry, in the tables that
there were then."""

import pathlib
import sqlite3

# How many of today's tables and indexes each older schema has, in the order in which they are made.
OLDER = {1: 14, 2: 17}


def make_older(first, db, schema):
    """Makes the file of an older schema, of a file that SQLite may change in doing so. Schema 1 keeps each archive in the row of its version, and
    both keep what a version needs without its ranges."""
    for end in ('', '-wal', '-shm'):
        pathlib.Path(f'{db}{end}').unlink(missing_ok=True)
    new, old = sqlite3.connect(first), sqlite3.connect(db, isolation_level=None)
    texts = [row for row in new.execute("SELECT name, sql FROM sqlite_schema WHERE sql > '' ORDER BY rowid") if not row[0].startswith('sqlite_')]
    old.execute('PRAGMA journal_mode = WAL')
    old.execute('BEGIN')
    for name, text in texts[:OLDER[schema]]:
        old.execute(text)
        if text.startswith('CREATE TABLE'):
            rows = new.execute(f'SELECT * FROM {name} ORDER BY rowid')
            for row in rows:
                old.execute(f'INSERT INTO {name} VALUES ({", ".join("?" * len(row))})', row)
    old.executemany('INSERT INTO needs VALUES (?, ?, ?)', new.execute('SELECT DISTINCT package, version, target FROM need_ranges').fetchall())
    old.execute("UPDATE meta SET value = ? WHERE name = 'schema'", [schema])
    if schema == 1:
        held = new.execute('SELECT bytes, package, version FROM held JOIN archives ON archive = id').fetchall()
        old.executemany('UPDATE versions SET archive = ? WHERE package = ? AND version = ?', held)
    old.execute('COMMIT')
    new.close()
    old.close()
