"""What `starve` works with: the library that refuses memory, the program over it, the copies of a
registry's file, and what its tables hold."""

import contextlib
import functools
import mmap
import os
import pathlib
import shutil
import sqlite3
import subprocess

from tries import want

# All is asked at this second, so that each run has the same moments.
MOMENT = '1700000000'
FAULT = b'', b'fault: Memory\n', 3
ENDS = '', '-wal'


class Shared:
    """What the library of tools/refuse.c and this script share: `struct shared`."""

    ROOM = 1 << 18
    CALLS, REFUSED, CAME, OPENED, TIMED, SIZES = range(6)

    def __init__(self, path):
        self.path = path
        with open(path, 'w+b') as file:
            file.truncate(8 * (self.SIZES + self.ROOM))
            self.words = memoryview(mmap.mmap(file.fileno(), 0)).cast('Q')

    def begin(self, refused):
        """Before a process starts: its call with this number is to be refused, or none for 0."""
        for place in range(self.SIZES):
            self.words[place] = 0
        self.words[self.REFUSED] = refused

    def refuse_next(self, number):
        """The call of a process with this number, counted from here on, is to be refused, or none for 0."""
        self.words[self.CAME] = 0
        self.words[self.REFUSED] = number and self.calls() + number

    def calls(self):
        return self.words[self.CALLS]

    def has_refused(self):
        return self.words[self.CAME] == 1

    def sizes(self, first, end):
        """What the calls from this number on, up to that one, ask for."""
        want(end <= self.ROOM, f'there is room for {self.ROOM:,} calls, and {end:,} came: make it larger')
        return self.words[self.SIZES + first - 1:self.SIZES + end - 1].tolist()

    def opening(self):
        """The numbers of the first call after the file was opened, and of the first one after the
        clock was read first after that. Each is 0 where this didn't come."""
        return self.words[self.OPENED], self.words[self.TIMED]


class Place:
    """A folder in which the program is run: a registry's file as it was at the beginning, if it was
    there, and the copy that a run is given."""

    def __init__(self, program, library, folder, first=None):
        self.program, self.library, self.first = str(program), str(library), first
        self.db, self.body = folder / 'registry.db', folder / 'body.json'
        self.shared = Shared(folder / 'shared')

    def begin_anew(self):
        for end in ENDS:
            copy = pathlib.Path(f'{self.db}{end}')
            copy.unlink(missing_ok=True)
            if self.first and os.path.exists(f'{self.first}{end}'):
                shutil.copyfile(f'{self.first}{end}', copy)

    def environment(self):
        return {'LD_PRELOAD': self.library, 'SHARED': str(self.shared.path), 'OPENED': str(self.db), 'NOW': MOMENT}

    def words(self, line):
        """The arguments that a line means, in which BODY is the file of the body."""
        words = [str(self.body) if word == 'BODY' else word for word in line.split()]
        return [self.program, '--db', str(self.db), '--at', MOMENT, *words] if words else [self.program]

    def run(self, line, body, refused=0):
        """Runs the program on a line's arguments, or without any on a body. Gives what it prints,
        what it prints of errors, and its status."""
        self.body.write_bytes(body)
        self.shared.begin(refused)
        run = subprocess.run(self.words(line), input=b'' if line else body, capture_output=True,
                             env=self.environment(), timeout=60)
        return run.stdout, run.stderr, run.returncode

    def is_as_it_was(self):
        """Whether the file and its log have the bytes that they had at the beginning."""
        return all(bytes_of(f'{self.first}{end}' if self.first else None) == bytes_of(f'{self.db}{end}') for end in ENDS)

    def rows(self):
        """All rows of all tables, read by SQLite from a copy of the file and its log."""
        return rows_in(self.db.with_name('copy.db'), *(bytes_of(f'{self.db}{end}') for end in ENDS))


@functools.lru_cache(maxsize=8)
def rows_in(copy, *files):
    """The rows in a file and its log, which are written to a copy. Where the same bytes were read
    before, they aren't read again."""
    for end, bytes_of_file in zip(ENDS, files):
        pathlib.Path(f'{copy}{end}').unlink(missing_ok=True)
        if bytes_of_file is not None:
            pathlib.Path(f'{copy}{end}').write_bytes(bytes_of_file)
    with contextlib.closing(sqlite3.connect(copy)) as connection:
        return '\n'.join(connection.iterdump())


def difference(before, rows):
    """What the file holds otherwise than before, in short."""
    old, new = set(before.split('\n')), set(rows.split('\n'))
    lines = [f'- {line[:200]}' for line in sorted(old - new)] + [f'+ {line[:200]}' for line in sorted(new - old)]
    return '\n'.join(['with these rows less and more:', *lines[:20]])


def bytes_of(path):
    """The bytes of a file, or None where there is none."""
    return pathlib.Path(path).read_bytes() if path and os.path.exists(path) else None


def same_opening(place, line, opening):
    """Where a run's open begins and ends, which has to ask for the same pieces as this one."""
    first, _ = place.shared.opening()
    want(first, f'{line} does not open the file')
    came = place.shared.sizes(first, first + len(opening))
    for number, (one, other) in enumerate(zip(came, opening), 1):
        want(one == other, f'{line}: call {number} of the open asks for {one:#x}, and that of a server for {other:#x}')
    return first, first + len(opening)
