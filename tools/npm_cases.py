"""Reads the table of cases of `make npm-team`: examples/npm_team.txt, whose head describes its form."""

import fnmatch
import re
import shlex

PROMPT = re.compile(r'(\w+)(?: in (\S+))?\$ (npm|registry|publish|send|folder)(?: (.*))?')
# What may stand between a command and the next one: what it prints, and what is another fact after it.
MARKS = {'|': 'output', '!': 'errors', '?': 'warnings', '.': 'notices', '+': 'more', '-': 'fewer'}


class Run:
    """A command, who gives it, and what is wanted of it: lines that are printed, the status, and the
    facts of the registry that are there afterwards and weren't before, or the other way round."""

    def __init__(self, number, user, folder, tool, words):
        self.number, self.user, self.folder, self.tool, self.words = number, user, folder, tool, words
        self.meanwhile, self.lost, self.typed = None, None, []
        self.wanted = {'output': [], 'errors': [], 'warnings': [], 'notices': [], 'status': 0, 'more': [], 'fewer': []}

    def text(self):
        place = f' in {self.folder}' if self.folder else ''
        return f'{self.user}{place}$ {self.tool} {shlex.join(self.words)}'[:200]


class Part:
    """Some cases over a registry of their own, which begins as the ground left it."""

    def __init__(self, title, way, needs=None):
        self.title, self.way, self.needs, self.runs = title, way, needs, []


class Table:
    """The whole file: the lines of npm that aren't compared, the ground, and the parts."""

    def __init__(self):
        self.left_out, self.ground, self.parts = [], Part('the ground', None), []

    def is_left_out(self, line):
        return any(fnmatch.fnmatchcase(line, pattern) for pattern in self.left_out)


class Wrong(Exception):
    """A line that has none of the forms."""


def read(path):
    """The table in a file."""
    table, reader = Table(), Reader()
    for number, line in enumerate(path.read_text(encoding='utf-8').splitlines(), 1):
        if line.strip() and not line.startswith('#') and not reader.take(table, number, line):
            raise Wrong(f'{path}:{number}: no line has this form: {line}')
    return table


class Reader:
    """What was read last, to which the next line may belong."""

    def __init__(self):
        self.run, self.meanwhile, self.lost, self.typed = None, None, None, []

    def take(self, table, number, line):
        """Reads a line. Whether it has a form."""
        word, _, rest = line.partition(' ')
        if line.startswith('== '):
            self.begin(table, rest)
        elif line.startswith('left out '):
            table.left_out.append(line.removeprefix('left out '))
        elif PROMPT.fullmatch(line):
            self.add(table, number, line)
        elif line.startswith('before '):
            self.meanwhile = self.held(number, rest)
        elif word == 'lost':
            self.lost = rest
        elif word == 'types':
            self.typed.append(shlex.split(rest))
        else:
            return self.run is not None and self.want(line)
        return True

    def begin(self, table, title):
        """A part, which may be for one way to the registry alone, or need something that is still missing:
        `== TITLE (front) (needs WORD)`."""
        title, _, needs = title.rstrip(')').partition(' (needs ') if '(needs ' in title else (title, '', None)
        way = re.search(r' \((direct|front)\)$', title)
        table.parts.append(Part(title, way[1] if way else None, needs))
        self.run = None

    def held(self, number, rest):
        """What is asked before a request of npm's goes on, or before it goes on for the second time:
        `[second] METHOD TARGET: COMMAND`."""
        request, _, command = rest.partition(': ')
        return request.removeprefix('second '), run_of(number, command), request.startswith('second ')

    def add(self, table, number, line):
        self.run = run_of(number, line)
        self.run.meanwhile, self.run.lost, self.run.typed = self.meanwhile, self.lost, self.typed
        self.meanwhile, self.lost, self.typed = None, None, []
        (table.parts[-1] if table.parts else table.ground).runs.append(self.run)

    def want(self, line):
        """What is wanted of the last command. Whether the line says that."""
        status = re.fullmatch(r'\[(\d+)\]', line)
        mark, space, rest = line[:1], line[1:2], whole(line[2:])
        if status:
            self.run.wanted['status'] = int(status[1])
        elif mark in MARKS and space in ('', ' '):
            self.run.wanted[MARKS[mark]].append(rest)
        else:
            return False
        return True


def run_of(number, line):
    user, folder, tool, words = PROMPT.fullmatch(line).groups()
    return Run(number, user, folder, tool, [whole(word) for word in shlex.split(words or '')])


def whole(text):
    """The text with each {x*9} written out."""
    return re.sub(r'\{(.)\*(\d+)\}', lambda it: it[1] * int(it[2]), text)
