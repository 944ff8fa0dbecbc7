"""What the scripts that measure share: a registry in a file, its server, a client on one kept
connection, bodies like npm's, the machine's load, and tables in Markdown."""

import base64
import hashlib
import json
import os
import pathlib
import random
import re
import shutil
import signal
import socket
import statistics
import subprocess
import sys
import time

TOP = pathlib.Path(__file__).resolve().parent.parent
TOKEN = 'npm_bob_000000001'
median = statistics.median


def fail(text):
    sys.exit(f'{pathlib.Path(sys.argv[0]).name}: {text}')


def say(text):
    """Reports progress on standard error: standard output has the figures alone."""
    print(text, file=sys.stderr, flush=True)


def built(name):
    """A program in C of this folder, built into out/ where it isn't there or is older."""
    source, program = TOP / 'tools' / f'{name}.c', TOP / 'out' / name
    program.parent.mkdir(exist_ok=True)
    if not program.exists() or program.stat().st_mtime < source.stat().st_mtime:
        subprocess.run(['cc', '-O2', '-D_GNU_SOURCE', '-o', program, source], check=True)
    return program


def machine():
    """The machine, the moment and the load, as a line."""
    model = [line.split(':')[1].strip() for line in open('/proc/cpuinfo') if line.startswith('model name')]
    moment = time.strftime('%Y-%m-%d %H:%M UTC', time.gmtime())
    return f'{moment}, {os.cpu_count()} cores ({model[0] if model else "unknown"}), load {os.getloadavg()[0]:.1f}'


def table(columns, rows):
    """Prints a table in Markdown."""
    print('| ' + ' | '.join(columns) + ' |')
    print('|' + '---|' * len(columns))
    for row in rows:
        print('| ' + ' | '.join(str(value) for value in row) + ' |')
    print(flush=True)


def figure(value):
    """A number with three digits, or all those before its point."""
    if value >= 100:
        return f'{value:,.0f}'
    return f'{value:.3g}' if value >= 0.001 else '0'


def milliseconds(seconds):
    return figure(seconds * 1000)


def in_turn(rounds, *calls):
    """The medians of what these calls give, each called once a round, with the round's number."""
    runs = [[call(number) for call in calls] for number in range(rounds)]
    return [median(values) for values in zip(*runs)]


class Registry:
    """A registry in a file, with the user bob, a token of bob's, and the organisation lab, which bob owns."""

    def __init__(self, program, db):
        self.program, self.db = str(program), str(db)
        self.words('--operator', 'user-add', 'bob')
        self.words('--operator', 'token-add', 'bob', TOKEN)
        self.words('--operator', 'org-create', 'lab', 'bob')

    def words(self, *words):
        """Runs the program on these arguments. Gives its wall time and its processor time, in seconds."""
        began = time.perf_counter()
        run = subprocess.Popen([self.program, '--db', self.db, *words], stdout=subprocess.DEVNULL, stderr=subprocess.PIPE)
        said = run.stderr.read().decode()
        _, status, use = os.wait4(run.pid, 0)
        wall = time.perf_counter() - began
        run.stderr.close()
        run.returncode = os.waitstatus_to_exitcode(status)
        if run.returncode != 0:
            fail(f'{" ".join(words)} ended with {run.returncode}: {said}')
        return wall, use.ru_utime + use.ru_stime

    def serve(self, *options, errors=None):
        return Server(self, options, errors)


def free_port():
    with socket.create_server(('127.0.0.1', 0)) as door:
        return door.getsockname()[1]


def started(registry, port, options=(), errors=None):
    """`registry serve` on a registry's file, which may not listen yet."""
    return subprocess.Popen([registry.program, '--db', registry.db, 'serve', '--port', str(port), *options],
                            stdout=subprocess.PIPE, stderr=errors)


class Server:
    """`registry serve` on a registry's file. It listens, and `opened` is how long that took. What it
    says on standard error goes to `errors`."""

    def __init__(self, registry, options=(), errors=None):
        self.registry, self.port = registry, free_port()
        began = time.perf_counter()
        self.process = started(registry, self.port, options, errors)
        if self.process.stdout.readline() != f'listening 127.0.0.1:{self.port}\n'.encode():
            fail('the server does not listen')
        self.opened = time.perf_counter() - began

    def __enter__(self):
        return self

    def __exit__(self, *_):
        self.process.send_signal(signal.SIGTERM)
        self.process.wait()
        self.process.stdout.close()

    def processor(self):
        return processor_of(self.process.pid)

    def memory(self):
        """Resident memory now, and the most that it was, in MB."""
        return memory_of(self.process.pid)


def processor_of(pid):
    """Seconds of processor that a process of one thread has used."""
    return int(open(f'/proc/{pid}/schedstat').read().split()[0]) / 1e9


def memory_of(pid):
    """Resident memory of a process now, and the most that it was, in MB."""
    lines = dict(line.split(':', 1) for line in open(f'/proc/{pid}/status'))
    return int(lines['VmRSS'].split()[0]) / 1024, int(lines['VmHWM'].split()[0]) / 1024


class Client:
    """A client on one connection that stays open. Another is opened where the server ends it."""

    def __init__(self, port):
        self.port, self.socket = port, None

    def ask(self, method, path, body=b'', token=TOKEN, accept=None):
        """The whole response to a request, and how many seconds it took from the first byte sent
        to the last one read."""
        if self.socket is None:
            self.socket = connect(self.port)
        request = request_of(method, path, body, token, accept)
        began = time.perf_counter()
        self.socket.sendall(request)
        response = read_response(self.socket)
        took = time.perf_counter() - began
        if b'\r\nconnection: close\r\n' in response[:response.index(b'\r\n\r\n') + 2]:
            self.socket.close()
            self.socket = None
        return response, took

    def must(self, status, *request):
        """How long a request took that has to be answered so."""
        response, took = self.ask(*request)
        if int(response[9:12]) != status:
            fail(f'{request[0]} {request[1]} was answered by {response[:300]}')
        return took

    def publish(self, publication):
        return self.must(201, 'PUT', '/' + publication.name.replace('/', '%2f'), publication.body)


def connect(port):
    connection = socket.create_connection(('127.0.0.1', port))
    connection.setsockopt(socket.IPPROTO_TCP, socket.TCP_NODELAY, 1)
    return connection


def request_of(method, path, body=b'', token=None, accept=None):
    lines = [f'{method} {path} HTTP/1.1', 'host: localhost']
    if token:
        lines.append(f'authorization: Bearer {token}')
    if accept:
        lines.append(f'accept: {accept}')
    if body:
        lines += ['content-type: application/json', f'content-length: {len(body)}']
    return '\r\n'.join(lines + ['', '']).encode() + body


def read_response(connection):
    """A head with content-length, and the body after it."""
    parts, head = [connection.recv(1 << 18)], b''
    while b'\r\n\r\n' not in (head := b''.join(parts)):
        parts.append(more(connection))
    end = head.index(b'\r\n\r\n') + 4
    fields = dict(line.lower().split(b':', 1) for line in head[:end - 4].split(b'\r\n')[1:])
    left = end + int(fields[b'content-length']) - len(head)
    parts = [head]
    while left > 0:
        parts.append(more(connection))
        left -= len(parts[-1])
    return b''.join(parts)


def more(connection):
    piece = connection.recv(1 << 18)
    if not piece:
        fail('the server ended a connection within a response')
    return piece


class Publication:
    """A version with an archive of so many bytes, which is its own where no other seed is given, a
    manifest of 1 kB like npm's, and seven packages that it needs; and the body that publishes it.
    Its description has so many bytes more."""

    def __init__(self, name, version, archive_len, needs=(), more=0, seed=None):
        self.name, self.version = name, version
        self.archive = random.Random(seed or f'{name} {version}').randbytes(archive_len)
        file = f'{name}-{version}.tgz'
        body = {
            '_id': name, 'name': name, 'dist-tags': {'latest': version},
            'versions': {version: manifest(name, version, self.archive, needs or needs_of(name), more)}, 'access': None,
            '_attachments': {file: {'content_type': 'application/octet-stream',
                                    'data': base64.b64encode(self.archive).decode(), 'length': archive_len}},
        }
        self.body = json.dumps(body, separators=(',', ':')).encode()

    def spoiled(self):
        """The same body with the integrity of another archive: it is read whole, and then refused."""
        return self.body.replace(integrity_of(self.archive).encode(), integrity_of(b'').encode())


def integrity_of(archive):
    return 'sha512-' + base64.b64encode(hashlib.sha512(archive).digest()).decode()


def needs_of(name):
    """Seven names, others for each package, that nobody publishes."""
    first = random.Random(name).randrange(1000)
    return [f'library-{(first + 137 * step) % 1000}' for step in range(7)]


def manifest(name, version, archive, needs, more):
    return {
        'name': name, 'version': version,
        'description': 'What a package of the house says of itself, in a line or two: it reads the table of parts and prints it.' + 'x' * more,
        'keywords': ['table', 'parts', 'house'], 'main': 'lib/index.js', 'types': 'lib/index.d.ts',
        'files': ['lib', 'README.md'], 'engines': {'node': '>=18'}, 'license': 'MIT',
        'scripts': {'build': 'tsc -p .', 'test': 'node --test', 'prepublishOnly': 'npm run build'},
        'repository': {'type': 'git', 'url': f'git+https://git.house.example/{name}.git'},
        'author': {'name': 'Bob', 'email': 'bob@house.example'},
        'dependencies': {need: '^1.2.0' for need in needs},
        '_id': f'{name}@{version}', '_nodeVersion': '20.20.2', '_npmVersion': '10.8.2',
        'dist': {
            'integrity': integrity_of(archive),
            'shasum': hashlib.sha1(archive).hexdigest(),
            'tarball': f'http://localhost:8080/{name}/-/{name}-{version}.tgz',
        },
    }


class Profile:
    """Which share of the samples of a piece of work each crate's functions have, in percent: a
    column a piece. It has none where perf isn't on the path."""

    def __init__(self, folder):
        self.data, self.columns = str(folder / 'perf.data'), {}
        self.record = ['perf', 'record', '-q', '-e', 'cpu-clock', '-F', '4000', '-o', self.data]
        self.there = shutil.which('perf') is not None

    def command(self, what, *command):
        """Adds what a command does."""
        if self.there:
            subprocess.run([*self.record, *map(str, command)], stdout=subprocess.DEVNULL, stderr=subprocess.DEVNULL)
            self.columns[what] = shares_of(self.data)

    def meanwhile(self, what, process, work):
        """Adds what a process does while the work is done."""
        if not self.there:
            return
        run = subprocess.Popen([*self.record, '-p', str(process.pid)], stdout=subprocess.DEVNULL, stderr=subprocess.DEVNULL)
        time.sleep(1)
        work()
        run.send_signal(signal.SIGINT)
        run.wait()
        self.columns[what] = shares_of(self.data)

    def print(self):
        parts = {part for shares in self.columns.values() for part, share in shares.items() if share >= 2}
        rows = sorted(([shares.get(part, 0) for shares in self.columns.values()], part) for part in parts)[::-1]
        if rows:
            table(['% of the samples, in', *self.columns], [[part] + [figure(share) for share in shares] for shares, part in rows])
        else:
            print('perf is not on the path: no profile.\n')


def shares_of(data):
    report = subprocess.run(['perf', 'report', '-i', data, '--stdio', '-F', 'overhead,dso,sym'],
                            stdout=subprocess.PIPE, stderr=subprocess.DEVNULL).stdout.decode()
    shares = {}
    for share, library, where, symbol in re.findall(r'^\s*([\d.]+)%\s+(\S+)\s+\[(.)\]\s+(.*?)\s*$', report, re.MULTILINE):
        part = part_of(library, where, symbol)
        shares[part] = shares.get(part, 0) + float(share)
    return shares


def part_of(library, where, symbol):
    """The crate of a function, those of the registry and those of SQL as one each."""
    if where == 'k':
        return 'the kernel'
    if '::' not in symbol:
        return library.split('.')[0]
    crate = symbol.lstrip('<&').split('::')[0]
    if crate.startswith('registry_'):
        return 'the registry'
    return 'SQL' if crate.startswith('sqlite') else crate
