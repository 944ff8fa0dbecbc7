"""The registries in which prices are asked: each a file that is made once, and copied for each server."""

import shutil
import threading

from measuring import *
from price_bodies import *

EVE, ANN, READER, SPARE = 'npm_eve_000000001', 'npm_ann_000000001', 'npm_reader_000000001', 'npm_spare_000000001'
# A message of as many bytes as one may have.
MESSAGE = 1_024 * 'm'
SHORT = 'application/vnd.npm.install-v1+json'


class Sizes:
    """How large the registries are."""

    def __init__(self, is_quick):
        self.versions = (30, 100) if is_quick else (100, 300, 1_000)
        self.fat = 2 if is_quick else 10
        self.needs = 2 if is_quick else 10
        self.needed = 20 if is_quick else 97
        self.dependencies = 1_000 if is_quick else 10_000
        self.packages = 300 if is_quick else 5_000
        self.teams = 5 if is_quick else 60
        self.grants = 100 if is_quick else 1_000
        self.users = 20 if is_quick else 200
        self.tokens = 20 if is_quick else 200
        self.tags = 20 if is_quick else 100


class Pipe:
    """A client that sends many requests before it reads their answers. Each has to be answered well."""

    def __init__(self, port, token=TOKEN):
        self.port, self.token = port, token

    def send(self, requests, at_once=50):
        requests = list(requests)
        for begin in range(0, len(requests), 900):
            connection = connect(self.port)
            connection.settimeout(900)
            for part in range(begin, min(begin + 900, len(requests)), at_once):
                some = requests[part:min(part + at_once, begin + 900)]
                bytes_of_all = b''.join(request_of(method, path, body, self.token) for method, path, body in some)
                sender = threading.Thread(target=connection.sendall, args=(bytes_of_all,))
                sender.start()
                self.read(connection, some)
                sender.join()
            connection.close()

    def read(self, connection, some):
        came = b''
        for method, path, _ in some:
            while (end := came.find(b'\r\n\r\n') + 4) < 4:
                came += more(connection)
            length = int(re.search(rb'\r\ncontent-length: (\d+)', came[:end])[1])
            while len(came) < end + length:
                came += more(connection)
            if not came.startswith(b'HTTP/1.1 2'):
                fail(f'{method} {path[:100]} was answered by {came[:200]}')
            came = came[end + length:]

    def many(self, requests, clients=16):
        """The same by so many clients at once, where the order doesn't matter: small changes of one
        round share a transaction."""
        requests = list(requests)
        parts = [requests[at::clients] for at in range(clients)]
        threads = [threading.Thread(target=self.send, args=(part,)) for part in parts if part]
        for one in threads:
            one.start()
        for one in threads:
            one.join()


def put(name, body):
    return 'PUT', '/' + name.replace('/', '%2f'), body


def small(name, version='1.0.0', members=''):
    return put(name, publication(name, version, members))


# ---- what each stage has, beside users, the organisation lab, and `kit`

def plain(pipe, sizes, words):
    """A package with an archive of 3 MB, one with a scope, tags, maintainers, and tokens."""
    pipe.send([put('large', publication_of_archive('large', '1.0.0')), small('@lab/kit'), small('@lab/kit', '1.1.0'), small('tags'), small('owned'),
               small('kit', '1.1.0')])
    names = [f'{number:04}-' + 'tag' * 20 for number in range(sizes.tags)]
    pipe.send(('PUT', f'/-/package/tags/dist-tags/{tag}', b'"1.0.0"') for tag in names)
    for number in range(sizes.users):
        words('--operator', 'user-add', f'user-{number}')
    pipe.many(('PUT', f'/-/package/owned/owners/user-{number}', b'') for number in range(sizes.users))
    pipe.many(('PUT', f'/-/org/lab/user-{number}', b'"developer"') for number in range(sizes.users))
    for number in range(sizes.tokens):
        words('--operator', 'token-add', 'user-1', f'npm_user_1_{number:09}')


def versions(pipe, sizes, words):
    """Packages of many versions."""
    for count in sizes.versions:
        pipe.send(small(f'many-{count}', f'1.{number}.0') for number in range(count))


def fat(pipe, sizes, words):
    """Packages whose packuments have 40 MB."""
    for name in 'fat', 'other':
        pipe.send((put(name, publication_of_shape('string', name, f'1.{number}.0')) for number in range(sizes.fat)), at_once=1)


def shapes(pipe, sizes, words):
    """Documents of 4 MiB in some shape that have a message, so that they are written anew."""
    pipe.send([put('keyed', publication_of_shape('keys', 'keyed', '1.0.0', ROOM - 3_000))])
    for shape in 'numbers', 'keys', 'nested', 'objects':
        pipe.send([put(shape, publication_of_shape(shape, shape, '1.0.0'))])
        pipe.send([('POST', f'/-/package/{shape}/deprecate', json.dumps({'selector': '1.x', 'message': MESSAGE}).encode())])


def needs(pipe, sizes, words):
    """Packages that are needed by ranges of megabytes, none of which selects a version of theirs."""
    # What needs many comes first: amid ranges of megabytes each further need takes long.
    pipe.send([small('many-needs', '1.0.0', dependencies(sizes.dependencies)), small('popular')])
    pipe.send(small(f'user-{number}', '1.0.0', ',"dependencies":{"popular":"9.x"}') for number in range(sizes.packages // 5))
    pipe.send([small('one', f'1.{number}.0') for number in range(2)] + [small('all', f'1.{number}.0') for number in range(sizes.needed)])
    pipe.send((put(f'needs-{number}', needing(f'needs-{number}', '1.0.0', 'one', ranges('nines', 2_000_000))) for number in range(sizes.needs)), at_once=1)
    pipe.send((put(f'needing-{number}', needing(f'needing-{number}', '1.0.0', 'all', ranges('nines', 1_500_000))) for number in range(sizes.needs // 2)), at_once=1)


def scope(pipe, sizes, words):
    """An organisation of thousands of packages, with dozens of teams that are granted a thousand each. Ann is
    a developer, and in each team."""
    words('--operator', 'org-create', 'big', 'bob')
    pipe.many(small(f'@big/p{number:04}') for number in range(sizes.packages))
    pipe.send([('PUT', '/-/org/big/ann', b'"developer"')])
    teams = [f'team-{number:02}' for number in range(sizes.teams)]
    pipe.send(('PUT', f'/-/team/big/{team}', b'') for team in teams)
    pipe.send(('PUT', f'/-/team/big/{team}/ann', b'') for team in teams)
    pipe.many(('PUT', f'/-/grant/big/{team}/@big%2fp{number:04}', b'"read-only"') for team in teams for number in range(sizes.grants))


STAGES = {work.__name__: work for work in (plain, versions, fat, shapes, needs, scope)}


class Stages:
    """The registries of a run, each made when it is first asked for, in a folder."""

    def __init__(self, program, folder, sizes):
        self.program, self.folder, self.sizes, self.files = program, folder, sizes, {}

    def file(self, name):
        if name not in self.files:
            began = time.monotonic()
            registry = Registry(self.program, self.folder / f'stage-{name}.db')
            self.fill(registry, STAGES[name])
            say(f'made the registry {name}: {pathlib.Path(registry.db).stat().st_size / 1e6:.0f} MB in {time.monotonic() - began:.0f} s')
            self.files[name] = pathlib.Path(registry.db)
        return self.files[name]

    def fill(self, registry, work):
        for user, token in ('eve', EVE), ('ann', ANN), ('reader', READER), ('spare', SPARE):
            registry.words('--operator', 'user-add', user)
            registry.words('--operator', 'token-add', user, token)
        with registry.serve('--npm') as server:
            pipe = Pipe(server.port)
            pipe.send([small('kit'), ('PUT', '/-/org/lab/ann', b'"developer"'), ('PUT', '/-/org/lab/reader', b'"developer"'),
                       ('PUT', '/-/team/lab/ops', b''), ('PUT', '/-/team/lab/ops/ann', b'')])
            work(pipe, self.sizes, registry.words)
            # It copies its log into the file.
            registry.words('stop')
            server.process.wait()

    def copy(self, name):
        """A registry of its own on a copy of a stage."""
        registry = object.__new__(Registry)
        registry.program, registry.db = str(self.program), str(self.folder / 'copy.db')
        for file in self.folder.glob('copy.db*'):
            shutil.rmtree(file) if file.is_dir() else file.unlink()
        shutil.copy(self.file(name), registry.db)
        return registry
