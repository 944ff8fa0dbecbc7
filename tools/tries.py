"""What `measure_limits`, `soak` and `kill` share: tries that pass or fail, registries to try them
on, and what a client sees of its connection."""

import contextlib
import os
import re
import select
import shutil
import socket
import struct
import subprocess
import tempfile
import time

from measuring import *

NOBODY = request_of('GET', '/none')


class Otherwise(Exception):
    """Something came out otherwise than it should. The text says what came."""


def want(is_so, text):
    """Gives the text, which says what came, where it is as it should be."""
    if not is_so:
        raise Otherwise(text)
    return text


# ---- tries

class Try:
    """One thing to try: its name, what is done, what is wanted, and the work, which gives what came
    or ends with `Otherwise`. It passes where each round passed."""

    def __init__(self, name, what, wanted, work):
        self.name, self.what, self.wanted, self.work = name, what, wanted, work
        self.came, self.has_passed = [], True

    def run(self, *ground):
        try:
            self.came.append(self.work(*ground))
        except (Otherwise, OSError, SystemExit) as error:
            self.fail(error)

    def fail(self, error):
        self.has_passed = False
        self.came.append(str(error) if isinstance(error, Otherwise) else f'{type(error).__name__}: {error}')

    def row(self):
        came = self.came if len(set(self.came)) > 1 else self.came[:1]
        return [self.name, self.what, self.wanted, '; '.join(came), 'passed' if self.has_passed else 'failed']


def report(tries):
    """Prints the table of all tries. The status is 1 where one failed."""
    table(['Try', 'What is measured', 'Wanted', 'What came', ''], [one.row() for one in tries])
    print(load_average('At the end'))
    failed = sum(not one.has_passed for one in tries)
    print(f'{len(tries) - failed} passed, {failed} failed')
    sys.exit(1 if failed else 0)


def load_average(when):
    return f'{when}: load average {", ".join(f"{value:.1f}" for value in os.getloadavg())}.'


# ---- the server meanwhile

@contextlib.contextmanager
def halted(server):
    """The server does nothing meanwhile."""
    server.process.send_signal(signal.SIGSTOP)
    try:
        yield
    finally:
        server.process.send_signal(signal.SIGCONT)


def until(is_so, otherwise):
    """Waits until something is so, for ten seconds at most."""
    end = time.monotonic() + 10
    while not is_so():
        want(time.monotonic() < end, otherwise)
        time.sleep(0.001)


# ---- registries to try on

class Ground:
    """The program, and the registries of a run in a folder of their own, each made when it is first
    asked for."""

    def __init__(self, program, folder):
        if not os.access(program, os.X_OK):
            fail(f'there is no program {program}: make build proves and builds it')
        signal.signal(signal.SIGTERM, interrupt)
        self.program, self.registries = program, {}
        self.folder = pathlib.Path(tempfile.mkdtemp(dir=folder))

    def __enter__(self):
        return self

    def __exit__(self, *_):
        shutil.rmtree(self.folder)

    def registry(self, name, publications=()):
        if name not in self.registries:
            say(f'making the registry {name}')
            registry = Registry(self.program, self.folder / f'{name}.db')
            with registry.serve() as server:
                publish_all(server.port, publications)
            self.registries[name] = registry
        return self.registries[name]


def interrupt(*_):
    """The first signal ends the script as an interrupt does, and no other disturbs what it ends."""
    signal.signal(signal.SIGTERM, signal.SIG_IGN)
    raise KeyboardInterrupt


def publish_all(port, publications, batch=100):
    """Publishes many, of which so many are sent at once on a connection of their own."""
    publications = list(publications)
    for first in range(0, len(publications), batch):
        some = publications[first:first + batch]
        with connect(port) as connection:
            connection.sendall(b''.join(publish_of(one) for one in some))
            responses = Responses(connection)
            for one in some:
                response = responses.next()
                want(status_of(response) == 201, f'the publish of {one.name} was answered by {response[:200]}')


def publish_of(publication, token=TOKEN):
    return request_of('PUT', '/' + publication.name.replace('/', '%2f'), publication.body, token)


def archives(port, versions, batch=100):
    """Asks for the archives of versions, of which so many are asked for at once. Gives the response
    to each."""
    for first in range(0, len(versions), batch):
        some = versions[first:first + batch]
        with connect(port) as connection:
            connection.sendall(b''.join(request_of('GET', f'/{name}/-/{name}-{version}.tgz') for name, version in some))
            responses = Responses(connection)
            for _ in some:
                yield responses.next()


# ---- what a client sees

class Responses:
    """The responses that come on a connection, one after the other. Each read takes so many bytes at
    most, after a pause of so many seconds."""

    def __init__(self, connection, most=1 << 18, pause=0):
        self.connection, self.most, self.pause, self.held = connection, most, pause, bytearray()

    def next(self):
        """The next one, whole."""
        while (end := self.held.find(b'\r\n\r\n')) < 0:
            self.read()
        whole = end + 4 + int(re.search(rb'\r\ncontent-length: (\d+)', self.held[:end])[1])
        while len(self.held) < whole:
            self.read()
        response = bytes(self.held[:whole])
        del self.held[:whole]
        return response

    def read(self):
        time.sleep(self.pause)
        piece = self.connection.recv(self.most)
        want(piece, f'the server ended the connection after {bytes(self.held[:100])}')
        self.held += piece


def status_of(response):
    return int(response[9:12])


def body_of(response):
    return response[response.index(b'\r\n\r\n') + 4:]


def must_answer(connection, request, status=404):
    """Asks, and gives the response, which has to have this status."""
    connection.settimeout(30)
    connection.sendall(request)
    response = read_response(connection)
    want(status_of(response) == status, f'answered by {response[:100]}')
    return response


def closes(response):
    return b'\r\nconnection: close\r\n' in response[:response.index(b'\r\n\r\n') + 2]


def ended(connection, patience):
    """Reads until the other side ends the connection. Gives what came before."""
    connection.settimeout(patience)
    parts = []
    try:
        while piece := connection.recv(1 << 16):
            parts.append(piece)
    except ConnectionResetError:
        pass
    except TimeoutError:
        raise Otherwise(f'the connection is still open after {patience:.0f} s') from None
    return b''.join(parts)


def is_open(connection):
    """Whether the other side hasn't ended it, where nothing is to be read."""
    return not select.select([connection], [], [], 0)[0]


def is_answered(connection, seconds):
    """Whether something is to be read within so many seconds."""
    return bool(select.select([connection], [], [], seconds)[0])


def reset(connection):
    """Ends a connection at once: what was sent and not read yet is lost."""
    connection.setsockopt(socket.SOL_SOCKET, socket.SO_LINGER, struct.pack('ii', 1, 0))
    connection.close()


# ---- what the system says of connections

def ends_of(server):
    """Of each connection of a server, by its client's port: the number of the file of the server's
    end, which is 0 once it was closed and while it waits to be accepted, and how many bytes the
    system holds of what the server has sent."""
    files, held, server_port = {}, {}, f'0100007F:{server.port:04X}'
    for line in open('/proc/net/tcp').readlines()[1:]:
        words = line.split()
        here, there, (to_send, to_read) = words[1], words[2], (int(part, 16) for part in words[4].split(':'))
        if here == server_port and there != '00000000:0000':
            port = int(there[9:], 16)
            files[port], held[port] = int(words[9]), held.get(port, 0) + to_send
        elif there == server_port:
            port = int(here[9:], 16)
            held[port] = held.get(port, 0) + to_read
    return {port: (file, held[port]) for port, file in files.items()}


def is_held(server, client_port):
    """Whether the server still has its end of a connection."""
    file, _ = ends_of(server).get(client_port, (0, 0))
    return file != 0


def until_held(server, connection):
    """Waits until a connection was accepted."""
    for _ in range(500):
        if is_held(server, connection.getsockname()[1]):
            return
        time.sleep(0.01)
    raise Otherwise('the connection is not accepted')


def until_let_go(server, connection, patience, meanwhile=lambda: None):
    port, end = connection.getsockname()[1], time.monotonic() + patience
    while is_held(server, port):
        want(time.monotonic() < end, f'the connection is still open after {patience:.0f} s')
        meanwhile()
        time.sleep(0.02)
