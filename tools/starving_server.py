"""What `starve` does with a server: its start, each kind of request, and commands that come together,
with one call refused."""

import contextlib
import itertools
import re
import signal
import socket
import subprocess
import time

from starving import *
from tries import Otherwise, halted

PATIENCE, TRIES = 30, 5


class StarvedServer:
    """`registry serve` on a place's file, with these options. A call of its start may be refused: then
    it may have ended."""

    def __init__(self, place, refused=0, options=()):
        self.place = place
        place.begin_anew()
        place.shared.begin(refused)
        with socket.create_server(('127.0.0.1', 0)) as door:
            self.port = door.getsockname()[1]
        words = [place.program, '--db', str(place.db), 'serve', '--port', str(self.port), *options]
        self.process = subprocess.Popen(words, stdout=subprocess.PIPE, stderr=subprocess.PIPE, env=place.environment())
        self.says = self.process.stdout.readline() == f'listening 127.0.0.1:{self.port}\n'.encode()
        self.settle()

    def __enter__(self):
        return self

    def __exit__(self, *_):
        self.process.kill()
        self.ended()

    def settle(self):
        """Waits until the server has nothing more to do, and gives how many calls there were."""
        end = time.monotonic() + PATIENCE
        while self.lives():
            calls = self.place.shared.calls()
            time.sleep(0.001)
            state = open(f'/proc/{self.process.pid}/stat').read().rpartition(')')[2].split()[0]
            if state == 'S' and calls == self.place.shared.calls():
                break
            want(time.monotonic() < end, 'a server does not come to rest')
        return self.place.shared.calls()

    def ended(self):
        """What it says on standard error, and its status, once it has ended."""
        _, errors = self.process.communicate(timeout=PATIENCE)
        return errors, self.process.returncode

    def lives(self):
        return self.process.poll() is None


def ask(port, request):
    """The response on a connection of its own, as `heard` gives it."""
    with socket.create_connection(('127.0.0.1', port), PATIENCE) as connection:
        with contextlib.suppress(ConnectionResetError, BrokenPipeError):
            connection.sendall(request)
        return heard(connection)


def ask_together(server, requests, refused=0):
    """The responses to requests that come in one round, each on a connection of its own, and how many
    bytes each call asks for that the server makes for them. One of these calls may be refused."""
    with contextlib.ExitStack() as stack:
        connections = [stack.enter_context(socket.create_connection(('127.0.0.1', server.port), PATIENCE)) for _ in requests]
        first = server.settle() + 1
        server.place.shared.refuse_next(refused)
        with halted(server):
            for connection, request in zip(connections, requests):
                connection.sendall(request)
        came = [heard(connection) for connection in connections]
        return came, server.place.shared.sizes(first, server.settle() + 1)


def heard(connection):
    """The response on a connection: what came of it before the server ended the connection, if it did.
    After a fault it has to."""
    came = b''
    try:
        while not is_whole(came) and (piece := connection.recv(1 << 16)):
            came += piece
        if is_fault(came):
            want(connection.recv(1) == b'', 'something comes after a fault')
    except (ConnectionResetError, BrokenPipeError):
        pass
    except TimeoutError:
        raise Otherwise(f'the connection is still open after {PATIENCE} s; what came is {came[:200]}') from None
    return came


def is_whole(response):
    head, end, body = response.partition(b'\r\n\r\n')
    return end and len(body) >= int(re.search(rb'\r\ncontent-length: (\d+)', head)[1])


def is_fault(response):
    head, _, body = response.partition(b'\r\n\r\n')
    return head.startswith(b'HTTP/1.1 503 ') and head.endswith(b'\r\nconnection: close') and body == b'{"error":"Memory"}'


def starve_start(place, opening, every):
    """The calls of a server's start that aren't those of its open, each refused in turn, up to where
    it waits for the first connection: it ends, and says why, or it serves. Gives how many there are,
    how many were refused, and in how many runs a fault came."""
    request = b'GET /tool HTTP/1.1\r\n\r\n'
    with StarvedServer(place) as server:
        calls, (first, end) = place.shared.calls(), same_opening(place, 'a server', opening)
        before, answer = place.rows(), ask(server.port, request)
    numbers, faults = [*range(1, first), *range(end, calls + 1)][::every], 0
    for number in numbers:
        where = f'the start of a server with call {number} of {calls} refused'
        with StarvedServer(place, number) as server:
            if server.lives():
                want(server.says and ask(server.port, request) == answer, f'{where}: it answers otherwise')
            else:
                want(server.ended() == FAULT[1:], f'{where}: it ends, and does not say why')
                faults += 1
            want(place.shared.has_refused(), f'{where}: there were only {place.shared.calls()}')
            want(place.rows() == before, f'{where} leaves the file {difference(before, place.rows())}')
    return calls, len(numbers), faults


class Expected:
    """What a server that was just started answers to a request, and to the same one again; how many
    bytes each call asks for until then; and what the file holds before and after it."""

    def __init__(self, place, request, options):
        with StarvedServer(place, options=options) as server:
            first, self.before = place.shared.calls() + 1, place.rows()
            self.answer = ask(server.port, request)
            self.sizes = place.shared.sizes(first, server.settle() + 1)
            self.after, self.second = place.rows(), ask(server.port, request)


class Starving:
    """A request of which each call is refused in turn. One server is asked for many, until the file
    holds something else, or it takes memory otherwise than one that was just started."""

    def __init__(self, place, request, options):
        self.place, self.request, self.options, self.server = place, request, options, None
        self.expected = Expected(place, request, options)

    def __enter__(self):
        return self

    def __exit__(self, *_):
        if self.server:
            self.server.__exit__()
        self.server = None

    def refuse(self, number):
        """Refuses one call. Gives whether a fault came."""
        where = f'{self.request[:60]} with call {number} of {len(self.expected.sizes)} refused'
        came, rows = self.came(number), self.place.rows()
        is_answered = came == self.expected.answer and rows == self.expected.after
        want(is_answered or is_fault(came), f'{where} is answered by {came[:300]}')
        want(is_answered or rows == self.expected.before,
             f'{where} is answered by {came[:300]}, and leaves the file {difference(self.expected.before, rows)}')
        then = ask(self.server.port, self.request)
        want(then == (self.expected.second if is_answered else self.expected.answer) and self.place.rows() == self.expected.after,
             f'{where} is answered by {came[:300]}, and the same request is then answered by {then[:300]}')
        want(self.server.lives(), f'{where} ends the server')
        if self.expected.after != self.expected.before:
            self.__exit__()
        return not is_answered

    def came(self, number):
        """What comes where this call is refused, of a server that takes memory as one that was just started."""
        for _ in range(TRIES):
            self.server = self.server or StarvedServer(self.place, options=self.options)
            first = self.place.shared.calls() + 1
            self.place.shared.refuse_next(number)
            came = ask(self.server.port, self.request)
            self.server.settle()
            if self.place.shared.has_refused() and self.place.shared.sizes(first, first + number) == self.expected.sizes[:number]:
                return came
            self.__exit__()
        raise Otherwise(f'{self.request[:60]}: {TRIES} servers that were just started take memory each in another way')


def starve_request(place, request, every, options=()):
    """Each call of a request refused in turn, of a server with these options. Gives how many there are, how many were refused, and
    in how many runs a fault came."""
    with Starving(place, request, options) as starving:
        calls = len(starving.expected.sizes)
        numbers = range(1, calls + 1, every)
        return calls, len(numbers), sum(starving.refuse(number) for number in numbers)


class StarvingTogether:
    """Commands that come in one round, of which each call is refused in turn, each time of a server that
    was just started."""

    def __init__(self, place, requests, options):
        self.place, self.requests, self.options = place, requests, options
        self.all = tuple(range(len(requests)))
        self.rows = {some: self.rows_after(some) for count in range(len(requests) + 1)
                     for some in itertools.combinations(self.all, count)}
        with StarvedServer(place, options=options) as server:
            self.answers, self.sizes = ask_together(server, requests)
            want(place.rows() == self.rows[self.all], f'together they leave the file {difference(self.rows[self.all], place.rows())}')
            self.second, _ = ask_together(server, requests)

    def rows_after(self, some):
        """What the file holds once some of them were answered, one after the other."""
        with StarvedServer(self.place, options=self.options) as server:
            for number in some:
                want(ask(server.port, self.requests[number]).startswith(b'HTTP/1.1 2'), f'{self.requests[number][:60]} is not done')
            return self.place.rows()

    def refuse(self, number):
        """Refuses one call, of a server that takes memory as the first one did. Gives how many commands
        met the fault."""
        for _ in range(TRIES):
            with StarvedServer(self.place, options=self.options) as server:
                came, sizes = ask_together(server, self.requests, number)
                if self.place.shared.has_refused() and sizes[:number] == self.sizes[:number]:
                    return self.met(server, number, came)
        raise Otherwise(f'commands that come together: {TRIES} servers take memory each in another way')

    def met(self, server, number, came):
        """Each command is answered rightly and done, or by the fault and not done, and then they come
        again. Gives how many met the fault."""
        where = f'commands that come together, with call {number} of {len(self.sizes)} refused'
        done = tuple(one for one in self.all if came[one] == self.answers[one])
        want(all(is_fault(came[one]) for one in self.all if one not in done), f'{where}: they are answered by {came}')
        rows = self.place.rows()
        want(rows == self.rows[done], f'{where}: {done} are done, which leaves the file {difference(self.rows[done], rows)}')
        then, _ = ask_together(server, self.requests)
        wanted = [self.second[one] if one in done else self.answers[one] for one in self.all]
        want(then == wanted and self.place.rows() == self.rows[self.all], f'{where}: then they are answered by {then}')
        want(server.lives(), f'{where} ends the server')
        return len(self.all) - len(done)


def starve_together(place, requests, every, options=()):
    """Each call of commands that come together refused in turn. From the first one whose refusal all of
    them meet to the last one, no refusal is met by some alone. Gives what `starve_request` gives."""
    starving = StarvingTogether(place, requests, options)
    numbers = range(1, len(starving.sizes) + 1, every)
    met = [starving.refuse(number) for number in numbers]
    whole = [place for place, count in enumerate(met) if count == len(requests)]
    want(whole, 'no refused call is met by all commands that come together')
    want(set(met[whole[0]:whole[-1]]) <= {0, len(requests)}, 'a refused call is met by some of the commands that share a commit')
    return len(starving.sizes), len(numbers), sum(count > 0 for count in met)
