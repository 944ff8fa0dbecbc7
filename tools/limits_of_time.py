"""Tries of how long a connection may last. All of them run side by side over one server, each in a
thread of its own, so that those of 60 seconds pass together."""

import threading

from tries import *

IDLE, REQUEST, RESPONSE, DRAIN, REQUESTS = 60, 10, 60, 2, 1000

# How often the server looks at the time.
LOOK = 0.25

# For so many bytes that are taken of a connection's responses it has a second more.
RATE = 16_000

LARGE = request_of('GET', '/huge/-/huge-1.0.0.tgz')
MIDDLE = b'GET /m/-/m-1.0.0.tgz HTTP/1.1\n\n'
PACKUMENT = request_of('GET', '/m')
TOO_LARGE = b'PUT /kit HTTP/1.1\r\ncontent-length: 4194305\r\n\r\n'


def run(ground, tries, slack):
    registry = ground.registry('time', [Publication('huge', '1.0.0', 3_000_000), Publication('m', '1.0.0', 30_000)])
    with registry.serve() as server:
        threads = [threading.Thread(target=one.run, args=(server, slack), daemon=True) for one in tries]
        for thread in threads:
            thread.start()
        for thread in threads:
            thread.join()


def lasting(limit, work):
    """A try of something that has to last as long as its limit: the work gives how long it did."""
    def timed(server, slack):
        took = work(server, slack)
        return want(limit - 0.01 <= took <= limit + LOOK + slack, f'after {took:.2f} s')
    return timed


# ---- nothing comes, or half of it

def idle(server, slack):
    began = time.monotonic()
    connection = connect(server.port)
    came = ended(connection, IDLE + 10)
    want(came == b'', f'it was answered by {came[:100]}')
    return time.monotonic() - began


def idle_again(server, slack):
    connection = connect(server.port)
    time.sleep(3)
    began = time.monotonic()
    must_answer(connection, NOBODY)
    came = ended(connection, IDLE + 10)
    want(came == b'', f'it was answered by {came[:100]}')
    return time.monotonic() - began


def begun(front):
    def half(server, slack):
        connection = connect(server.port)
        began = time.monotonic()
        connection.sendall(front)
        came = ended(connection, REQUEST + 10)
        want(came == b'', f'it was answered by {came[:100]}')
        return time.monotonic() - began
    return half


def dribbled(server, slack):
    """A head of which a byte comes each half second."""
    connection = connect(server.port)
    connection.settimeout(0.5)
    began = time.monotonic()
    connection.sendall(b'GET /none HTTP/1.1\r\nx: ')
    while time.monotonic() - began < REQUEST + 10:
        try:
            came = connection.recv(1 << 16)
            want(came == b'', f'it was answered by {came[:100]}')
            return time.monotonic() - began
        except TimeoutError:
            pass
        except ConnectionResetError:
            return time.monotonic() - began
        try:
            connection.sendall(b'x')
        except OSError:
            return time.monotonic() - began
    raise Otherwise('the connection is still open')


# ---- responses that are not read, or slowly

def narrow(server, segment=None):
    """A connection that takes little at once. With small segments the system holds little for it,
    too, and goes on with little."""
    connection = socket.socket()
    connection.setsockopt(socket.SOL_SOCKET, socket.SO_RCVBUF, 4096)
    connection.setsockopt(socket.SOL_SOCKET, socket.SO_SNDBUF, 1 << 18)
    if segment:
        connection.setsockopt(socket.IPPROTO_TCP, socket.TCP_MAXSEG, segment)
    connection.connect(('127.0.0.1', server.port))
    until_held(server, connection)
    return connection


def most_held():
    """The most bytes that the system holds for a connection from which nothing is read."""
    first, most = (list(map(int, open(f'/proc/sys/net/ipv4/{name}').read().split())) for name in ('tcp_rmem', 'tcp_wmem'))
    return first[1] + most[2]


def many(server):
    """How many responses of 3 MB are more than the system holds, and the bytes of all of them."""
    connection = connect(server.port)
    length = len(must_answer(connection, LARGE, 200))
    connection.close()
    count = most_held() // length + 3
    return count, count * length


def unread(server, slack):
    """Many responses in a row, of which nothing is read until the connection has ended: the system
    takes a part of them, and not all."""
    count, whole = many(server)
    connection = narrow(server)
    began = time.monotonic()
    connection.sendall(LARGE * count)
    until_let_go(server, connection, RESPONSE + 10)
    took = time.monotonic() - began
    came = len(ended(connection, 30))
    want(0 < came < whole, f'{came:,} bytes of {whole:,} came')
    return took


def hardly_read(server, slack):
    """The same, of which at most 100 bytes are read each second: the time isn't counted anew, and so
    few bytes give little more of it."""
    count, whole = many(server)
    connection = narrow(server)
    began = time.monotonic()
    connection.sendall(LARGE * count)
    came, next_read = 0, began

    def take():
        nonlocal came, next_read
        if time.monotonic() >= next_read:
            next_read += 1
            if is_answered(connection, 0):
                came += len(connection.recv(100))

    until_let_go(server, connection, RESPONSE + 10, take)
    took = time.monotonic() - began
    want(came > 1000, f'{came:,} bytes were taken before the end')
    came += len(ended(connection, 30))
    want(came < whole, f'{came:,} bytes of {whole:,} came')
    return took


class ServerTime:
    """How many seconds of a server's own time have passed at least. Of a round it counts 25 ms at most
    beside what it waited, so that its time is slower than ours where it, or the machine, is busy. A
    connection with half a request ends after ten seconds of it: so one comes after the other."""

    def __init__(self, server):
        self.server, self.seconds = server, 0
        self.begin()

    def begin(self):
        self.half = connect(self.server.port)
        self.half.sendall(NOBODY[:10])

    def passed(self):
        if not is_open(self.half):
            self.half.close()
            self.seconds += REQUEST
            self.begin()
        return self.seconds


class SlowReader:
    """A client that asks for 30 kB 900 times at once, and reads so many bytes a second."""

    def __init__(self, server, rate, segment=None):
        self.rate, self.read, self.taken, self.taken_first = rate, 0, 0, None
        self.connection = narrow(server, segment)
        self.port = self.connection.getsockname()[1]
        self.connection.sendall(MIDDLE * 900)

    def look(self, ends):
        """Reads, and sees how many bytes of the responses the system has taken. Gives whether the
        server has ended the connection."""
        file, held = ends.get(self.port, (0, 0))
        if file == 0:
            return True
        self.taken = self.read + held
        # Bytes on their way count at both ends for a moment, so the least that was seen is nearest.
        self.taken_first = self.taken if self.taken_first is None else min(self.taken_first, self.taken)
        if self.rate and is_answered(self.connection, 0):
            self.read += len(self.connection.recv(self.rate))
        return False

    def time_given(self):
        """How many seconds its responses have together, since the first look: at most 60 were left
        then, and what the system has taken since then has given more."""
        return RESPONSE + (self.taken - self.taken_first) / RATE


def let_go_in_time(server, clients):
    """Waits until the server has ended each connection within the time that its responses have, in
    the server's own time. Gives how long that took."""
    time.sleep(1)
    began, still, server_time = time.monotonic(), clients, None
    while still:
        ends = ends_of(server)
        still = [one for one in still if not one.look(ends)]
        server_time = server_time or ServerTime(server)
        passed = server_time.passed()
        late = [one for one in still if passed > one.time_given() + LOOK]
        if late:
            raise Otherwise(f'{len(still)} of {len(clients)} are still open after {passed:.0f} s of the server\'s time, '
                            f'where {late[0].time_given():.0f} s are given to one')
        time.sleep(1)
    return time.monotonic() - began


def readers_of_nothing(server, slack):
    """30 clients that read nothing, until they are let go."""
    took = let_go_in_time(server, [SlowReader(server, 0) for _ in range(30)])
    return f'the last after {took:.0f} s'


def slow_readers(server, slack):
    """The same, where each reads 2,000 bytes a second in small segments, so that the server sends a
    part of a response again and again."""
    clients = [SlowReader(server, 2000, 536) for _ in range(30)]
    took = let_go_in_time(server, clients)
    return f'the last after {took:.0f} s, where {clients[-1].time_given():.0f} s are given to one'


def others_beside(server, slack):
    """What a packument takes beside 60 such clients, ten times a second."""
    time.sleep(2)
    clients = [SlowReader(server, 0) for _ in range(30)] + [SlowReader(server, 0, 536) for _ in range(30)]
    connection, times = connect(server.port), []
    for _ in range(200):
        began = time.monotonic()
        must_answer(connection, PACKUMENT, 200)
        times.append((time.monotonic() - began) * 1000)
        time.sleep(0.1)
    for one in clients:
        one.connection.close()
    times.sort()
    return want(times[190] < 10, f'95 of 100 within {times[190]:.2f} ms, at most {times[-1]:.1f}')


# ---- after the last response

def drained(server, slack):
    """A body that is too large is answered, the server's writing side is shut, and what still comes
    is taken until its time is up; then it is refused."""
    connection = connect(server.port)
    began = time.monotonic()
    response = must_answer(connection, TOO_LARGE, 413)
    want(closes(response), f'{response[:200]} does not say that the connection ends')
    connection.settimeout(0.5)
    want(connection.recv(1) == b'', 'more follows the last response')
    shut, sent, piece = time.monotonic() - began, 0, bytes(1 << 18)
    want(shut < 1 + slack, f'the writing side is shut after {shut:.1f} s alone')
    connection.settimeout(5)
    while time.monotonic() - began < DRAIN + 10:
        try:
            connection.sendall(piece)
            sent += len(piece)
        except OSError:
            want(sent > 2 * most_held(), f'{sent:,} bytes were taken alone, which the system holds by itself')
            return time.monotonic() - began
        time.sleep(0.01)
    raise Otherwise('what comes is still taken')


def drained_silently(server, slack):
    """The same after a request that asks for the end, where nothing more comes."""
    connection = connect(server.port)
    began = time.monotonic()
    response = must_answer(connection, b'GET /none HTTP/1.1\r\nconnection: close\r\n\r\n')
    want(closes(response), f'{response[:200]} does not say that the connection ends')
    until_let_go(server, connection, DRAIN + 10)
    return time.monotonic() - began


def thousand(server, slack):
    """The thousandth response, and no other, says that the connection ends."""
    connection = connect(server.port)
    for number in range(1, REQUESTS + 1):
        response = must_answer(connection, NOBODY)
        want(closes(response) == (number == REQUESTS), f'response {number:,} is {response[:200]}')
    came = ended(connection, 5)
    want(came == b'', f'{came[:100]} follows the last response')
    return 'so it is'


BOUNDED = 'each ends once 60 s have passed, and a second more for each 16,000 bytes that were taken'
SILENT_END = 'it ends without an answer after {} s'
WITHIN = 'it ends within the response after 60 s'

TRIES = [
    Try('readers-of-nothing', '30 clients that read nothing of 900 pipelined responses of 30 kB each', BOUNDED, readers_of_nothing),
    Try('slow-readers', '30 clients that read 2,000 bytes a second of such responses', BOUNDED, slow_readers),
    Try('others-beside', 'a packument beside 60 clients that read nothing of such responses',
        '95 of 100 are answered within 10 ms', others_beside),
    Try('unread', 'a response of which nothing is read', WITHIN, lasting(RESPONSE, unread)),
    Try('hardly-read', 'a response of which 100 bytes are read each second', WITHIN, lasting(RESPONSE, hardly_read)),
    Try('idle', 'a connection on which nothing comes', SILENT_END.format(IDLE), lasting(IDLE, idle)),
    Try('idle-again', 'one on which nothing more comes after an answer', SILENT_END.format(IDLE), lasting(IDLE, idle_again)),
    Try('half-head', 'half a head', SILENT_END.format(REQUEST), lasting(REQUEST, begun(b'GET /none HTTP/1.1\r\nhost:'))),
    Try('half-body', 'half a body', SILENT_END.format(REQUEST),
        lasting(REQUEST, begun(b'PUT /none HTTP/1.1\r\ncontent-length: 10\r\n\r\nhalf '))),
    Try('dribbled', 'a head of which a byte comes each half second', SILENT_END.format(REQUEST), lasting(REQUEST, dribbled)),
    Try('drained', 'what comes after a body that is too large', 'it is dropped, and refused after 2 s', lasting(DRAIN, drained)),
    Try('drained-silently', 'nothing comes after the last response', 'the connection is closed after 2 s',
        lasting(DRAIN, drained_silently)),
    Try('thousand', 'a thousand requests on a connection', 'the last response alone says that it ends', thousand),
]
