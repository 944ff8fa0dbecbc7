"""Tries of what a refused request costs everybody else: time in a registry of 10,000 packages of
seven needs each, and memory; and of the memory that a packument takes which many read at once. They
run one after the other."""

import itertools
import threading

from tries import *

FEW, MANY, ROUNDS, LISTS, SINGLE = 1_000, 10_000, 100, 20, 2_000
BODY, BODIES, STALLED = 4_194_304, 100, 20
VERSIONS, LONG, READERS = 17, 4_100_000, 40

# Of a body under way so many bytes are sent before its client stops: most of it, or a sixteenth.
FRONT = 3_900_000
EARLY, MANY_BODIES = 270_000, 240

# What is published in a round has a version of its own.
ROUND = itertools.count(1)
WITHDRAWAL = '/-/package/needed/versions/1.5.0'
DELETE = 'DELETE', '/-/package/x/versions/1.0.0', b'', None
PACKUMENT = 'GET', '/p000500', b'', None


def run(ground, tries, slack):
    for work in ALONE:
        if any(one.work is work for one in tries):
            with ground.registry('memory').serve() as server:
                run_some(tries, [work], server)
    if any(one.work is packument_by_many for one in tries):
        versions = (Publication('kit', f'{number}.0.0', 100, more=LONG) for number in range(1, VERSIONS + 1))
        with ground.registry('long', versions).serve() as server:
            run_some(tries, [packument_by_many], server)
    if any(one.work in LARGE for one in tries):
        with packages(ground, FEW).serve() as few, packages(ground, MANY).serve() as many:
            run_some(tries, LARGE, few, many)


def run_some(tries, works, *servers):
    for one in tries:
        if one.work in works:
            one.run(*servers)


def packages(ground, count):
    """A registry of so many packages of seven needs each, of which one needs `needed`."""
    return ground.registry(f'packages-{count}', publications(count))


def publications(count):
    yield Publication('needed', '1.5.0', 100)
    yield Publication('needing', '1.0.0', 100, needs=('needed',))
    for number in range(count):
        yield Publication(f'p{number:06}', '1.0.0', 100)


# ---- time

def delete_by_nobody(few, many):
    """A withdrawal without a token, of a package that isn't there, and a packument, in turns."""
    client = Client(many.port)
    refused, packument = in_turn(ROUNDS, lambda _: client.must(401, *DELETE), lambda _: client.must(200, *PACKUMENT))
    return want(refused <= 5 * packument,
                f'{milliseconds(refused)} ms, which is {refused / packument:.1f} packuments of {milliseconds(packument)} ms')


def thousand_deletes(few, many):
    """1,000 such withdrawals in one write. Beside them a packument is asked for again and again."""
    client, deletes, came, times = Client(many.port), connect(many.port), b'', []
    client.must(200, *PACKUMENT)
    deletes.sendall(request_of(*DELETE) * 1000)
    deletes.setblocking(False)
    while (piece := come_meanwhile(deletes)) != b'':
        came += piece or b''
        times.append(client.must(200, *PACKUMENT))
    refused = came.count(b'HTTP/1.1 401 ')
    want(refused == 1000, f'{refused} of 1,000 are refused')
    return want(median(times) < 0.002, f'{milliseconds(median(times))} ms each, {milliseconds(max(times))} at most')


def come_meanwhile(connection):
    """What has come on a connection. None where nothing has, and nothing where it has ended."""
    try:
        return connection.recv(1 << 18)
    except BlockingIOError:
        return None


def depended(few, many):
    """A withdrawal that is refused as a package needs the version."""
    refused, = in_turn(ROUNDS, refused_withdrawal(many))
    return want(refused < 0.005, f'{milliseconds(refused)} ms')


def depended_growth(few, many):
    """The same, where there are ten times as many packages that need other ones."""
    among_few, among_many = in_turn(ROUNDS, refused_withdrawal(few), refused_withdrawal(many))
    return want(among_many <= 1.5 * among_few,
                f'{milliseconds(among_few)} and {milliseconds(among_many)} ms: {among_many / among_few:.1f} times as long')


def refused_withdrawal(server):
    """A call that asks to withdraw the version that a package needs, as its owner."""
    client = Client(server.port)
    response, _ = client.ask('DELETE', WITHDRAWAL)
    want(body_of(response) == b'{"error":"Depended"}', f'it is answered by {response[:100]}')
    return lambda _: client.must(409, 'DELETE', WITHDRAWAL)


def own_packages_growth(few, many):
    """The processor time of the server for the lists of a user who maintains one package of many, and is
    the only member of an organisation without one."""
    among_few, among_many = in_turn(LISTS, own_packages(few), own_packages(many))
    return want(among_many <= 1.5 * among_few,
                f'{milliseconds(among_few)} and {milliseconds(among_many)} ms: {among_many / among_few:.1f} times as long')


def own_packages(server):
    """A call that asks for both lists, by commands beside the server."""
    words = server.registry.words
    for line in '--operator user-add ann', '--operator org-create pad ann', '--as bob owner-add p000000 ann':
        words(*line.split())

    def ask(_):
        before = server.processor()
        words('--as', 'ann', 'my-packages')
        words('--as', 'ann', 'org-packages', 'pad')
        return server.processor() - before
    return ask


def head_in_bytes(server):
    """The processor time of the server for single bytes at the front of a long head, and at its end."""
    head = request_of('GET', '/' + 15_000 * 'x')[:15_000]
    connection = connect(server.port)
    front = for_single_bytes(server, connection, head[:SINGLE])
    connection.sendall(head[SINGLE:-SINGLE])
    time.sleep(0.1)
    end = for_single_bytes(server, connection, head[-SINGLE:])
    connection.close()
    return want(end <= 1.25 * front, f'{milliseconds(front / SINGLE)} ms a byte at the front, {milliseconds(end / SINGLE)} at the end')


def for_single_bytes(server, connection, some):
    """The processor time for these bytes, each sent once the one before has been read."""
    before = server.processor()
    for byte in some:
        connection.sendall(bytes([byte]))
        time.sleep(0.0003)
    return server.processor() - before


# ---- memory

def bodies_by_nobody(server):
    """Bodies without a token, each refused, and with one byte more after it, so that their
    connections hold something. One comes after the other, and all connections stay open."""
    body = Publication('kit', '1.0.0', 3_144_000).body.ljust(BODY)
    before, _ = server.memory()
    kept = []
    for _ in range(BODIES):
        kept.append(connect(server.port))
        must_answer(kept[-1], request_of('PUT', '/kit', body) + b'G', 401)
    after, most = server.memory()
    for one in kept:
        one.close()
    return want(after - before < 60, f'{figure(after - before)} MB more, {figure(most - before)} at most')


def packument_by_many(server):
    """A packument of more than 64 MiB. Many connections ask for it, and read it slowly, all at once."""
    before, _ = server.memory()
    readers = [connect(server.port) for _ in range(READERS)]
    for one in readers:
        one.sendall(request_of('GET', '/kit'))
    size = min(asked_size(one) for one in readers) / 2 ** 20
    want(size > 64, f'the packument has {figure(size)} MB')
    for one in readers * 4:
        want(one.recv(1 << 16), 'the server ended a connection')
    after, most = server.memory()
    for one in readers:
        one.close()
    return want(after - before < 2.5 * size,
                f'{figure(after - before)} MB more, {figure(most - before)} at most, for {figure(size)} MB')


def asked_size(connection):
    """How many bytes the body has of a response that has begun."""
    head = connection.recv(1 << 16)
    want(status_of(head) == 200, f'answered by {head[:100]}')
    return int(re.search(rb'\r\ncontent-length: (\d+)', head)[1])


class Crowd:
    """Clients that all send the front of a body without a token at the same time, as far as the
    server takes it."""

    def __init__(self, port, count, size=FRONT):
        whole = request_of('PUT', '/kit', Publication('kit', '1.0.0', 3_144_000).body.ljust(BODY))
        front, self.rest = whole[:size], whole[size:]
        self.clients = [connect(port) for _ in range(count)]
        for one in self.clients:
            one.setblocking(False)
        self.left = {one: memoryview(front) for one in self.clients}
        self.begin()

    def begin(self):
        self.is_over = False
        self.sender = threading.Thread(target=self.send, daemon=True)
        self.sender.start()

    def stop(self):
        self.is_over = True
        self.sender.join()

    def send(self):
        while self.left and not self.is_over:
            _, ready, _ = select.select([], list(self.left), [], 0.1)
            for one in ready:
                self.send_some(one)

    def send_some(self, one):
        try:
            self.left[one] = self.left[one][one.send(self.left[one][:1 << 16]):]
        except BlockingIOError:
            pass
        except OSError:
            self.left[one] = b''
        if not self.left[one]:
            del self.left[one]

    def go_on(self):
        """All of them send what they have not sent. Gives how many are answered by 401."""
        self.stop()
        self.left = {one: memoryview(bytes(self.left.get(one, b'')) + self.rest) for one in self.clients}
        self.begin()
        return sum(is_refused(one) for one in self.clients)

    def close(self):
        self.stop()
        for one in self.clients:
            one.close()


def is_refused(connection):
    """Whether the next response comes within a minute, and is 401."""
    try:
        head = connection.recv(1 << 16) if is_answered(connection, 60) else b''
        return head != b'' and status_of(head) == 401
    except OSError:
        return False


def bodies_under_way(server):
    """100 clients without a token that stop within a body, at the same time. Beside them others ask
    and publish what is small, and then all of them go on, before the time of those is up that are
    read side by side."""
    client, before, number = Client(server.port), server.memory()[0], next(ROUND)
    client.must(201, 'PUT', '/small', Publication('small', f'1.{number}.0', 1000).body)
    crowd = Crowd(server.port, BODIES)
    time.sleep(3)
    after, _ = server.memory()
    small = max(client.must(200, 'GET', '/small') for _ in range(20))
    publish = client.must(201, 'PUT', '/small', Publication('small', f'1.{number}.1', 1000).body)
    refused = crowd.go_on()
    crowd.close()
    _, most = server.memory()
    came = (f'{figure(after - before)} MB more, {figure(most - before)} at most; a packument {milliseconds(small)} ms, '
            f'a publish {milliseconds(publish)} ms; {refused} of {BODIES} are answered')
    return want(most - before < 320 and small < 0.1 and publish < 0.5 and refused >= BODIES - 2, came)


def many_bodies_under_way(server):
    """240 clients without a token that stop once a little more than a sixteenth of a body has come, and
    then all go on."""
    before, _ = server.memory()
    crowd = Crowd(server.port, MANY_BODIES, EARLY)
    time.sleep(3)
    after, _ = server.memory()
    refused = crowd.go_on()
    crowd.close()
    _, most = server.memory()
    return want(most - before < 320 and refused >= MANY_BODIES - 2,
                f'{figure(after - before)} MB more, {figure(most - before)} at most; {refused} of {MANY_BODIES} are answered')


def bodies_that_stall(server):
    """20 clients without a token that stop within a body, and send nothing more. Beside them one
    publishes 100 kB."""
    body = Publication('middle', f'1.{next(ROUND)}.0', 75_000).body
    crowd = Crowd(server.port, STALLED)
    time.sleep(3)
    took = Client(server.port).must(201, 'PUT', '/middle', body)
    crowd.close()
    return want(took < 15, f'a publish of {len(body)} bytes takes {took:.1f} s')


LARGE = delete_by_nobody, thousand_deletes, depended, depended_growth, own_packages_growth
ALONE = head_in_bytes, bodies_by_nobody, bodies_under_way, many_bodies_under_way, bodies_that_stall

TRIES = [
    Try('delete-by-nobody', 'a withdrawal without a token, among 10,000 packages of seven needs each',
        'at most five packuments', delete_by_nobody),
    Try('thousand-deletes', 'a packument beside 1,000 such withdrawals that are pipelined',
        'under 2 ms each, at the median', thousand_deletes),
    Try('depended', 'a withdrawal refused as Depended among 10,000 such packages', 'under 5 ms, at the median', depended),
    Try('depended-growth', 'the same among 1,000 and among 10,000 that need other packages',
        'at most 1.5 times as long', depended_growth),
    Try('own-packages-growth', 'the lists of a user who has one package, among 1,000 and among 10,000',
        'at most 1.5 times as long', own_packages_growth),
    Try('head-in-bytes', 'processor time for single bytes of a head of 15,000 bytes',
        'at its end at most a quarter more than at its front', head_in_bytes),
    Try('bodies-by-nobody', 'resident memory after 100 refused bodies of 4 MiB with one byte more each',
        'under 60 MB more', bodies_by_nobody),
    Try('packument-by-many', 'resident memory while 40 connections slowly read one packument of more than 64 MiB',
        'less than two and a half such packuments more', packument_by_many),
    Try('bodies-under-way', '100 clients without a token that stop within a body of 4 MiB, others beside them, and then all go on',
        'under 320 MB more, a packument and a small publish at once, and all but two are answered', bodies_under_way),
    Try('many-bodies-under-way', '240 clients without a token that stop after 270,000 bytes of a body of 4 MiB, and then all go on',
        'under 320 MB more, and all but two are answered', many_bodies_under_way),
    Try('bodies-that-stall', '20 clients without a token that stop within a body of 4 MiB, and a publish of 100 kB beside them',
        'within 15 s', bodies_that_stall),
]
