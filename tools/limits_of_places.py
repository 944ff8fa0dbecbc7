"""Tries of a full server, of one that is halted for a while, and of one for which the system has no
descriptor left. They run one after the other."""

import itertools
import resource

from tries import *

CONNECTIONS, REQUEST = 512, 10

# So many publishes are under way, which lack so many bytes.
PUBLISHES, LAST = 8, 1000
NUMBERS = itertools.count()


def run(ground, tries, slack):
    registry = ground.registry('places')
    with registry.serve() as server:
        for one in tries:
            one.run(server, slack)


# ---- all places are taken

def full(server, slack):
    """512 connections, of which one has half a request, and two were there before the others: the
    next one takes the place of the one that had nothing begun for longest."""
    half = connect(server.port)
    half.sendall(NOBODY[:10])
    time.sleep(0.5)
    first, second = connect(server.port), None
    time.sleep(0.5)
    second = connect(server.port)
    time.sleep(0.5)
    others = [connect(server.port) for _ in range(CONNECTIONS - 3)]
    time.sleep(0.5)
    must_answer(first, NOBODY)
    want(all(is_open(one) for one in [half, first, second, *others]), 'one of 512 has ended')
    next_one = connect(server.port)
    must_answer(next_one, NOBODY)
    came = ended(second, 5)
    want(came == b'', f'the one that ended was answered by {came[:100]}')
    must_answer(half, NOBODY[10:])
    for one in [first, next_one, *others]:
        want(is_open(one), 'more than one of 512 has ended')
        must_answer(one, NOBODY)
    for one in [half, first, next_one, *others]:
        one.close()
    return 'so it is'


def full_and_busy(server, slack):
    """512 connections with half a request each: the next one waits until one of them has ended."""
    time.sleep(1)
    busy = []
    for _ in range(CONNECTIONS):
        busy.append(connect(server.port))
        busy[-1].sendall(NOBODY[:10])
    time.sleep(1)
    next_one = connect(server.port)
    next_one.sendall(NOBODY)
    want(not is_answered(next_one, 2), 'the 513th is answered beside 512 with a request begun')
    want(all(is_open(one) for one in busy), 'one of 512 has ended')
    busy.pop().close()
    want(is_answered(next_one, 2 + slack), 'the 513th is not answered once one has ended')
    for one in busy:
        must_answer(one, NOBODY[10:])
        one.close()
    next_one.close()
    return 'so it is'


# ---- the system has no descriptor left

FILES = 40


def let_open_few(server):
    time.sleep(1)
    resource.prlimit(server.process.pid, resource.RLIMIT_NOFILE, (FILES, FILES))


def few_files(server, slack):
    """A server that may open 40 files, and 60 connections, one after the other, each with a request
    that is answered: the next one takes the place of the one that had nothing begun for longest."""
    let_open_few(server)
    connections = []
    for _ in range(60):
        connections.append(connect(server.port))
        connections[-1].settimeout(2 + slack)
        must_answer(connections[-1], NOBODY)
        time.sleep(0.02)
    time.sleep(0.5)
    still = [number for number, one in enumerate(connections) if is_open(one)]
    for number in still:
        must_answer(connections[number], NOBODY)
    for one in connections:
        one.close()
    want(0 < len(still) < FILES and still == list(range(60 - len(still), 60)), f'open are those of the numbers {still}')
    return f'the last {len(still)} stay open'


def few_files_and_busy(server, slack):
    """The same server, and 60 connections with half a request each: those that are in stay, and the
    others wait until these have been answered."""
    let_open_few(server)
    halves = [begun(server, NOBODY[:10]) for _ in range(60)]
    time.sleep(2)
    inside = [one for one in halves if is_held(server, one.getsockname()[1])]
    want(0 < len(inside) < FILES, f'{len(inside)} of 60 are let in')
    want(all(is_open(one) for one in halves), 'one of 60 has ended')
    for one in inside:
        must_answer(one, NOBODY[10:])
    for one in halves:
        if one not in inside:
            must_answer(one, NOBODY[10:])
    for one in halves:
        one.close()
    return f'{len(inside)} first'


def full_and_asking(server, slack):
    """512 connections, of which eight have a publish under way, and 20 that are new. The server finds
    these and the last bytes of the publishes at once. While it stores them the oldest 20 of the others
    ask, on which nothing was begun."""
    time.sleep(1)
    idle_ones = [connect(server.port) for _ in range(CONNECTIONS - PUBLISHES)]
    requests = [publish_of(Publication(f'asking-{next(NUMBERS)}', '1.0.0', 3_000_000)) for _ in range(PUBLISHES)]
    publishers = [begun(server, request[:-LAST]) for request in requests]
    time.sleep(1)
    with halted(server):
        new_ones = [connect(server.port) for _ in range(20)]
        for one, request in zip(publishers, requests):
            one.sendall(request[-LAST:])
        before = server.processor()
    until(lambda: server.processor() > before + 0.01, 'the server does nothing')
    for one in idle_ones[:20] + new_ones:
        send_if_open(one, NOBODY)
    is_in_time = not all(is_answered(one, 0) for one in publishers)
    answered = [is_answer_to_come(one) for one in idle_ones[:20] + new_ones]
    for one in idle_ones + publishers + new_ones:
        one.close()
    want(is_in_time, 'the publishes were answered before the 40 had asked')
    return want(all(answered), f'{sum(answered[:20])} of those 20 and {sum(answered[20:])} of the new 20 are answered')


def send_if_open(connection, some):
    try:
        connection.sendall(some)
    except OSError:
        pass


def is_answer_to_come(connection):
    """Whether a response comes, and not the end of the connection."""
    try:
        return is_answered(connection, 5) and connection.recv(1 << 16).startswith(b'HTTP/1.1 404 ')
    except ConnectionResetError:
        return False


# ---- a halt of the server, as a copy of its file makes one

def half_in_a_halt(server, slack):
    """Half a request, and a halt for longer than a request may take."""
    time.sleep(1)
    half = connect(server.port)
    half.sendall(NOBODY[:10])
    time.sleep(0.5)
    with halted(server):
        time.sleep(REQUEST + 1)
    time.sleep(0.5)
    must_answer(half, NOBODY[10:])
    half.close()
    return 'so it is'


def publish_in_a_halt(server, slack):
    """Two publishes of which half has come when the server is halted. The other half of one comes
    while it is, and of the other one afterwards."""
    requests = [publish_of(Publication(f'halted-{next(NUMBERS)}', '1.0.0', 200_000)) for _ in range(2)]
    meanwhile, afterwards = (begun(server, first_half(request)) for request in requests)
    time.sleep(0.5)
    with halted(server):
        meanwhile.sendall(second_half(requests[0]))
        time.sleep(REQUEST + 1)
    time.sleep(0.5)
    came = [outcome(meanwhile, b''), outcome(afterwards, second_half(requests[1]))]
    return want(came == ['answered by 201'] * 2, f'the one is {came[0]}, the other {came[1]}')


def begun(server, front):
    connection = connect(server.port)
    connection.sendall(front)
    return connection


def first_half(request):
    return request[:len(request) // 2]


def second_half(request):
    return request[len(request) // 2:]


def outcome(connection, rest):
    """What comes of a connection, once the rest was sent."""
    try:
        connection.settimeout(10)
        connection.sendall(rest)
        response = connection.recv(1 << 16)
    except OSError:
        return 'dropped'
    finally:
        connection.close()
    return f'answered by {status_of(response)}' if response else 'dropped'


TRIES = [
    Try('publish-in-halt', 'two publishes under way while the server is halted for 11 s, as a copy does',
        'both are answered by 201', publish_in_a_halt),
    Try('half-in-halt', 'half a request, and a halt of 11 s', 'it is answered once its other half has come', half_in_a_halt),
    Try('full-and-asking', '512 connections, of which the oldest 20 idle ones ask while 20 new ones wait and the server is busy',
        'all 40 are answered', full_and_asking),
    Try('full', 'a 513th connection beside 512',
        'it is answered, and the one that had nothing begun for longest has ended', full),
    Try('full-and-busy', 'a 513th connection beside 512 with a request begun each',
        'it is answered once one of them has ended', full_and_busy),
    Try('few-files', '60 connections with a request each, one after the other, to a server that may open 40 files',
        'each is answered, and those have ended that had nothing begun for longest', few_files),
    Try('few-files-and-busy', '60 connections with half a request each to such a server',
        'none ends for another, and all are answered', few_files_and_busy),
]
