"""Tries of the number of connections after which a server ends, or doesn't."""

from tries import *

MILLION = 1_000_000


def run(ground, tries, slack):
    for one in tries:
        one.run(ground.registry('count'))


def counted(registry):
    """A server of five connections: it ends once they have come and ended, and says why."""
    with registry.serve('--connections', '5', errors=subprocess.PIPE) as server:
        come_and_go(server, 5)
        try:
            status = server.process.wait(5)
        except subprocess.TimeoutExpired:
            raise Otherwise('it serves on') from None
        lines = server.process.stderr.read().decode().splitlines()
    return want(status == 0 and len(lines) == 1, f'status {status}, and on standard error {lines or "nothing"}')


def uncounted(registry):
    return serves_on(registry, 5_000)


def million(registry):
    return serves_on(registry, MILLION + 50)


def serves_on(registry, count):
    """So many connections come and go, each with an answer, and the server is still there."""
    with registry.serve() as server:
        began = time.monotonic()
        run = subprocess.run([built('connect'), str(server.port), str(count)], stdout=subprocess.PIPE)
        took = time.monotonic() - began
        want(server.process.poll() is None, f'it ended with status {server.process.returncode}')
        want(run.returncode == 0, run.stdout.decode().strip())
        must_answer(connect(server.port), NOBODY)
    return f'it serves on after {count:,}, in {took:.0f} s'


def come_and_go(server, count):
    """So many connections at once, with an answer each. They are reset, so that the system keeps
    nothing of them."""
    connections = [connect(server.port) for _ in range(count)]
    for connection in connections:
        connection.sendall(NOBODY)
    for connection in connections:
        response = read_response(connection)
        want(status_of(response) == 404, f'answered by {response[:100]}')
        reset(connection)


TRIES = [
    Try('counted', '`serve --connections 5`, once five connections have come and ended',
        'status 0, and a line on standard error', counted),
    Try('uncounted', '5,000 connections to `serve` by its default', 'it serves on', uncounted),
    Try('million', '1,000,050 connections to `serve` by its default', 'it serves on', million),
]
