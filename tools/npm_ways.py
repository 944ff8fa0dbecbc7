"""The ways from npm to a registry, for `make npm-team`: straight, or through nginx as examples/front
has it. A relay before the registry holds a request of npm's back while somebody else asks the
registry for something, or loses an answer. All of it listens on loopback."""

import contextlib
import http.client
import http.server
import pathlib
import re
import socket
import subprocess
import threading
import time

TOP = pathlib.Path(__file__).resolve().parent.parent
# Fields that belong to one connection, and are written anew on the next.
OF_A_CONNECTION = {'connection', 'keep-alive', 'content-length', 'transfer-encoding'}


def free_port():
    with socket.create_server(('127.0.0.1', 0)) as door:
        return door.getsockname()[1]


def until(is_so, process, what):
    """Waits until something is so, for a minute at most, or until its process has ended."""
    end = time.monotonic() + 60
    while not is_so():
        if time.monotonic() > end or process.poll() is not None:
            raise SystemExit(f'npm_team: {what} does not begin')
        time.sleep(0.02)


@contextlib.contextmanager
def started(words, log, is_ready):
    """A process that is ended by its number."""
    with open(log, 'w') as out:
        process = subprocess.Popen([str(word) for word in words], stdout=out, stderr=subprocess.STDOUT, stdin=subprocess.DEVNULL)
    try:
        until(lambda: is_ready(log.read_text()), process, f'{words[0]}, which said {log.read_text()!r},')
        yield process
    finally:
        process.terminate()
        process.wait()


def served(program, db, port, folder):
    """A server of the registry in a file, with --npm and a log of requests."""
    words = [program, '--db', db, 'serve', '--port', port, '--npm', '--log', log_of(folder)]
    return started(words, folder / 'server.log', lambda said: 'listening' in said)


def log_of(folder):
    return folder / 'requests.log'


def logged(folder):
    """Who asked for what method, and the status, of each request in the log."""
    rows = [line.split(' ') for line in log_of(folder).read_text().splitlines()]
    return sorted((row[1], row[2], row[4]) for row in rows if row[1] != '#' and row[2] != 'command')


# ---- the relay

class Relay:
    """It passes requests on, one after the other on each connection. `meanwhile` is a request,
    `METHOD TARGET`, what is done before it is passed on, and whether that is before the second one like
    it; `lost` is one whose answer doesn't come
    back, though it is given. Each is used once."""

    def __init__(self, port):
        self.port, self.lock = port, threading.Lock()
        self.meanwhile, self.lost, self.passed = None, None, []

    def note(self, headers, request, status):
        """A request was passed on, and answered: who asked, as the log says it, the method and the status."""
        method = request.partition(' ')[0]
        token = re.fullmatch(r'Bearer npm_(\w+)_000000001', headers.get('authorization', ''))
        # What is too large or compressed, as npm's audits, is refused before it is read as a request.
        is_unread = status == 413 or headers.get('content-encoding') == 'gzip'
        is_nobody = is_unread or status == 401
        user, method = token[1] if token and not is_nobody else '-', '-' if is_unread else method
        with self.lock:
            self.passed.append((user, method, str(status)))

    def held(self, request):
        """What is to be done before this request goes on."""
        with self.lock:
            if self.meanwhile is None or not is_like(self.meanwhile[0], request):
                return None
            request, work, is_second = self.meanwhile
            self.meanwhile = (request, work, False) if is_second else None
            return None if is_second else work

    def is_lost(self, request):
        with self.lock:
            if self.lost is None or not is_like(self.lost, request):
                return False
            self.lost = None
            return True


def is_like(pattern, request):
    """Whether a request is the one that is meant. REV in it stands for any text without a slash."""
    return re.fullmatch(re.escape(pattern).replace('REV', '[^/]+'), request) is not None


class Door(http.server.ThreadingHTTPServer):
    daemon_threads = True

    def handle_error(self, *_):
        """npm may end a connection at any time."""


@contextlib.contextmanager
def relay(port):
    """A relay before the registry at a port, and its own port."""
    it = Relay(port)
    server = Door(('127.0.0.1', 0), passing(it))
    threading.Thread(target=server.serve_forever, kwargs={'poll_interval': 0.05}, daemon=True).start()
    try:
        yield it, server.server_address[1]
    finally:
        server.shutdown()
        server.server_close()


def passing(it):
    """What a relay does with each request."""
    class Handler(http.server.BaseHTTPRequestHandler):
        protocol_version = 'HTTP/1.1'
        disable_nagle_algorithm = True

        def pass_on(self):
            request = f'{self.command} {self.path}'
            body = body_of(self.headers, self.rfile)
            if work := it.held(request):
                work()
            status, fields, answer = asked(it.port, self.command, self.path, self.headers, body)
            it.note(self.headers, request, status)
            if it.is_lost(request):
                self.close_connection = True
                return
            self.send_response(status)
            for name, value in fields:
                self.send_header(name, value)
            self.send_header('content-length', str(len(answer)))
            self.end_headers()
            self.wfile.write(answer)

        do_GET = do_PUT = do_POST = do_DELETE = pass_on

        def log_message(self, *_):
            pass

    return Handler


def body_of(headers, connection):
    """The body of a request. npm sends one that it compresses in pieces."""
    if 'chunked' not in headers.get('transfer-encoding', ''):
        return connection.read(int(headers.get('content-length') or 0))
    pieces = []
    while length := int(connection.readline().partition(b';')[0], 16):
        pieces.append(connection.read(length))
        connection.readline()
    connection.readline()
    return b''.join(pieces)


def asked(port, method, target, headers, body):
    """What the server at a port answers: status, fields and body."""
    link = http.client.HTTPConnection('127.0.0.1', port, timeout=60)
    try:
        link.putrequest(method, target, skip_host=True, skip_accept_encoding=True)
        for name, value in headers.items():
            if name.lower() not in OF_A_CONNECTION:
                link.putheader(name, value)
        if body:
            link.putheader('content-length', str(len(body)))
        # A body that is too large is answered before it has come.
        with contextlib.suppress(BrokenPipeError, ConnectionResetError):
            link.endheaders(body or None)
        answer = link.getresponse()
        return answer.status, [it for it in answer.getheaders() if it[0].lower() not in OF_A_CONNECTION], answer.read()
    finally:
        link.close()


# ---- the front

def certificate(folder):
    """A certificate for localhost, and its key."""
    subprocess.run(['openssl', 'req', '-x509', '-newkey', 'rsa:2048', '-nodes', '-days', '1', '-subj', '/CN=localhost',
                    '-addext', 'subjectAltName=DNS:localhost', '-keyout', folder / 'key.pem', '-out', folder / 'cert.pem'],
                   check=True, capture_output=True)


def placed(name, port, secure, certificates, folder):
    """A file of examples/front with another address of the registry, other ports, another name and other places."""
    text = (TOP / 'examples/front' / name).read_text()
    for old, new in [('unix:/run/registry/http.sock', f'127.0.0.1:{port}'), ('listen 80;', f'listen 127.0.0.1:{free_port()};'),
                     ('listen 443 ssl;', f'listen 127.0.0.1:{secure} ssl;'),
                     ('/etc/ssl/registry.example/fullchain.pem', f'{certificates}/cert.pem'),
                     ('/etc/ssl/registry.example/privkey.pem', f'{certificates}/key.pem'),
                     ('_name registry.example', '_name localhost'), ('registry.example', f'localhost:{secure}'),
                     ('/etc/nginx/registry-', f'{folder}/'), ('/var/log/nginx/', f'{folder}/'),
                     ('/usr/local/share/registry/', f'{TOP}/examples/front/')]:
        text = text.replace(old, new)
    return re.sub(r'^ *listen \[::\].*\n', '', text, flags=re.MULTILINE)


def headers_more():
    """Where nginx has its module headers-more, which public packages need."""
    said = subprocess.run(['nginx', '-V'], capture_output=True, text=True).stderr
    found = re.search(r'--modules-path=(\S+)', said)
    return pathlib.Path(found[1] if found else '/usr/lib/nginx/modules') / 'ngx_http_headers_more_filter_module.so'


def nginx_of(folder):
    """What is around the front in nginx's configuration."""
    places = ''.join(f'    {kind}_temp_path {folder}/{kind};\n' for kind in ('client_body', 'proxy', 'fastcgi', 'uwsgi', 'scgi'))
    user = 'user root root;\n' if pathlib.Path('/proc/self').stat().st_uid == 0 else ''
    module = headers_more()
    user += f'load_module {module};\n' if module.exists() else ''
    return (f'{user}daemon off;\nworker_processes 1;\npid {folder}/pid;\nerror_log {folder}/error.log warn;\n'
            f'events {{ worker_connections 256; }}\nhttp {{\n    access_log off;\n{places}    include {folder}/registry.conf;\n}}\n')


@contextlib.contextmanager
def front(port, certificates, folder, parts=(), edits=()):
    """nginx before the registry at a port, and its own port; with the named parts of examples/front, after edits."""
    secure = free_port()
    folder.mkdir()
    for name in ('registry.conf', *parts):
        place = folder / name if name == 'registry.conf' else folder / name.removesuffix('.conf')
        text = placed(name, port, secure, certificates, folder)
        for old, new in edits:
            text = text.replace(old, new)
        place.write_text(text)
    (folder / 'nginx.conf').write_text(nginx_of(folder))
    with started(['nginx', '-e', folder / 'error.log', '-p', folder, '-c', folder / 'nginx.conf'], folder / 'said', lambda _: is_open(secure)):
        yield secure


def further_front(first, certificates, folder):
    """nginx as a further front, which asks the first one at its port, and its own port."""
    inner = free_port()
    edits = [('listen 127.0.0.1:8080', f'listen 127.0.0.1:{inner}'), ('192.0.2.1:443', f'127.0.0.1:{first}'),
             ('/var/cache/registry-front', f'{folder}/kept'), ('/etc/ssl/certs/ca-certificates.crt', f'{certificates}/cert.pem')]
    return front(inner, certificates, folder, ('further.conf', 'first-front.conf'), edits)


def is_open(port):
    with socket.socket() as it:
        return it.connect_ex(('127.0.0.1', port)) == 0
