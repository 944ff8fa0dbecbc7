#!/bin/sh
# A server at a Unix socket: who may connect, what is at its path before and after it, one that was
# killed, and stops with requests under way.
#
#     examples/socket.sh [PROGRAM]
#
# PROGRAM is out/registry where it is left out. All that is made lies in a folder of its own, which is
# removed. Each try prints a line, and the last line is `N passed, 0 failed`, with status 0, or the
# status is 1. It takes ten seconds, and needs curl and python3.
set -eu

top=$(cd "$(dirname "$0")/.." && pwd)
program=$(realpath "${1:-$top/out/registry}")
[ -x "$program" ] || { echo "socket.sh: there is no program $program: make build proves and builds it" >&2; exit 2; }
for tool in curl python3; do
    command -v $tool > /dev/null || { echo "socket.sh: $tool is needed, and isn't there" >&2; exit 2; }
done

work=$(mktemp -d)
server=
end() {
    [ -z "$server" ] || { kill -9 "$server" 2>/dev/null || true; wait "$server" 2>/dev/null || true; }
    server=
}
trap 'end; rm -rf "$work"' EXIT
trap 'exit 130' INT
trap 'exit 143' TERM

passed=0
failed=0
# A try: what it shows, and a command that ends with status 0 where it comes out so.
try() {
    title=$1
    shift
    if "$@"; then
        passed=$((passed + 1))
        echo "ok: $title"
    else
        failed=$((failed + 1))
        echo "FAILED: $title"
    fi
}

# ---- servers and requests

db=$work/registry.db
"$program" --db "$db" init > /dev/null
socket=$work/http.socket
free_port() { python3 -c 'import socket; one = socket.socket(); one.bind(("127.0.0.1", 0)); print(one.getsockname()[1])'; }
port=$(free_port)
# Starts a server, and waits until it listens.
serve() {
    rm -f "$work/server"
    "$program" --db "$db" --existing serve "$@" > "$work/server" 2> "$work/errors" &
    server=$!
    for _ in $(seq 1 500); do
        if grep -qs listening "$work/server"; then return 0; fi
        sleep 0.01
    done
    cat "$work/errors" >&2
    exit 1
}
stop() { "$program" --db "$db" stop > "$work/out" && wait "$server" && server=; }
at_socket() { [ "$(curl -s --unix-socket "$socket" http://localhost/kit)" = '{"error":"NotFound"}' ]; }
at_port() { [ "$(curl -s "http://127.0.0.1:$port/kit")" = '{"error":"NotFound"}' ]; }
says() { [ "$(cat "$work/server")" = "$1" ]; }
has_mode() { [ "$(stat -c %a "$socket")" = 660 ] && [ ! -e "$socket-new" ]; }
# Whether the server listens at no port.
has_no_port() {
    python3 - "$server" <<'END'
import os, sys
folder = f'/proc/{sys.argv[1]}/fd'
own = {os.readlink(f'{folder}/{name}') for name in os.listdir(folder)}
rows = [line.split() for line in open('/proc/net/tcp').readlines()[1:]]
sys.exit(any(row[3] == '0A' and f'socket:[{row[9]}]' in own for row in rows))
END
}
is_gone() { [ ! -e "$socket" ]; }
# Whether a server ends with status 3 and these lines.
is_fault() {
    status=0
    "$program" --db "$work/other.db" serve --socket "$1" > "$work/out" 2> "$work/err" || status=$?
    [ "$status" = 3 ] && [ "$(cat "$work/err")" = "fault: Read
$2" ] && [ ! -e "$work/other.db" ]
}

# ---- where it listens

serve --socket "$socket"
try 'it says that it listens at the socket' says "listening unix:$socket"
try 'it answers there' at_socket
try 'it listens at no port' has_no_port
try 'owner and group may connect' has_mode
try 'a second server does not take it over' is_fault "$socket" 'something listens at the socket'
try 'and the first one still answers' at_socket
stop
try 'a server that was stopped leaves no socket' is_gone

umask 000
serve --socket "$socket" --port "$port"
umask 022
try 'it says that it listens at both' says "listening 127.0.0.1:$port unix:$socket"
try 'it answers at both' eval 'at_socket && at_port && at_socket && at_port'
try 'no umask gives others the right' has_mode
end
try 'a server that was killed leaves its socket' [ -S "$socket" ]
umask 077
serve --socket "$socket"
umask 022
try 'which the next one takes over' at_socket
try 'no umask takes the right of the group' has_mode
end

echo text > "$work/text"
try 'what is no socket stays' is_fault "$work/text" 'what is at the path of the socket is no socket'
try 'as it was' grep -qx text "$work/text"
try 'a long path is a fault' is_fault "$work/$(printf %0101d 0)" 'the path is too long for a socket'
try 'and so is a folder that is not there' is_fault "$work/none/http.socket" "the socket can't be made"

# A server whose file is lost: it listens before it opens the file.
is_lost() {
    status=0
    "$program" --db "$work/lost.db" --existing serve --socket "$socket" --log "$work/lost.log" > "$work/out" 2> "$work/err" || status=$?
    [ "$status" = 3 ] && [ "$(cat "$work/err")" = "fault: Database
the registry's file isn't there or is empty" ] && [ ! -s "$work/out" ]
}
try 'a lost file is a fault where it has to be there' is_lost
leaves_none() { is_gone && [ -z "$(find "$work" -name 'lost*')" ]; }
try 'of which neither a socket nor a file is left' leaves_none

# ---- stops

# A client that has sent so many requests at once, or sends one after the other, while the server is
# stopped. What it hears is printed: how many answers, and whether the last one says that it is the last.
client() {
    python3 - "$socket" "$program" "$db" "$1" <<'END'
import socket, subprocess, sys, time
path, program, db, how = sys.argv[1:]
one = socket.socket(socket.AF_UNIX)
one.connect(path)
ask = b'GET /kit HTTP/1.1\r\nhost: localhost\r\n\r\n'
if how == 'half':
    one.sendall(ask[:10])
    time.sleep(0.3)
start = time.time()
stop = subprocess.Popen([program, '--db', db, 'stop'], stdout=subprocess.DEVNULL)
if how == 'half':
    time.sleep(0.3)
    one.sendall(ask[10:] + ask * 99)
heard = b''
one.settimeout(5)
try:
    while True:
        if how == 'always':
            one.sendall(ask)
        piece = one.recv(65536)
        if not piece:
            break
        heard += piece
except (BrokenPipeError, ConnectionResetError):
    pass
one.close()
stop.wait()
# The connection of a client that always asks ends after an answer that says so, or between two.
answers = [heard.count(b'HTTP/1.1 404'), heard.count(b'connection: close')]
are_right = answers == [1, 1] if how == 'half' else answers[1] <= 1
print('right' if are_right else answers, 'soon' if time.time() - start < 4 else 'late')
END
}
hears() { [ "$(client "$1")" = "$2" ] && wait "$server" && server=; }
serve --socket "$socket"
try 'a request under way is answered, and no more' hears half 'right soon'
serve --socket "$socket"
try 'a client that always asks holds up no stop' hears always 'right soon'
try 'and the socket is gone' is_gone

# ---- no descriptor left

serve --socket "$socket"
python3 - "$socket" "$server" > "$work/idle" <<'END' &
import resource, socket, sys, time
path, server = sys.argv[1], int(sys.argv[2])
resource.prlimit(server, resource.RLIMIT_NOFILE, (40, 40))
many = []
for _ in range(60):
    one = socket.socket(socket.AF_UNIX)
    one.connect(path)
    many.append(one)
    time.sleep(0.01)
print('there', flush=True)
time.sleep(10)
END
clients=$!
for _ in $(seq 1 500); do
    if grep -qs there "$work/idle"; then break; fi
    sleep 0.01
done
adds() { "$program" --db "$db" --existing --operator user-add ann > "$work/out"; }
try 'a command comes in where no descriptor is left' adds
kill "$clients"
stop

echo "$passed passed, $failed failed"
[ "$failed" = 0 ]
