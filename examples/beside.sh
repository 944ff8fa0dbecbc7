#!/bin/sh
# Commands beside a running server: each is answered by the server, and prints and ends as it does
# without one.
#
#     examples/beside.sh [PROGRAM]
#
# PROGRAM is out/registry where it is left out. All that is made lies in a folder of its own, which is
# removed. Two lists of commands, one of which is the story with the example of each subcommand, are run
# twice, each command by itself on one file and beside a server on another, which both have to be there:
# they must print the same, byte for byte, and end alike. Then it is tried what a killed server leaves, two servers, a folder
# that others may enter, a path too long for a socket, a server that is just starting, one that is
# halted, clients that stop in the middle, more clients at once than there are slots, and a server that
# is killed while it answers. Last come tokens that are made and end beside a
# server, copies and checks while versions are published, commands that are killed or halted while they
# hold the server, and stops. Each try prints a line, and the last line is `N passed, 0 failed`, with status
# 0, or the status is 1. It takes four minutes, and needs curl and python3.
set -eu

top=$(cd "$(dirname "$0")/.." && pwd)
program=$(realpath "${1:-$top/out/registry}")
[ -x "$program" ] || { echo "beside.sh: there is no program $program: make build proves and builds it" >&2; exit 2; }
for tool in curl python3; do
    command -v $tool > /dev/null || { echo "beside.sh: $tool is needed, and isn't there" >&2; exit 2; }
done

work=$(mktemp -d)
server=
others=
finish() {
    for process in $others $server; do kill -CONT "$process" 2>/dev/null || true; kill -9 "$process" 2>/dev/null || true; done
    wait 2>/dev/null || true
    rm -rf "$work"
}
trap finish EXIT
trap 'exit 130' INT
trap 'exit 143' TERM

passed=0
failed=0
say() { printf '%s\n' "$*"; }

# A try: what it shows, and a function that ends with status 0 where it comes out so.
try() {
    title=$1
    shift
    : > "$work/said"
    if "$@"; then
        passed=$((passed + 1))
        say "ok: $title"
    else
        failed=$((failed + 1))
        say "FAILED: $title"
        tail -n 15 "$work/said" | sed 's/^/    /'
    fi
}

# ---- servers and commands

# A port at which nobody listens.
free_port() {
    python3 -c 'import socket; one = socket.socket(); one.bind(("127.0.0.1", 0)); print(one.getsockname()[1])'
}

# Starts a server of a file, with these words more.
begin() {
    file=$1
    shift
    place=$(free_port)
    : > "$work/server"
    "$program" --db "$file" serve --port "$place" "$@" > "$work/server" 2> "$work/server.errors" &
    server=$!
}
# The same, and waits until it listens.
serve() {
    begin "$@"
    for _ in $(seq 1 3000); do
        if grep -q listening "$work/server"; then return 0; fi
        if ! kill -0 "$server" 2>/dev/null; then break; fi
        sleep 0.01
    done
    cat "$work/server" "$work/server.errors" >> "$work/said"
    return 1
}
stop() { kill -9 "$server" 2>/dev/null || true; wait "$server" 2>/dev/null || true; server=; }
port() { sed 's/.*://' "$work/server"; }

# The status by which a server answers a token, and what it answers nobody.
status_of() {
    curl -s -m 10 -o "$work/answer" -w '%{http_code}' -H "authorization: Bearer $1" "http://127.0.0.1:$(port)/$2"
}

# Runs a command on a file, into NAME.out, NAME.errors and NAME.status.
run() {
    name=$1
    shift
    ended=0
    "$program" --db "$@" > "$work/$name.out" 2> "$work/$name.errors" || ended=$?
    echo "$ended" > "$work/$name.status"
}
# What a run printed and how it ended, where it isn't this: a status, and a text on the errors or the
# output.
is() {
    cat "$work/$1.out" "$work/$1.errors" "$work/$1.status" >> "$work/said"
    [ "$(cat "$work/$1.status")" = "$2" ] && { grep -qF "$3" "$work/$1.out" || grep -qF "$3" "$work/$1.errors"; }
}
is_done() { is "$1" 0 '{"ok":true}'; }
is_copied() { is "$1" 0 '{"ok":true,"checked":true}'; }

# ---- the same commands by themselves and beside a server

cat > "$work/commands" <<'END'
--at 100 --operator user-add ann
--at 100 --operator user-add bob
--at 100 --operator user-add ann
--at 100 --operator user-add Ann
--at 100 --operator token-add bob npm_bob_000000001
--at 100 --operator token-add bob short
--at 100 --operator token-add bob npm_bob_000000002
--at 100 --operator token-add bob npm_bob_000000003
--at 100 --as ann token-rm npm_bob_000000002
--at 100 --as bob token-rm npm_bob_000000002
--at 100 --as bob token-rm npm_bob_000000002
--at 100 --operator token-rm npm_bob_000000002
--at 100 token-rm npm_bob_000000003
--at 100 --as bob token-rm -
--at 100 --as bob tokens-rm bob
--at 100 --operator tokens-rm eve
--at 100 --operator tokens-rm bob
--at 100 --operator tokens-rm bob
--at 100 --operator org-create lab ann
--at 100 --as ann whoami
--at 100 --operator whoami
--at 100 whoami
--at 100 --operator users
--at 100 --as ann users
--at 100 --operator organisations
--at 100 --as ann organisations
--at 100 --as ann org-set lab bob developer
--at 100 --as eve members lab
--at 100 --as ann members lab
--at 100 --as ann teams lab
--at 100 --as bob publish BODY
--at 100 --as bob publish BODY
--at 100 --as bob publish MORE
--at 100 --as bob publish NOTHING
--at 100 --as bob publish BROKEN
--at 100 publish BODY
--at 100 --as bob packument @lab/kit
--at 100 packument @lab/kit
--at 100 --as bob abbreviated-packument @lab/kit
--at 100 abbreviated-packument @lab/kit
--at 100 --as bob version-doc @lab/kit latest
--at 100 --as bob version-doc @lab/kit 1.0.0
--at 100 --as bob archive @lab/kit 1.0.0
--at 100 --as bob archive @lab/kit 9.0.0
--at 100 --as bob tags @lab/kit
--at 100 --as bob maintainers @lab/kit
--at 100 maintainers @lab/kit
--at 100 --as bob org-packages lab
--at 100 --operator org-packages lab
--at 100 --as bob my-packages
--at 100 --operator my-packages
--at 100 --operator packages
--at 100 --as bob packages
--at 100 --as bob tag-set @lab/kit next 1.0.0
--at 100 --as bob tag-rm @lab/kit latest
--at 100 --as bob deprecate @lab/kit * old
--at 100 --as bob deprecate @lab/kit 1.x ''
--at 100 --as ann team-create lab two
--at 100 --as ann team-add lab two bob
--at 100 --as ann grant lab two @lab/kit read-write
--at 100 --as ann team-members lab two
--at 100 --as ann team-packages lab two
--at 100 --as ann revoke lab two @lab/kit
--at 100 --as ann team-rm lab two bob
--at 100 --as ann team-destroy lab two
--at 100 --as ann access @lab/kit public
--at 100 tags @lab/kit
--at 100 --as ann owner-add @lab/kit bob
--at 100 --as bob withdraw-all @lab/none
--at 100 --as eve withdraw-all @lab/kit
--at 259300 --as bob withdraw-all @lab/kit
--at 100 --as bob withdraw-all @lab/kit
--at 100 --as bob withdraw-all @lab/kit
--at 100 --as bob publish BODY
--at 86500 --as bob publish LAST
--at 86500 --as bob withdraw @lab/kit 1.2.0
--at 100 --as ann org-rm lab bob
--at 100 --as ann --operator members lab
--at 100 token-new ann
--at 100 --as ann token-new ann
--at 100 --operator token-new nobody
--at 100 --operator token-new Ann
--at 100 --operator token-new -- -ann
--at 100 --as=-ann token-new ann
--at 100 init
--at 100 check
--at 100 backup no-such-folder/copy.db
--at 100 backup --no-check no-such-folder/copy.db
--at 100 members
--at 100 --help
check more
nothing
END
python3 - "$work" <<'END'
import base64, json, os, sys
archive = os.urandom(200000)
open(f'{sys.argv[1]}/kit.tgz', 'wb').write(archive)
body = {'name': '@lab/kit', 'versions': {'1.0.0': {'name': '@lab/kit', 'version': '1.0.0'}},
        '_attachments': {'kit.tgz': {'data': base64.b64encode(archive).decode()}}}
for version, file in ('1.0.0', 'body'), ('1.1.0', 'more'), ('1.2.0', 'last'):
    body['versions'] = {version: {'name': '@lab/kit', 'version': version}}
    open(f'{sys.argv[1]}/{file}', 'w').write(json.dumps(body))
open(f'{sys.argv[1]}/broken', 'w').write(json.dumps(body)[:-1])
END

# The calls of the story that shows each subcommand by its example, and the files that they publish.
python3 - "$top/crates/registry_tests_stories/data/subcommands.txt" "$work" <<'END'
import pathlib, sys
work = pathlib.Path(sys.argv[2])
story = open(sys.argv[1]).read().split('== Each subcommand, with the examples of the table\n')[1].split('\n== ')[0].split('\n')
moment = next(line.split()[1] for line in story if line.startswith('at '))
for name, text in zip(story, story[1:]):
    if name.startswith('file '):
        (work / name.split()[1]).write_text(text.removeprefix('| '))
calls = [line.removeprefix('$ registry ') for line in story if line.startswith('$ registry ')]
(work / 'examples').write_text(''.join(f'--at {moment} {call}\n' for call in calls))
END

# Runs each line of a list on a file, and keeps what came of it.
run_all() {
    python3 - "$program" "$work" "$1" "$2" "$3" <<'END'
import pathlib, shlex, subprocess, sys
program, work, calls, file, into = sys.argv[1:]
for number, line in enumerate(open(f'{work}/{calls}'), 1):
    words = [f'{work}/{word.lower()}' if word in ('BODY', 'MORE', 'LAST', 'BROKEN', 'NOTHING') else word for word in shlex.split(line)]
    came = subprocess.run([program, '--db', f'{work}/{file}', '--existing', *words], cwd=work, capture_output=True)
    pathlib.Path(f'{work}/{into}.{number}').write_bytes(came.stdout + b'|' + came.stderr + b'|' + str(came.returncode).encode())
END
}
all_are_the_same() {
    calls=$1
    for file in alone beside; do
        run one "$work/$calls-$file.db" init
        is_done one || return 1
    done
    run_all "$calls" "$calls-alone.db" alone
    serve "$work/$calls-beside.db"
    run_all "$calls" "$calls-beside.db" beside
    number=0
    while read -r line; do
        number=$((number + 1))
        cmp "$work/alone.$number" "$work/beside.$number" >> "$work/said" || { echo "$line" >> "$work/said"; return 1; }
    done < "$work/$calls"
    stop
    run both "$work/$calls-beside.db" --as ann teams lab
    is both 0 developers
}
say "$(cat "$work/commands" "$work/examples" | wc -l) commands, each by itself and beside a server"
try 'each prints the same, byte for byte, and ends alike' all_are_the_same commands
try 'so does the example of each subcommand' all_are_the_same examples

db=$work/registry.db
run first "$db" --operator user-add ann

# ---- what stands beside the file

is_private() {
    serve "$db"
    [ "$(stat -c %a "$db-server")" = 700 ] && [ -S "$db-server/command" ]
}
try "the socket lies in a folder of mode 0700" is_private

is_seen_by_connections() {
    [ "$(status_of npm_bob_000000001 kit)" = 401 ] || return 1
    run one "$db" --operator user-add bob
    is_done one || return 1
    run one "$db" --operator token-add bob npm_bob_000000001
    is_done one || return 1
    [ "$(status_of npm_bob_000000001 kit)" = 404 ]
}
try 'a connection sees what a command did' is_seen_by_connections

is_refused_twice() {
    run two "$db" serve --port "$(free_port)"
    is two 3 "another process has the registry's file"
}
try 'a second server of the file is refused' is_refused_twice

# ---- killed servers

goes_on_after_a_kill() {
    stop
    [ -S "$db-server/command" ] || return 1
    run one "$db" --operator user-add cid
    is_done one || return 1
    serve "$db" || return 1
    run one "$db" --operator user-add dan
    is_done one
}
try 'the socket of a killed server keeps nobody out' goes_on_after_a_kill

ends_unanswered() {
    kill -STOP "$server"
    "$program" --db "$db" --operator user-add eve > "$work/one.out" 2> "$work/one.errors" &
    client=$!
    sleep 0.3
    kill -9 "$server"
    wait "$server" 2>/dev/null || true
    ended=0
    wait "$client" || ended=$?
    echo "$ended" > "$work/one.status"
    is_done one || return 1
    serve "$db" || return 1
    run one "$db" --operator user-add eve
    is one 1 Exists
}
try 'a command whose server is killed before it is ready is done without it' ends_unanswered

loses_nothing() {
    : > "$work/answered"
    for time in $(seq 1 10); do
        rm -f "$work/over"
        (for number in $(seq 1 50); do
            [ ! -e "$work/over" ] || exit 0
            "$program" --db "$db" --operator user-add "u$time-$number" > /dev/null 2>&1 || exit 0
            echo "u$time-$number" >> "$work/answered"
        done) &
        client=$!
        sleep "0.$((time * 2 + 10))"
        stop
        # A server is refused the file while a command has it.
        : > "$work/over"
        wait "$client"
        serve "$db" || return 1
        while read -r user; do
            run one "$db" --operator user-add "$user"
            is one 1 Exists || { echo "$user is lost" >> "$work/said"; return 1; }
        done < "$work/answered"
        : > "$work/answered"
    done
}
try 'ten kills while commands are answered lose none that was' loses_nothing

# ---- time

waits_for_a_start() {
    stop
    begin "$db"
    run one "$db" --operator user-add fay
    is_done one || is one 1 Exists || return 1
    for _ in $(seq 1 400); do
        if grep -q listening "$work/server" || ! kill -0 "$server" 2>/dev/null; then break; fi
        sleep 0.01
    done
    stop
    serve "$db" || return 1
    run one "$db" --operator user-add fay
    is one 1 Exists
}
try 'a command beside a server that is just starting is answered' waits_for_a_start

# Has the file for so many seconds, as a command has it that is under way.
hold_file() {
    python3 -c 'import fcntl, sys, time
held = open(sys.argv[1], "r+b")
fcntl.lockf(held, fcntl.LOCK_EX, 512, 1 << 30)
print("held", flush=True)
time.sleep(float(sys.argv[2]))' "$1" "$2" > "$work/holder" &
    others=$!
    for _ in $(seq 1 500); do
        if grep -q held "$work/holder"; then return 0; fi
        sleep 0.01
    done
    return 1
}

waits_for_the_file() {
    stop
    hold_file "$db" 2 || return 1
    before=$(date +%s%N)
    serve "$db" || return 1
    after=$(date +%s%N)
    wait "$others"
    others=
    echo "$(((after - before) / 1000000)) ms" >> "$work/said"
    [ $((after - before)) -ge 1500000000 ] || return 1
    run one "$db" --operator user-add fay
    is one 1 Exists
}
try 'a server that starts waits for a file that another process has for a moment' waits_for_the_file

gives_up() {
    stop
    hold_file "$db" 60 || return 1
    before=$(date +%s)
    run one "$db" serve --port "$(free_port)"
    after=$(date +%s)
    kill "$others"
    wait "$others" || true
    others=
    is one 3 "another process has the registry's file" || return 1
    [ $((after - before)) -ge 4 ] && [ $((after - before)) -le 12 ] || return 1
    serve "$db"
}
try 'and gives up after some five seconds' gives_up

ends_in_time() {
    kill -STOP "$server"
    before=$(date +%s)
    run one "$db" --operator user-add gus
    after=$(date +%s)
    kill -CONT "$server"
    echo "$((after - before)) s" >> "$work/said"
    is one 3 'nothing was done' && [ $((after - before)) -le 11 ] || return 1
    run one "$db" --operator user-add gus
    is_done one
}
try 'a halted server holds a command for ten seconds, and no longer' ends_in_time

# A client that sends so many bytes of a message of four and waits; and how long it is kept.
cat > "$work/stall.py" <<'END'
import socket, sys, time
place, count, seconds = sys.argv[1], int(sys.argv[2]), float(sys.argv[3])
stalled = []
for _ in range(count):
    one = socket.socket(socket.AF_UNIX)
    one.connect(place)
    one.sendall(b'\0\0')
    stalled.append(one)
print('there', flush=True)
time.sleep(seconds)
END
stall() {
    python3 "$work/stall.py" "$db-server/command" "$1" "$2" > "$work/stalled" &
    others=$!
    for _ in $(seq 1 200); do
        if grep -q there "$work/stalled"; then return 0; fi
        sleep 0.01
    done
    return 1
}
holds_up_nobody() {
    stall 1 60
    before=$(date +%s%N)
    run one "$db" --operator user-add hal
    curl -s "http://127.0.0.1:$(port)/-/ping" > /dev/null
    after=$(date +%s%N)
    echo "$(((after - before) / 1000000)) ms" >> "$work/said"
    kill "$others"
    wait "$others" 2>/dev/null || true
    others=
    is_done one && [ $(((after - before) / 1000000)) -le 1000 ]
}
try 'a client that stops in the middle holds up nobody' holds_up_nobody

waits_for_a_slot() {
    stall 8 60
    before=$(date +%s)
    run one "$db" --operator user-add ida
    after=$(date +%s)
    echo "$((after - before)) s" >> "$work/said"
    kill "$others"
    wait "$others" 2>/dev/null || true
    others=
    is_done one && [ $((after - before)) -le 10 ]
}
try 'with eight such clients a ninth is answered within ten seconds' waits_for_a_slot

answers_all() {
    clients=
    for number in $(seq 1 24); do
        "$program" --db "$db" --operator user-add "many$number" > "$work/many.$number" 2>&1 &
        clients="$clients $!"
    done
    for client in $clients; do wait "$client" || return 1; done
    [ "$(cat "$work"/many.* | sort -u)" = '{"ok":true}' ] || { cat "$work"/many.* >> "$work/said"; return 1; }
}
try '24 commands at once are all answered' answers_all

cuts() {
    python3 - "$db-server/command" >> "$work/said" 2>&1 <<'END'
import socket, struct, sys
words = [b'--operator', b'user-add', b'cut']
message = struct.pack('>I', len(words)) + b''.join(struct.pack('>I', len(word)) + word for word in words) + struct.pack('>Q', 0)
for length in range(len(message) + 2):
    one = socket.socket(socket.AF_UNIX)
    one.connect(sys.argv[1])
    one.settimeout(10)
    assert one.recv(1) == b'r'
    one.sendall((message + b'x')[:length])
    if length != len(message):
        one.shutdown(socket.SHUT_WR)
    came = b''
    while True:
        piece = one.recv(65536)
        if not piece:
            break
        came += piece
    assert (came != b'') == (length == len(message)), (length, came)
END
}
try 'a message that was cut, or has a byte more, is answered by nothing' cuts

# ---- folders that aren't entered

is_warned() {
    stop
    chmod 755 "$db-server"
    serve "$db" || return 1
    grep -q "isn't one that the file's owner alone may enter" "$work/server.errors" || return 1
    run one "$db" --operator user-add jan
    is one 3 "another process has the registry's file, and commands can't reach it" || return 1
    stop
    rm -rf "$db-server"
    ln -s "$work" "$db-server"
    serve "$db" || return 1
    run one "$db" --operator user-add jan
    is one 3 "another process has the registry's file, and commands can't reach it" || return 1
    stop
    rm "$db-server"
    serve "$db" || return 1
    run one "$db" --operator user-add jan
    is_done one
}
try 'a folder that others may enter, or that is none, has no sockets' is_warned

is_too_long() {
    stop
    long=$work/$(printf 'x%.0s' $(seq 1 100))
    run one "$long" --operator user-add ann
    is_done one || return 1
    serve "$long" || return 1
    grep -q 'the path is too long for a socket' "$work/server.errors" || return 1
    curl -s "http://127.0.0.1:$(port)/-/ping" > "$work/said"
    before=$(date +%s)
    run one "$long" --operator user-add bob
    after=$(date +%s)
    is one 3 "another process has the registry's file" && [ $((after - before)) -le 9 ]
}
try 'a path too long for a socket is served without sockets' is_too_long

is_taken_away() {
    stop
    serve "$db" --connections 1 || return 1
    run one "$db" --operator user-add kim
    is_done one || return 1
    curl -s -H 'connection: close' "http://127.0.0.1:$(port)/-/ping" > /dev/null
    wait "$server" || return 1
    server=
    [ ! -e "$db-server" ]
}
try 'a server that ends takes its sockets away' is_taken_away

# ---- other names, and other files

is_found_by_a_link() {
    stop
    serve "$db" || return 1
    ln -sf "$db" "$work/link.db"
    run one "$work/link.db" --operator user-add lil
    is_done one || return 1
    run one "$db" --operator user-add lil
    is one 1 Exists
}
try 'a command by a link reaches the server of the file' is_found_by_a_link

is_told_from_another() {
    mv "$db" "$work/moved.db" && mv "$db-wal" "$work/moved.db-wal" && "$program" --db "$work/new.db" --operator user-add new > /dev/null && mv "$work/new.db" "$db" && mv "$work/new.db-wal" "$db-wal" || return 1
    run one "$db" --operator user-add mia
    is one 3 "has another file open" || return 1
    run one "$db" check
    is one 3 "has another file open" || return 1
    run one "$db" backup "$work/other.db"
    is one 3 "has another file open" && [ ! -e "$work/other.db" ] || return 1
    run one "$db" stop
    is_done one || return 1
    wait "$server" || return 1
    server=
    run one "$db" --operator user-add new
    is one 1 Exists || return 1
    run one "$work/moved.db" --operator user-add lil
    is one 1 Exists || return 1
    rm -f "$db" "$db-wal"
    mv "$work/moved.db" "$db"
}
try 'another file at the path of a server is told from its own' is_told_from_another

makes_no_other() {
    serve "$db" || return 1
    mv "$db" "$work/moved.db" && mv "$db-wal" "$work/moved.db-wal" || return 1
    run one "$db" --operator user-add mia
    is one 3 "has another file open" && [ ! -e "$db" ] || return 1
    run one "$db" --existing --operator user-add mia
    is one 3 "has another file open" && [ ! -e "$db" ] || return 1
    run one "$db" init
    is one 3 "has another file open" && [ ! -e "$db" ] && [ ! -e "$db-part" ] || return 1
    mv "$work/moved.db" "$db" && mv "$work/moved.db-wal" "$db-wal" || return 1
    run one "$db" --operator user-add mia
    is_done one || return 1
    stop
}
try 'a command makes no file where one was moved away from a server' makes_no_other

makes_none() {
    mv "$db" "$work/moved.db" && mv "$db-wal" "$work/moved.db-wal" || return 1
    for words in '--operator user-add nia' '--operator token-new mia' "serve --socket $work/none.sock" 'check' "backup $work/none.db" 'stop'; do
        # shellcheck disable=SC2086
        run one "$db" --existing $words
        is one 3 "isn't there or is empty" && [ ! -e "$db" ] && [ ! -e "$db-wal" ] || return 1
    done
    mv "$work/moved.db" "$db" && mv "$work/moved.db-wal" "$db-wal" || return 1
    run one "$db" --existing --operator user-add nia
    is_done one
}
try 'nor where it has to be there, without a server' makes_none

# ---- tokens that are made

db=$work/errands.db
run first "$db" --operator user-add ann
makes_a_token() {
    serve "$db" || return 1
    run one "$db" --operator token-new ann
    cat "$work/one.out" "$work/one.errors" >> "$work/said"
    [ "$(cat "$work/one.status")" = 0 ] && [ ! -s "$work/one.errors" ] || return 1
    grep -qxE 'npm_[0-9a-f]{40}' "$work/one.out" || return 1
    token=$(cat "$work/one.out")
    [ "$(status_of "$token" kit)" = 404 ] || return 1
    run two "$db" --operator token-new ann
    [ "$(cat "$work/one.out")" != "$(cat "$work/two.out")" ]
}
try 'token-new beside a server prints a token that the server takes' makes_a_token

# ---- tokens that end

cat > "$work/ends.py" <<'END'
import http.client, subprocess, sys
program, db, port, token = sys.argv[1:]
connection = http.client.HTTPConnection('127.0.0.1', int(port), timeout=10)

def status():
    connection.request('GET', '/kit', headers={'authorization': f'Bearer {token}'})
    answer = connection.getresponse()
    answer.read()
    print(answer.status)

def command(*words, given=''):
    came = subprocess.run([program, '--db', db, '--operator', *words], input=given.encode(), capture_output=True)
    print(came.stdout.decode() + came.stderr.decode(), end='')

command('token-add', 'cat', token)
status()
first = connection.sock
command('token-rm', '-', given=f'{token}\n')
status()
command('token-add', 'cat', token)
status()
command('token-add', 'cat', token[::-1])
command('tokens-rm', 'cat')
status()
command('token-add', 'cat', token)
command('token-rm', token)
status()
print('the same connection' if first is not None and connection.sock is first else 'another connection')
END
cat > "$work/ends" <<'END'
{"ok":true}
404
{"ok":true}
401
{"ok":true}
404
{"ok":true}
{"count":2,"ok":true}
401
{"ok":true}
{"ok":true}
401
the same connection
END
ends_tokens() {
    run one "$db" --operator user-add cat
    is_done one || return 1
    python3 "$work/ends.py" "$program" "$db" "$(port)" npm_cat_000000001 > "$work/ended" 2>> "$work/said" || return 1
    cat "$work/ended" >> "$work/said"
    cmp "$work/ended" "$work/ends" >> "$work/said" || return 1
    stop
    serve "$db" || return 1
    [ "$(status_of npm_cat_000000001 kit)" = 401 ]
}
try 'a token that ends beside a server names nobody, on the same connection and after a kill' ends_tokens

# ---- copies and checks

# Publishes so many versions of a package, of so many bytes each, and prints each that was answered.
cat > "$work/publish.py" <<'END'
import base64, http.client, json, os, sys, time
port, token, name, first, count, size = int(sys.argv[1]), sys.argv[2], sys.argv[3], *map(int, sys.argv[4:])
connection = http.client.HTTPConnection('127.0.0.1', port, timeout=100)
for number in range(first, first + count):
    version = f'1.0.{number}'
    body = {'name': name, 'versions': {version: {'name': name, 'version': version}},
            '_attachments': {'kit.tgz': {'data': base64.b64encode(os.urandom(size)).decode()}}}
    connection.request('PUT', f'/{name}', json.dumps(body), {'authorization': f'Bearer {token}'})
    answer = connection.getresponse()
    said = answer.read()
    if answer.status not in (200, 201):
        sys.exit(f'{version}: {answer.status} {said}')
    print(version, flush=True)
    # a hundred a second at most, so that the file stays small
    time.sleep(0.01)
END
# Each version that is named in a file is in the packument that a run printed.
cat > "$work/all_in.py" <<'END'
import json, sys
there = json.load(open(sys.argv[2]))['versions']
missing = [line for line in open(sys.argv[1]).read().split() if line not in there]
print(f'{len(there)} versions, missing {missing}')
sys.exit(1 if missing else 0)
END
copies_while_it_publishes() {
    python3 "$work/publish.py" "$(port)" "$token" big 0 12 2500000 > "$work/published" 2>> "$work/said" || return 1
    rm "$work/published"
    python3 "$work/publish.py" "$(port)" "$token" kit 0 100000 20000 > "$work/published" 2>> "$work/said" &
    others=$!
    for _ in $(seq 1 1000); do
        if [ -s "$work/published" ]; then break; fi
        sleep 0.01
    done
    for time in 1 2 3 4 5; do
        sleep 0.5
        cp "$work/published" "$work/before"
        run one "$db" backup "$work/copy-$time.db"
        is_copied one || return 1
        [ "$(stat -c %a "$work/copy-$time.db")" = 600 ] || return 1
        for end in -wal -part -part-wal; do [ ! -e "$work/copy-$time.db$end" ] || return 1; done
        run one "$work/copy-$time.db" check
        is_done one || return 1
        run one "$work/copy-$time.db" packument kit
        python3 "$work/all_in.py" "$work/before" "$work/one.out" >> "$work/said" || return 1
    done
    run one "$db" backup "$work/copy-1.db"
    is one 3 'a file has the name of the copy' || return 1
    kill -0 "$others"
}
try 'copies open, are in form and have what was answered, while versions are published' copies_while_it_publishes

checks_while_it_publishes() {
    for _ in 1 2 3; do
        run one "$db" check
        is_done one || return 1
        [ -z "$(find "$db-server" -name 'check*')" ] || return 1
    done
    kill -0 "$others" || return 1
    kill "$others"
    wait "$others" 2>/dev/null || true
    others=
}
try 'so do checks, and nothing of them is left in the folder' checks_while_it_publishes

# Runs a backup, halts it as soon as its second file is there, and then does as the first word says:
# `kill` leaves it halted, prints its number and ends; `late` lets it go on after 62 s, and prints how it
# ended.
cat > "$work/halt.py" <<'END'
import os, signal, subprocess, sys, time
how, program, db, copy = sys.argv[1:]
backup = subprocess.Popen([program, '--db', db, 'backup', copy], stdout=subprocess.PIPE, stderr=subprocess.STDOUT, text=True)
while not os.path.exists(copy + '-part-wal') and backup.poll() is None:
    pass
os.kill(backup.pid, signal.SIGSTOP)
if os.path.exists(copy):
    backup.kill()
    sys.exit('it was too fast')
if how == 'kill':
    print(backup.pid, flush=True)
    os._exit(0)
time.sleep(62)
backup.send_signal(signal.SIGCONT)
print(backup.communicate(timeout=60)[0], backup.returncode)
END
halt() { python3 "$work/halt.py" kill "$program" "$db" "$1" > "$work/halted" 2>> "$work/said" && others=$(cat "$work/halted"); }
is_silent() { ! curl -s -m 1 "http://127.0.0.1:$(port)/kit" > /dev/null; }
answers() { curl -s -m 2 "http://127.0.0.1:$(port)/kit" > /dev/null; }
# Whether a command of HTTP is answered in this many seconds.
does() { curl -s -m "$1" -X PUT -d '"1.0.0"' "http://127.0.0.1:$(port)/-/package/kit/dist-tags/next" > /dev/null; }
goes_on_after_a_killed_hold() {
    halt "$work/held.db" || return 1
    answers || return 1
    ! does 1 || return 1
    kill -9 "$others"
    others=
    answers || return 1
    does 2 || return 1
    [ ! -e "$work/held.db" ] && [ -e "$work/held.db-part" ] || return 1
    run one "$db" backup "$work/held.db"
    is one 3 'a file has the name of the copy' || return 1
    rm "$work/held.db-part" "$work/held.db-part-wal"
    run one "$db" backup "$work/held.db"
    is_copied one
}
try 'a server that is held answers readers alone, and goes on at once where the command is killed' goes_on_after_a_killed_hold

# Asks a server this many times over one connection, and prints the median time in milliseconds.
cat > "$work/median.py" <<'END'
import http.client, statistics, sys, time
port, count = int(sys.argv[1]), int(sys.argv[2])
server = http.client.HTTPConnection('127.0.0.1', port, timeout=5)
times = []
for _ in range(count):
    begun = time.perf_counter()
    server.request('GET', '/kit')
    server.getresponse().read()
    times.append(1000 * (time.perf_counter() - begun))
print(round(statistics.median(times), 3))
END
reads_during_a_hold() {
    before=$(python3 "$work/median.py" "$(port)" 500) || return 1
    halt "$work/read.db" || return 1
    files=$(cat "$db" "$db-wal" | cksum)
    during=$(python3 "$work/median.py" "$(port)" 500) || return 1
    [ "$files" = "$(cat "$db" "$db-wal" | cksum)" ] || return 1
    kill -9 "$others"
    others=
    echo "    a reader: $before ms at the median, and $during ms during a hold"
    python3 -c 'import sys; sys.exit(float(sys.argv[2]) > float(sys.argv[1]) + 10)' "$before" "$during"
}
try 'a reader waits no longer during a hold, and changes no file' reads_during_a_hold

waits_for_a_hold() {
    halt "$work/second.db" || return 1
    run one "$db" check &
    first=$!
    run two "$db" --operator user-add bea
    wait "$first"
    is one 3 "can't be held" || return 1
    is two 3 'nothing was done' || return 1
    kill -9 "$others"
    others=
    run two "$db" --operator user-add bea
    is_done two || return 1
    run one "$db" check
    is_done one
}
try 'a second command waits for a held server for ten seconds, and no longer' waits_for_a_hold

is_not_done_later() {
    halt "$work/fourth.db" || return 1
    "$program" --db "$db" --operator user-add cleo > /dev/null 2>&1 &
    client=$!
    sleep 0.5
    kill "$client"
    wait "$client" 2>/dev/null || true
    kill -9 "$others"
    others=
    answers || return 1
    run one "$db" --operator user-add cleo
    is_done one
}
try 'a command that was interrupted while the server is held is not done later' is_not_done_later

is_let_go_late() {
    python3 "$work/halt.py" late "$program" "$db" "$work/late.db" > "$work/late" 2>&1 || return 1
    cat "$work/late" >> "$work/said"
    grep -q "went on, or ended, before all was copied" "$work/late" && grep -q '^ *3$' "$work/late" || return 1
    for end in '' -part -part-wal; do [ ! -e "$work/late.db$end" ] || return 1; done
    answers
}
try 'a server is held for a minute at most, and nothing is made of what was copied' is_let_go_late

# ---- stops

# Sends the half of a publish, and the rest after so many seconds; and prints how it was answered.
cat > "$work/upload.py" <<'END'
import base64, json, os, socket, sys, time
port, token, seconds = int(sys.argv[1]), sys.argv[2], float(sys.argv[3])
body = json.dumps({'name': 'last', 'versions': {'1.0.0': {'name': 'last', 'version': '1.0.0'}},
                   '_attachments': {'kit.tgz': {'data': base64.b64encode(os.urandom(1000000)).decode()}}}).encode()
head = f'PUT /last HTTP/1.1\r\nhost: localhost\r\nauthorization: Bearer {token}\r\ncontent-length: {len(body)}\r\n\r\n'
server = socket.create_connection(('127.0.0.1', port))
server.sendall(head.encode() + body[:len(body) // 2])
print('half', flush=True)
time.sleep(seconds)
server.sendall(body[len(body) // 2:])
print(server.recv(100), flush=True)
END
answers_an_upload_first() {
    python3 "$work/upload.py" "$(port)" "$token" 2 > "$work/uploaded" 2>> "$work/said" &
    others=$!
    for _ in $(seq 1 400); do
        if grep -qs half "$work/uploaded"; then break; fi
        sleep 0.01
    done
    sleep 0.2
    run one "$db" stop &
    first=$!
    sleep 0.5
    kill -0 "$first" && is_silent || return 1
    wait "$first"
    ended=0
    wait "$server" || ended=$?
    server=
    wait "$others" || true
    others=
    cat "$work/uploaded" "$work/server.errors" >> "$work/said"
    is_done one && [ "$ended" = 0 ] && grep -q ' 201 ' "$work/uploaded" || return 1
    grep -qx 'ended: a command told it to stop' "$work/server.errors" && [ ! -e "$db-server" ] || return 1
    cp "$db" "$work/stopped.db"
    run one "$work/stopped.db" check
    is_done one || return 1
    run one "$work/stopped.db" packument last
    is one 0 '1.0.0'
}
try 'stop waits for an upload that is under way, and leaves all in the file, without its log' answers_an_upload_first

finds_no_server() {
    run one "$db" stop
    is one 3 "no server has the registry's file" || return 1
    serve "$db" || return 1
    stop
    [ -S "$db-server/control" ] || return 1
    run one "$db" stop
    is one 3 "no server has the registry's file" || return 1
    run one "$work/none.db" stop
    is one 3 "isn't there or is empty" && [ ! -e "$work/none.db" ]
}
try 'where no server has the file, also where one was killed, stop says so' finds_no_server

stops_twice() {
    serve "$db" || return 1
    run one "$db" stop &
    first=$!
    run two "$db" stop
    wait "$first"
    ended=0
    wait "$server" || ended=$?
    server=
    [ "$ended" = 0 ] || return 1
    is_done one || is one 3 "no server has the registry's file" || return 1
    is_done two || is two 3 "no server has the registry's file"
}
try 'two stops at once end one server' stops_twice

stops_a_start() {
    begin "$db"
    for _ in $(seq 1 100); do
        run one "$db" stop
        if is_done one; then break; fi
        # It has the file before it answers commands, on a busy machine for more than five seconds.
        is one 3 "no server has the registry's file" || is one 3 "another process has the registry's file" || return 1
    done
    is_done one || return 1
    wait "$server" || return 1
    server=
    run one "$db" check
    is_done one
}
try 'a server that is just starting is stopped, too' stops_a_start

stops_a_held_server() {
    serve "$db" || return 1
    halt "$work/third.db" || return 1
    run one "$db" stop &
    first=$!
    sleep 0.5
    kill -0 "$first" || return 1
    kill -9 "$others"
    others=
    wait "$first"
    wait "$server" || return 1
    server=
    is_done one
}
try 'a stop waits for who holds the server' stops_a_held_server

# As process 1 of a container: the kernel gives it no signal for which it has no handler.
is_ended_by_a_command_alone() {
    place=$(free_port)
    : > "$work/server"
    unshare --pid --fork --kill-child --map-root-user "$program" --db "$db" serve --port "$place" > "$work/server" 2> "$work/server.errors" &
    server=$!
    for _ in $(seq 1 3000); do
        if grep -q listening "$work/server"; then break; fi
        sleep 0.01
    done
    read -r first < "/proc/$server/task/$server/children"
    for signal in TERM HUP INT QUIT; do kill -s $signal "$first"; done
    sleep 0.5
    kill -0 "$first" && [ "$(curl -s -m 10 -o /dev/null -w '%{http_code}' "http://127.0.0.1:$place/-/nothing")" = 404 ] || return 1
    run one "$db" stop
    wait "$server" 2> /dev/null || true
    server=
    is_done one && ! kill -0 "$first" 2> /dev/null && grep -qx 'ended: a command told it to stop' "$work/server.errors"
}
if unshare --pid --fork --kill-child --map-root-user true 2> /dev/null; then
    try 'as process 1 of a container no signal ends it, and stop does' is_ended_by_a_command_alone
else
    say 'skipped: process 1 of a container, for which unshare must be allowed'
fi

is_barred() {
    mkdir -m 755 "$db-server" 2>/dev/null || chmod 755 "$db-server"
    serve "$db" || return 1
    for errand in 'check' "backup $work/barred.db" 'stop' '--operator token-new ann'; do
        # shellcheck disable=SC2086
        run one "$db" $errand
        is one 3 "another process has the registry's file, and commands can't reach it" || return 1
    done
    [ ! -e "$work/barred.db" ] && [ ! -e "$work/barred.db-part" ]
}
try 'a folder that others may enter is no way for any of them' is_barred

say "$passed passed, $failed failed"
[ "$failed" -eq 0 ]
