#!/bin/sh
# A server that keeps a log of its requests: what stands there, a log that is moved away, one whose
# folder is gone, a disk that is full, and standard output as a log.
#
#     examples/log.sh [PROGRAM]
#
# PROGRAM is out/registry where it is left out. All that is made lies in a folder of its own, which is
# removed. Each try prints a line, and the last line is `N passed, 0 failed`, with status 0, or the
# status is 1. It takes half a minute, and needs curl and python3. The tries of a full disk need root,
# who mounts one of 64 kB; without root they are left out, and that is said.
set -eu

top=$(cd "$(dirname "$0")/.." && pwd)
program=$(realpath "${1:-$top/out/registry}")
[ -x "$program" ] || { echo "log.sh: there is no program $program: make build proves and builds it" >&2; exit 2; }
for tool in curl python3; do
    command -v $tool > /dev/null || { echo "log.sh: $tool is needed, and isn't there" >&2; exit 2; }
done

work=$(mktemp -d)
server=
finish() {
    [ -z "$server" ] || { kill -9 "$server" 2>/dev/null || true; wait "$server" 2>/dev/null || true; }
    umount "$work/disk" 2>/dev/null || true
    rm -rf "$work"
}
trap finish EXIT
trap 'exit 130' INT
trap 'exit 143' TERM

passed=0
failed=0
# A try: what it shows, and a command that ends with status 0 where it comes out so.
try() {
    title=$1
    shift
    if "$@"; then
        passed=$((passed + 1))
        echo "ok: $title"
    else
        failed=$((failed + 1))
        echo "FAILED: $title"
    fi
}
# Whether a command comes out so within a minute, on a busy machine. A line is written once its round is
# over, so an answer may be there before it.
soon() {
    for _ in $(seq 1 6000); do
        if "$@"; then return 0; fi
        sleep 0.01
    done
    return 1
}

# ---- servers and requests

port=$(python3 -c 'import socket; one = socket.socket(); one.bind(("127.0.0.1", 0)); print(one.getsockname()[1])')
"$program" --db "$work/registry.db" init > /dev/null
registry() { "$program" --db "$work/registry.db" --existing "$@"; }
# Starts a server that logs to a file, and waits until it listens.
serve() {
    # What an earlier server said is gone before this one is waited for.
    rm -f "$work/server"
    "$program" --db "$work/registry.db" --existing serve --port "$port" --log "$1" > "$work/server" 2> "$work/errors" &
    server=$!
    soon grep -qs listening "$work/server" || { cat "$work/errors" >&2; exit 1; }
}
end() { kill -9 "$server" 2>/dev/null || true; wait "$server" 2>/dev/null || true; server=; }
# Asks for a path with a token.
get() { curl -s -o "$work/answer" -H "authorization: Bearer $2" "http://127.0.0.1:$port$1"; }
# Sends a body that is no publication.
put() { curl -s -o "$work/answer" -X PUT -d x -H "authorization: Bearer $2" "http://127.0.0.1:$port$1"; }
# Sends what is no request.
send_none() { python3 -c 'import socket, sys; one = socket.create_connection(("127.0.0.1", int(sys.argv[1]))); one.sendall(b"what\r\n\r\n"); one.recv(1000)' "$port"; }
is_answered() { grep -q NotFound "$work/answer"; }
# The last line of a file, but for its moment and its time.
last() { tail -n 1 "$1" 2>/dev/null | sed 's/^[^ ]* //; s/ [0-9.-]*$//'; }
last_is() { [ "$(last "$1")" = "$2" ]; }
has_lines() { [ "$(wc -l < "$1")" = "$2" ]; }
says() { grep -q "$2" "$1" 2>/dev/null; }
# Whether a log is refused, with status 2.
is_refused() {
    status=0
    timeout 60 "$program" --db "$work/registry.db" --existing serve --port "$port" --log "$1" > "$work/out" 2> "$work/err" || status=$?
    [ "$status" = 2 ] && [ "$(cat "$work/err")" = "error: --log takes a file that isn't one of the registry's" ]
}

registry --operator user-add ann > "$work/out"
registry --operator token-add ann npm_ann_000000001 > "$work/out"
# A token of the usual form, and its 40 digits.
token=$(registry --operator token-new ann)
digits=${token#npm_}

# ---- what is in a line

log=$work/requests.log
serve "$log"
try 'the first line says that it is begun' soon last_is "$log" '# begun'
get /-/package/kit/dist-tags npm_ann_000000001
try 'a request has a line' soon last_is "$log" 'ann GET /-/package/kit/dist-tags 404 20'
get /-/user/token/npm_ann_000000001 npm_ann_000000001
try 'a token in a path is not seen' soon last_is "$log" 'ann GET /-/*** 404 20'
get '/kit?token=npm_ann_000000001' npm_ann_000000001
try 'nor one in a query' soon last_is "$log" 'ann GET /kit?token=*** 404 20'
get '/kit?token=npm_ann_000000001&at=1' npm_ann_000000001
try 'what follows it is seen' soon last_is "$log" 'ann GET /kit?token=***&at=1 404 20'
get /%6epm_ann_000000001 npm_ann_000000001
try 'nor one that is escaped' soon last_is "$log" 'ann GET /*** 404 20'
get '/@lab%2fnpm_ann_000000001' npm_ann_000000001
try 'nor one behind an escaped slash' soon last_is "$log" 'ann GET /@lab%2f*** 404 20'
get "/$token?all" "$token"
try 'nor one of 40 digits' soon last_is "$log" 'ann GET /***?all 404 20'
get "/kit?of=%6epm_$digits" "$token"
try 'nor one of these that is escaped' soon last_is "$log" 'ann GET /kit?of=*** 404 20'
get /npm_helper npm_ann_000000001
try 'a name that begins as a token does is seen' soon last_is "$log" 'ann GET /npm_helper 404 20'
get '/kit?of=npm_helper_kits&npm_helper_tools' npm_ann_000000001
try 'but no part that is as long as a token' soon last_is "$log" 'ann GET /kit?of=npm_helper_kits&*** 404 20'
get "/kit?$(printf '%0507d' 1)" npm_ann_000000001
try 'a target of 512 bytes is seen whole' soon last_is "$log" "ann GET /kit?$(printf '%0507d' 1) 404 20"
get "/kit?$(printf '%01995d' 0)" npm_ann_000000001
try 'one of 2,000 bytes is cut' soon last_is "$log" "ann GET /kit?$(printf '%0507d' 0)... 404 20"
get "/kit?all=$(printf '%015996d' 0)" npm_ann_000000001
try 'as one of 16 KB is' soon last_is "$log" "ann GET /kit?all=$(printf '%0503d' 0)... 404 20"
get /-/package/kit/dist-tags npm_nobody_0000001
try 'a token of nobody has no user' soon last_is "$log" '- GET /-/package/kit/dist-tags 401 20'
send_none
try 'what is no request has a line' soon last_is "$log" '- - - 400 19'

# ---- who asked, also where the registry was not

get /-/nothing npm_ann_000000001
try 'a path without a route names the user' soon last_is "$log" 'ann GET /-/nothing 404 20'
get /-/nothing npm_nobody_0000001
try 'and nobody by an unknown token' soon last_is "$log" '- GET /-/nothing 404 20'
get /-/nothing short
try 'nor by what is no token' soon last_is "$log" '- GET /-/nothing 404 20'
put /kit npm_ann_000000001
try 'a body out of form names the user' soon last_is "$log" 'ann PUT /kit 400 19'
put /@LAB%2fkit npm_ann_000000001
try 'a bad name too' soon last_is "$log" 'ann PUT /@LAB%2fkit 400 19'

# ---- commands beside the server

registry --operator user-add bob > "$work/out"
try 'a command beside the server has a line' soon last_is "$log" 'operator command /user-add/bob 0 12'
registry --operator user-add bob > "$work/out" 2>&1 || true
try 'so has one that is refused, with its status' soon last_is "$log" 'operator command /user-add/bob 1 16'
registry --as ann org-create lab ann > "$work/out" 2>&1 || true
try 'it names the user of --as' soon last_is "$log" 'ann command /org-create/lab/ann 1 19'
registry tags kit > "$work/out" 2>&1 || true
try 'without a user it is the operator' soon last_is "$log" 'operator command /tags/kit 1 18'
registry --operator token-add bob npm_bob_000000001 > "$work/out"
try 'the token that is added is not seen' soon last_is "$log" 'operator command /token-add/bob 0 12'
registry --operator token-add npm_bob_000000002 npm_bob_000000003 > "$work/out" 2>&1 || true
try 'nor one in the place of the user' soon last_is "$log" 'operator command /token-add 1 18'
new=$(registry --operator token-new bob)
try 'nor one that is made' soon last_is "$log" 'operator command /token-add/bob 0 12'
get /-/nothing "$new"
try 'which names its user at once' soon last_is "$log" 'bob GET /-/nothing 404 20'
try 'the log holds no token' sh -c "! grep -q -e npm_ann -e npm_bob -e '$digits' -e '${new#npm_}' '$log'"
try 'each line of it has seven columns' sh -c "! grep -v ' # ' '$log' | grep -qvE '^([^ ]+ ){6}[^ ]+\$'"
try 'its owner alone reads it' [ "$(stat -c %a "$log")" = 600 ]

# ---- a log that is moved away, ends and begins

mv "$log" "$log.1"
get /-/package/kit/dist-tags npm_ann_000000001
try 'a log that was moved away is begun anew' soon has_lines "$log" 1
try 'and nothing more comes to the old one' last_is "$log.1" 'bob GET /-/nothing 404 20'
end
printf 'half a line' >> "$log"
serve "$log"
try 'after a kill it goes on behind what is there' soon last_is "$log" '# begun'
try 'where a line was cut, in a line of its own' has_lines "$log" 3
registry stop > "$work/out"
server=
try 'the last line says why it ended' last_is "$log" '# ended: a command told it to stop'

# ---- logrotate, with the file for a house

# Three turns, with a request before and after each: no line is lost, and the present file is its owner's alone.
rotates() {
    mkdir -m 700 "$work/rotated"
    sed -e "s|/var/log/registry|$work/rotated|" -e '/^ *su /d' "$top/examples/registry.logrotate" > "$work/logrotate.conf"
    chmod 644 "$work/logrotate.conf"
    serve "$work/rotated/requests.log"
    for turn in 1 2 3; do
        get "/-/before-$turn" npm_ann_000000001
        soon says "$work/rotated/requests.log" "before-$turn" && logrotate --force --state "$work/state" "$work/logrotate.conf" > "$work/out" 2>&1 || return 1
        get "/-/after-$turn" npm_ann_000000001
        soon says "$work/rotated/requests.log" "after-$turn" || return 1
    done
    end
    { zcat "$work/rotated/requests.log.3.gz" "$work/rotated/requests.log.2.gz"; cat "$work/rotated/requests.log.1" "$work/rotated/requests.log"; } > "$work/out"
    [ "$(grep -o -e 'before-[123]' -e 'after-[123]' "$work/out" | tr '\n' ' ')" = 'before-1 after-1 before-2 after-2 before-3 after-3 ' ] &&
        [ "$(stat -c %a "$work/rotated/requests.log")" = 600 ]
}
if command -v logrotate > /dev/null; then
    try 'logrotate turns it three times, and no line is lost' rotates
else
    echo 'skipped: logrotate, which is not there (Debian: apt-get install logrotate)'
fi

# ---- logs that would do harm

mkfifo "$work/pipe"
try "the registry's own file is no log" is_refused "$work/registry.db"
try "nor is the log of that" is_refused "$work/registry.db-wal"
for end in shm journal server server/requests.log; do
    try "nor what would be its -$end" is_refused "$work/registry.db-$end"
done
mkdir "$work/other"
ln -s "$work" "$work/other/folder"
try 'also by another path' is_refused "$work/other/folder/registry.db-journal"
ln -s registry.db-wal "$work/link-wal"
try 'nor a link to one of them' is_refused "$work/link-wal"
try 'nor is a pipe' is_refused "$work/pipe"
try 'nor a folder' is_refused "$work"

serve "$log"
get /-/package/kit/dist-tags npm_ann_000000001
mv "$log" "$log.2"
ln -s registry.db-wal "$log"
get /-/package/kit/dist-tags npm_ann_000000001
try 'a link to one of them that comes later is none' sh -c "sleep 0.2; ! grep -aq dist-tags '$work/registry.db-wal'"
rm "$log"
get /-/package/kit/dist-tags npm_ann_000000001
try 'and once it is gone the loss is told' soon says "$log" ' # lost lines: 1$'
end

# ---- logs that can't be written

mkdir "$work/gone"
serve "$work/gone/requests.log"
get /-/package/kit/dist-tags npm_ann_000000001
rm -r "$work/gone"
get /-/package/kit/dist-tags npm_ann_000000001
try 'without its folder all is answered' is_answered
mkdir "$work/gone"
get /-/package/kit/dist-tags npm_ann_000000001
try 'what was lost is told' soon says "$work/gone/requests.log" ' # lost lines: 1$'
end

if [ "$(id -u)" = 0 ] && mkdir "$work/disk" && mount -t tmpfs -o size=64k none "$work/disk" 2>/dev/null; then
    serve "$work/disk/requests.log"
    for n in $(seq 1 1000); do get "/-/package/kit-$n/dist-tags" npm_ann_000000001; done
    try 'on a full disk all is answered' is_answered
    mv "$work/disk/requests.log" "$work/full.log"
    get /-/package/kit/dist-tags npm_ann_000000001
    try 'once there is room the loss is told' soon says "$work/disk/requests.log" ' # lost lines: [0-9]*$'
    try 'and the request has a line' soon last_is "$work/disk/requests.log" 'ann GET /-/package/kit/dist-tags 404 20'
    end
else
    echo 'left out: a full disk, which root alone can make'
fi

# ---- standard output as a log

mkfifo "$work/journal"
# A reader that reads when it is told to.
exec 3<> "$work/journal"
"$program" --db "$work/registry.db" --existing serve --port "$port" --log - > "$work/journal" 2> "$work/errors" &
server=$!
read -r first <&3
try 'where it listens stands first on standard output' [ "$first" = "listening 127.0.0.1:$port" ]
read -r first <&3
try 'and then the log' [ "${first#* }" = '# begun' ]
get /-/package/kit/dist-tags npm_ann_000000001
read -r first <&3
try 'a request has a line there' [ "$(echo "$first" | sed 's/^[^ ]* //; s/ [0-9.-]*$//')" = 'ann GET /-/package/kit/dist-tags 404 20' ]
curl -s -o "$work/answers" "http://127.0.0.1:$port/-/package/kit-[1-3000]/dist-tags"
get /-/package/kit/dist-tags npm_ann_000000001
try 'where nobody reads it all is answered' is_answered
timeout 1 cat <&3 > "$work/journal.log" || true
get /-/package/kit/dist-tags npm_ann_000000001
timeout 1 cat <&3 >> "$work/journal.log" || true
try 'and the loss is told' says "$work/journal.log" ' # lost lines: [0-9]*$'
try 'each line that came is whole' sh -c "! grep -qv -e ' - GET /-/package/kit-[0-9]*/dist-tags 404 20 [0-9.]*$' -e ' # lost lines: [0-9]*$' -e ' ann GET /-/package/kit/dist-tags 404 20 [0-9.]*$' '$work/journal.log'"
exec 3>&-
get /-/package/kit/dist-tags npm_ann_000000001
get /-/package/kit/dist-tags npm_ann_000000001
try 'where the reader is gone all is answered' is_answered
end

echo "$passed passed, $failed failed"
[ "$failed" = 0 ]
