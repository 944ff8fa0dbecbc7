#!/bin/sh
# What a full disk leaves, and a disk that fails; and files from which no registry opens.
#
#     examples/refused_files.sh [PROGRAM]
#
# PROGRAM is out/registry where it is left out. A disk of 2 MB is filled by publishes until one is
# answered by a fault, first by the program's commands and then over HTTP: once there is room again
# the file must open, and have each version whose publish was answered with its archive, and no
# other one; the server goes on meanwhile. Then a disk's syncs fail under a server: the publish that
# meets this is answered by a fault, the server ends with status 3 and says why, and started again it
# has what was answered. Then the registry's file is one that is none, or that may not be written: each command
# must say so, as docs/OPERATIONS.md has it, and leave every byte. What another SQLite wrote anew is rescued by
# tools/rescue. What can't be had here is left out, and
# the script says so: the full disk needs root and mount, one that fails cc, a file that may not be
# written setpriv or su where root runs it, another program's file python3. The status is 0 where all else came out. It
# needs curl, sha512sum, base64 and timeout.
set -eu

top=$(cd "$(dirname "$0")/.." && pwd)
program=$(realpath "${1:-$top/out/registry}")
work=$(mktemp -d)
disk=$work/disk
mounted=
server=

finish() {
    status=$?
    if [ -n "$server" ]; then kill "$server" 2>/dev/null || true; wait "$server" 2>/dev/null || true; fi
    if [ "$status" -ne 0 ]; then
        echo "refused_files.sh: failed; what was said last:" >&2
        cat "$work/out" "$work/errors" >&2 || true
    fi
    if [ -n "$mounted" ]; then umount "$disk"; fi
    rm -rf "$work"
    exit "$status"
}
trap finish EXIT
trap 'exit 130' INT
trap 'exit 143' TERM

say() { printf '%s\n' "$*"; }
fail() { say "refused_files.sh: $*" >&2; exit 1; }
asks() { "$program" --db "$@" > "$work/out" 2> "$work/errors"; }
must() { asks "$@" || fail "$* ended with $?"; }
ask() { curl -s -H 'authorization: Bearer npm_bob_000000001' -H 'expect:' "$@"; }

[ -x "$program" ] || fail "there is no program $program: make build proves and builds it"
: > "$work/out"
: > "$work/errors"

# The archive of a version, of 100,000 bytes or as many as are given, and the body that publishes it.
write_body() {
    head -c "${2:-100000}" /dev/urandom > "$work/$1.tgz"
    {
        printf '{"name":"kit","versions":{"%s":{"name":"kit","version":"%s"}},' "$1" "$1"
        printf '"_attachments":{"kit-%s.tgz":{"data":"' "$1"
        base64 -w 0 < "$work/$1.tgz"
        printf '"}}}'
    } > "$work/body"
}

# A registry with the user bob, who has a token.
begin() {
    must "$1" --operator user-add bob
    must "$1" --operator token-add bob npm_bob_000000001
}

serve() {
    port=$((20000 + $(od -An -N2 -tu2 /dev/urandom) % 20000))
    : > "$work/server"
    LD_PRELOAD=${2:-} UNSYNCED=$work/unsynced "$program" --db "$1" serve --port "$port" > "$work/server" 2>&1 &
    server=$!
    for _ in $(seq 1 300); do
        if grep -q listening "$work/server"; then return 0; fi
        if ! kill -0 "$server" 2>/dev/null; then break; fi
        sleep 0.1
    done
    fail "the server does not listen: $(cat "$work/server")"
}

stop() {
    kill "$server"
    wait "$server" 2>/dev/null || true
    server=
}

# ---- a full disk

# Publishes by commands until that fails.
fill_by_words() {
    begin "$db"
    while :; do
        version=1.0.$((1 + $(wc -l < "$work/answered")))
        write_body "$version"
        if ! asks "$db" --as bob publish "$work/body"; then break; fi
        echo "$version" >> "$work/answered"
    done
    [ "$(head -n 1 "$work/errors")" = 'fault: Database' ] || fail "a full disk is answered with $(cat "$work/errors")"
    say "  $(wc -l < "$work/answered") publishes by commands were answered, and then: $(paste -s -d ' ' "$work/errors")"
    if asks "$db" tags kit; then
        say "  the file opens on the full disk, too: $(cat "$work/out")"
    else
        [ "$(paste -s -d ' ' "$work/errors")" = 'fault: Database the disk is full' ] || fail "an open then is answered with $(cat "$work/errors")"
        say "  an open on the full disk: $(paste -s -d ' ' "$work/errors")"
    fi
}

# Publishes over HTTP until that fails.
fill_by_server() {
    begin "$db"
    serve "$db"
    while :; do
        version=1.0.$((1 + $(wc -l < "$work/answered")))
        write_body "$version"
        status=$(ask -o "$work/out" -w '%{http_code}' -X PUT --data-binary "@$work/body" "http://127.0.0.1:$port/kit")
        if [ "$status" != 201 ]; then break; fi
        echo "$version" >> "$work/answered"
    done
    [ "$status $(cat "$work/out")" = '500 {"error":"Database"}' ] || fail "a full disk is answered with $status, $(cat "$work/out")"
    say "  $(wc -l < "$work/answered") publishes over HTTP were answered, and then: $status $(cat "$work/out")"
    status=$(ask -o "$work/out" -w '%{http_code}' "http://127.0.0.1:$port/-/package/kit/dist-tags")
    [ "$status" = 200 ] || fail "a query on a full disk is answered with $status, $(cat "$work/out")"
    say "  a query of the server after that: $status $(cat "$work/out")"
    stop
}

# Whether the registry has just the versions that were answered, with their archives.
has_what_was_answered() {
    must "$db" packument kit
    grep -o '"version":"[^"]*"' "$work/out" | cut -d '"' -f 4 | sort > "$work/there"
    sort "$work/answered" | cmp -s - "$work/there" || fail "answered: $(paste -s -d ' ' "$work/answered"); there: $(paste -s -d ' ' "$work/there")"
    while read -r version; do
        must "$db" archive kit "$version"
        cmp -s "$work/out" "$work/$version.tgz" || fail "the archive of $version is another"
    done < "$work/there"
}

full_disk() {
    mkdir "$disk"
    if ! mount -t tmpfs -o size=2m tmpfs "$disk" 2> /dev/null; then
        rmdir "$disk"
        say 'left out: a full disk, which only root may make, where mount is allowed'
        return 0
    fi
    mounted=yes
    say 'a disk of 2 MB'
    db=$disk/registry.db
    : > "$work/answered"
    "$1"
    mount -o remount,size=16m "$disk"
    has_what_was_answered
    write_body 2.0.0
    must "$db" --as bob publish "$work/body"
    echo 2.0.0 >> "$work/answered"
    has_what_was_answered
    say "  with room again all of it is there, and no more, and a publish is answered"
    umount "$disk"
    mounted=
    rmdir "$disk"
}

full_disk fill_by_words
full_disk fill_by_server

# ---- a disk whose syncs fail

# Publishes a version over HTTP. The status is in `status`.
publish() {
    write_body "$1"
    status=$(ask -o "$work/out" -w '%{http_code}' -X PUT --data-binary "@$work/body" "http://127.0.0.1:$port/kit")
}

failing_disk() {
    if ! cc -shared -fPIC -D_GNU_SOURCE -o "$work/unsynced.so" "$top/tools/unsynced.c" 2> /dev/null; then
        say 'left out: a disk whose syncs fail, which cc makes'
        return 0
    fi
    db=$work/failing.db
    : > "$work/answered"
    begin "$db"
    serve "$db" "$work/unsynced.so"
    publish 1.0.1
    [ "$status" = 201 ] || fail "a publish is answered with $status, $(cat "$work/out")"
    : > "$work/unsynced"
    publish 1.0.2
    [ "$status $(cat "$work/out")" = '500 {"error":"Database"}' ] || fail "a publish whose sync fails is answered with $status, $(cat "$work/out")"
    for _ in $(seq 1 100); do
        if ! kill -0 "$server" 2>/dev/null; then break; fi
        sleep 0.1
    done
    if kill -0 "$server" 2>/dev/null; then fail 'the server goes on'; fi
    status=0
    wait "$server" || status=$?
    server=
    [ "$status" -eq 3 ] || fail "the server ended with status $status"
    tail -n +2 "$work/server" | paste -s -d '|' > "$work/out"
    [ "$(cat "$work/out")" = 'fault: Database|the disk failed while the registry was served' ] || fail "the server said $(cat "$work/server")"
    rm "$work/unsynced"
    serve "$db"
    publish 1.0.3
    [ "$status" = 201 ] || fail "a publish after that is answered with $status, $(cat "$work/out")"
    stop
    for version in 1.0.1 1.0.3; do
        must "$db" archive kit "$version"
        cmp -s "$work/out" "$work/$version.tgz" || fail "the archive of $version is another"
    done
    say 'a disk whose syncs fail: 500, and the server ends with status 3; started again, it publishes'
}

failing_disk

# ---- files from which no registry opens

mkdir "$work/lies"
db=$work/lies/registry.db

# These words end in the two lines.
ends_so() {
    words=$1
    shift
    # shellcheck disable=SC2086
    if timeout 60 "$@" --db "$db" $words > "$work/out" 2> "$work/errors"; then status=0; else status=$?; fi
    [ "$status" -eq 3 ] || fail "$what: $words ended with $status"
    [ ! -s "$work/out" ] || fail "$what: $words printed something"
    printf 'fault: Database\n%s\n' "$second" | cmp -s - "$work/errors" || fail "$what: $words said $(cat "$work/errors")"
}

# A query, a command and a server each end in these two lines, and what lies there is as it was. A
# server that opened it would go on, and is stopped.
is_refused() {
    sum=$(sums)
    for words in 'tags kit' '--operator user-add eve' 'serve'; do ends_so "$words" "$@"; done
    [ "$(sums)" = "$sum" ] || fail "$what: its bytes are others"
    say "$what: fault: Database, $second"
}

# So does a second server. Commands are answered by the first one (examples/beside.sh).
second_server_is_refused() {
    sum=$(sums)
    ends_so serve "$program"
    [ "$(sums)" = "$sum" ] || fail "$what: its bytes are others"
    say "$what, for a second server: fault: Database, $second"
}

# The sum of the file, and of the log beside it where one lies there; of a folder what is in it.
sums() {
    if [ -d "$db" ]; then ls -a "$db"; else sha512sum < "$db"; fi
    if [ "${log:-}" ]; then sha512sum < "$db-wal"; fi
}

# A registry with some versions. What is published is in the log until that has 4 MB, and a
# publish after that puts it into the file: so the file by itself has the first of them, and must
# open, or what is made of it below shows nothing.
made=$work/made.db
begin "$made"
for number in 1 2 3 4; do
    write_body "1.0.$number" 1500000
    must "$made" --as bob publish "$work/body"
done
cp "$made" "$db"
must "$db" tags kit
[ "$(cat "$work/out")" = '{"latest":"1.0.3"}' ] || fail "the file by itself has the tags $(cat "$work/out")"

lay() { rm -rf "$db" "$db-wal"; what=$1; second=$2; }
foreign="the file holds no registry, or was changed by another hand"
unreachable="the registry's file can't be opened or written"

lay 'a folder' "$unreachable"
mkdir "$db"
is_refused "$program"

lay 'a text' "$foreign"
echo 'a text, and no registry' > "$db"
is_refused "$program"

# Another program's file, in which these texts were run, is refused.
another_is_refused() {
    lay "another program's file, with $1" "$foreign"
    shift
    python3 -c 'import sqlite3, sys
conn = sqlite3.connect(sys.argv[1])
for text in sys.argv[2:]:
    conn.execute(text)
conn.commit()
conn.close()' "$db" "$@"
    is_refused "$program"
}

if command -v python3 > /dev/null; then
    table="CREATE TABLE note (title TEXT)"
    another_is_refused 'a table' "$table"
    another_is_refused 'a view alone' 'CREATE VIEW note AS SELECT 1'
    another_is_refused 'a trigger' "$table" 'CREATE TRIGGER none AFTER INSERT ON note BEGIN DELETE FROM note; END'
    another_is_refused 'a view and its trigger' 'CREATE VIEW note AS SELECT 1 AS title' \
        'CREATE TRIGGER none INSTEAD OF INSERT ON note BEGIN SELECT 1; END'
    another_is_refused 'a table of no rowids' 'CREATE TABLE note (title TEXT PRIMARY KEY) WITHOUT ROWID'
else
    say "left out: another program's files, which python3 makes"
fi

lay 'half of a registry' "$foreign"
head -c "$(($(wc -c < "$made") / 2))" "$made" > "$db"
is_refused "$program"

# Byte 24, which counts what was written: it is another one, whatever it was.
lay 'a byte of its head is another' "$foreign"
cp "$made" "$db"
byte=$(od -An -tu1 -j 24 -N 1 "$db")
# shellcheck disable=SC2059
printf "\\$(printf '%03o' $((byte ^ 90)))" | dd of="$db" bs=1 seek=24 conv=notrunc 2> /dev/null
is_refused "$program"

# ---- a registry that another SQLite wrote anew

# The file that these lines make of a whole copy is refused, since its tables are in another order.
# tools/rescue makes one of it that opens, in which all rows are as they were.
is_rescued() {
    lay "$1" "$foreign"
    rm -f "$work"/whole.db* "$work"/rescued.db*
    must "$made" backup "$work/whole.db"
    python3 -c "$2" "$work/whole.db" "$db"
    is_refused "$program"
    "$top/tools/rescue" "$db" "$work/rescued.db" || fail "$what: tools/rescue ended with $?"
    must "$work/rescued.db" check
    for words in 'packument kit' 'archive kit 1.0.4'; do
        # shellcheck disable=SC2086
        must "$made" $words
        mv "$work/out" "$work/wanted"
        # shellcheck disable=SC2086
        must "$work/rescued.db" $words
        cmp -s "$work/out" "$work/wanted" || fail "$what: $words is another after the rescue"
    done
    say "$what: rescued, it passes the check and answers the same"
}

# A copy of a registry that breaks a rule is made, and says so. The rule is broken by another SQLite.
copy_says_what_is_wrong() {
    python3 -c 'import sqlite3, sys
conn = sqlite3.connect(sys.argv[1])
conn.execute("DELETE FROM tags")
conn.commit()
conn.close()' "$work/rescued.db"
    if asks "$work/rescued.db" backup "$work/wrong.db"; then status=0; else status=$?; fi
    [ "$status" -eq 1 ] && [ ! -s "$work/out" ] || fail "a copy that breaks a rule ended with $status"
    echo 'wrong: package kit has a live version and no tag latest' | cmp -s - "$work/errors" || fail "a copy that breaks a rule said $(cat "$work/errors")"
    if asks "$work/wrong.db" check; then status=0; else status=$?; fi
    [ "$status" -eq 1 ] || fail "the check of that copy ended with $status"
    must "$work/rescued.db" backup --no-check "$work/unchecked.db"
    [ "$(cat "$work/out")" = '{"ok":true}' ] || fail "a copy that isn't checked said $(cat "$work/out")"
    say 'a copy that breaks a rule: it is there, and says what is wrong with status 1'
}

if command -v python3 > /dev/null; then
    is_rescued 'a copy after VACUUM' 'import shutil, sqlite3, sys
shutil.copy(*sys.argv[1:])
conn = sqlite3.connect(sys.argv[2])
conn.execute("VACUUM")
conn.close()'
    is_rescued 'a copy that was dumped and read again' 'import sqlite3, sys
old, new = map(sqlite3.connect, sys.argv[1:])
new.executescript("\n".join(old.iterdump()))
new.close()'
    is_rescued 'a copy without its indexes' 'import shutil, sqlite3, sys
shutil.copy(*sys.argv[1:])
conn = sqlite3.connect(sys.argv[2])
for (name,) in conn.execute("SELECT name FROM sqlite_master WHERE type = \"index\" AND sql <> \"\"").fetchall():
    conn.execute(f"DROP INDEX {name}")
conn.close()'
    copy_says_what_is_wrong
else
    say 'left out: files that another SQLite wrote anew, which python3 makes'
fi

# ---- a registry that another process has, or that may not be written

lay 'a registry that a server has' "another process has the registry's file"
cp "$made" "$db"
serve "$db"
log=yes
second_server_is_refused
log=
stop

# As nobody where root runs this, who may write any file, and else as whoever runs it.
as_nobody=
if [ "$(id -u)" -ne 0 ]; then
    as_nobody='env'
elif command -v setpriv > /dev/null; then
    as_nobody='setpriv --reuid=65534 --regid=65534 --clear-groups --'
elif command -v su > /dev/null; then
    as_nobody='su -s /usr/bin/env nobody --'
fi
cp "$program" "$work/registry"
chmod 755 "$work" "$work/registry" "$work/lies"
# shellcheck disable=SC2086
if [ -n "$as_nobody" ] && $as_nobody "$work/registry" --help < /dev/null 2>&1 | grep -q withdraw; then
    lay 'a registry that may not be written' "$unreachable"
    cp "$made" "$db"
    must "$db" tags kit
    if [ "$(id -u)" -eq 0 ]; then chown -R 65534:65534 "$work/lies"; fi
    chmod 444 "$db"
    log=yes
    # shellcheck disable=SC2086
    is_refused $as_nobody "$work/registry"
    log=
    chmod 644 "$db"
    must "$db" tags kit
    say '  once it may be written, it opens'
else
    say 'left out: a file that may not be written, for which root needs setpriv or su'
fi
say 'all of it came out as it should'
