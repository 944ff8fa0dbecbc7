#!/bin/sh
# Going back to a copy, and what is shown on a terminal meanwhile.
#
#     examples/restore.sh [PROGRAM]
#
# PROGRAM is out/registry where it is left out. A copy is restored, alone and with a log beside it: the
# file must have all that the copy had, and the copy stay as it was. So it is with a copy of an older
# schema, and with one that another SQLite wrote anew and tools/rescue mended. Then it is tried what must
# not be done: a file that is there, or a log alone, is overwritten; a copy that breaks a rule or is none
# comes in place; a file is made for a server whose file was moved away, or of a copy that a process has.
# A full disk and kills, one after another, must leave a whole file or none under the name. Last, a file
# of 36 MB is checked, copied and restored in a terminal, which must be told of it, and otherwise, where
# nothing may be. What can't be had here is left out, and the script says so: the full disk needs root and
# mount; a broken rule, an older schema, another SQLite and a terminal need python3. The status is 0 where
# all else came out. It takes two minutes, and needs base64 and sha512sum.
set -eu

top=$(cd "$(dirname "$0")/.." && pwd)
program=$(realpath "${1:-$top/out/registry}")
work=$(mktemp -d)
server=
mounted=

finish() {
    status=$?
    if [ -n "$server" ]; then kill "$server" 2>/dev/null || true; wait "$server" 2>/dev/null || true; fi
    if [ "$status" -ne 0 ]; then
        echo "restore.sh: failed; what was said last:" >&2
        cat "$work/out" "$work/errors" >&2 || true
    fi
    if [ -n "$mounted" ]; then umount "$mounted"; fi
    rm -rf "$work"
    exit "$status"
}
trap finish EXIT
trap 'exit 130' INT
trap 'exit 143' TERM

say() { printf '%s\n' "$*"; }
fail() { say "restore.sh: $*" >&2; exit 1; }
asks() { "$program" --db "$@" > "$work/out" 2> "$work/errors"; }
must() { asks "$@" || fail "$* ended with $?"; }

[ -x "$program" ] || fail "there is no program $program: make build proves and builds it"
: > "$work/out"
: > "$work/errors"

# Publishes a version of the package kit with an archive of so many random bytes.
publish() {
    {
        printf '{"name":"kit","versions":{"%s":{"name":"kit","version":"%s"}},' "$2" "$2"
        printf '"_attachments":{"kit-%s.tgz":{"data":"' "$2"
        head -c "$3" /dev/urandom | base64 -w 0
        printf '"}}}'
    } > "$work/body"
    must "$1" --as bob publish "$work/body"
}

# The registry's file is a new one.
fresh() { db=$work/$1.db; }

# Nothing has the name of the file, or of what belongs to it.
is_absent() {
    for end in '' -wal -part -part-wal; do
        [ ! -e "$db$end" ] || fail "$1: $db$end is there"
    done
}

# These words end with a status and this second line, and print nothing on the output.
ends_so() {
    wanted=$1
    line=$2
    shift 2
    if asks "$db" "$@"; then status=0; else status=$?; fi
    [ "$status" -eq "$wanted" ] || fail "$* ended with $status"
    [ ! -s "$work/out" ] || fail "$* printed something"
    tail -n 1 "$work/errors" | grep -qxF "$line" || fail "$* said $(cat "$work/errors")"
}

# What a registry answers of the package.
answers() {
    for words in 'packument kit' 'archive kit 1.0.2'; do
        # shellcheck disable=SC2086
        must "$1" $words
        cat "$work/out"
    done
}

# The file has what the copy has.
has_all() {
    answers "$db" > "$work/found"
    cmp -s "$work/found" "$work/wanted" || fail "$1: something else is answered"
}

made=$work/made.db
copy=$work/copy.db
must "$made" --operator user-add bob
publish "$made" 1.0.1 300000
publish "$made" 1.0.2 300000
must "$made" backup "$copy"
answers "$made" > "$work/wanted"
sum=$(sha512sum < "$copy")
is_the_copy() { [ "$(sha512sum < "$copy")" = "$sum" ] && [ ! -e "$copy-wal" ] || fail "$1: the copy is another"; }

# ---- what is restored

fresh restored
must "$db" restore "$copy"
[ "$(cat "$work/out")" = '{"ok":true,"checked":true}' ] || fail "restore said $(cat "$work/out")"
[ "$(stat -c '%a %h' "$db")" = '600 1' ] || fail "mode and links: $(stat -c '%a %h' "$db")"
for end in -wal -part -part-wal; do [ ! -e "$db$end" ] || fail "$db$end is there"; done
is_the_copy restored
has_all restored
say 'a copy is restored, with mode 0600 and one name, and stays as it was'

# The log of this copy has the last publish.
publish "$made" 1.0.3 1000
cp "$made" "$work/pair.db"
cp "$made-wal" "$work/pair.db-wal"
pair=$(cat "$work/pair.db" "$work/pair.db-wal" | sha512sum)
fresh of_pair
must "$db" restore "$work/pair.db"
[ "$(cat "$work/pair.db" "$work/pair.db-wal" | sha512sum)" = "$pair" ] || fail 'a copy with a log is another'
must "$db" packument kit
cp "$work/out" "$work/found"
must "$made" packument kit
cmp -s "$work/out" "$work/found" || fail 'a copy with a log: another packument is answered'
grep -q 1.0.3 "$work/out" || fail 'the log had no publish'
say 'a copy with a log beside it is restored with what the log has'

# ---- what isn't

db=$work/restored.db
there="the registry's file is there, or its -wal, -part or -part-wal: move it away first"
before=$(sha512sum < "$db")
ends_so 3 "$there" restore "$copy"
db=$copy
ends_so 3 "$there" restore "$copy"
is_the_copy 'itself'
[ "$(sha512sum < "$work/restored.db")" = "$before" ] || fail 'the file that was there is another'
for end in -wal -part -part-wal; do
    fresh "left$end"
    echo old > "$db$end"
    ends_so 3 "$there" restore "$copy"
    [ "$(cat "$db$end")" = old ] && [ ! -e "$db" ] || fail "$db$end: it was touched"
done
say 'a file that is there, its log, and what a killed command left are kept'

fresh of_a_text
echo 'a text, and no registry' > "$work/text"
ends_so 3 'the copy holds no registry, or was changed by another hand' restore "$work/text"
is_absent 'a text'
head -c 300000 "$copy" > "$work/half"
ends_so 3 'the copy holds no registry, or was changed by another hand' restore "$work/half"
is_absent 'half a copy'
: > "$work/empty"
for missing in "$work/empty" "$work/none" "$work"; do
    ends_so 3 "the copy isn't there, is empty, or can't be opened" restore "$missing"
done
is_absent 'no copy'
say 'what is no registry, half of one, empty or missing is not restored'

if command -v python3 > /dev/null; then
    # VACUUM writes the tables in another order.
    cp "$copy" "$work/vacuumed.db"
    python3 -c 'import sqlite3, sys
conn = sqlite3.connect(sys.argv[1])
conn.execute("VACUUM")
conn.close()' "$work/vacuumed.db"
    fresh of_a_vacuumed_one
    ends_so 3 'the copy holds no registry, or was changed by another hand' restore "$work/vacuumed.db"
    is_absent 'a copy after VACUUM'
    "$top/tools/rescue" "$work/vacuumed.db" "$work/rescued.db" || fail "tools/rescue ended with $?"
    must "$db" restore "$work/rescued.db"
    has_all 'a rescued copy'
    say 'a copy after VACUUM is restored once tools/rescue has mended it'

    # The pages of a rescued file have no sums, so that another SQLite may change it.
    cp "$work/rescued.db" "$work/wrong.db"
    python3 -c 'import sqlite3, sys
conn = sqlite3.connect(sys.argv[1])
conn.execute("DELETE FROM tags")
conn.commit()
conn.close()' "$work/wrong.db"
    fresh of_a_wrong_one
    ends_so 1 'wrong: package kit has a live version and no tag latest' restore "$work/wrong.db"
    is_absent 'a copy that breaks a rule'
    must "$db" restore --no-check "$work/wrong.db"
    ends_so 1 'wrong: package kit has a live version and no tag latest' check
    say 'a copy that breaks a rule is restored only with --no-check'

    # Of schema 2. It is restored as it is, so that the program that wrote it opens it again; ours
    # migrates it when it opens it.
    cp "$copy" "$work/new.db"
    PYTHONPATH=$top/tools python3 -B -c 'import sys
from older_files import make_older
make_older(sys.argv[1], sys.argv[2], 2)' "$work/new.db" "$work/older.db"
    older=$(sha512sum < "$work/older.db")
    fresh of_an_older_one
    ends_so 3 'the copy has an older schema: --no-check restores it as it is' restore "$work/older.db"
    is_absent 'a copy of an older schema'
    must "$db" restore --no-check "$work/older.db"
    [ "$(sha512sum < "$work/older.db")" = "$older" ] || fail 'a copy of an older schema is another'
    schema=$(python3 -c 'import sqlite3, sys
print(*sqlite3.connect(f"file:{sys.argv[1]}?immutable=1", uri=True).execute("SELECT value FROM meta").fetchone())' "$db")
    [ "$schema" = 2 ] || fail "the copy of schema 2 was migrated to $schema"
    must "$db" check
    has_all 'of an older schema'
    say 'a copy of an older schema is restored as it is, only with --no-check'
else
    say 'left out: copies that break a rule, of an older schema and after VACUUM, which python3 makes'
fi

# ---- beside a server

serve() {
    port=$((20000 + $(od -An -N2 -tu2 /dev/urandom) % 20000))
    "$program" --db "$1" serve --port "$port" > "$work/server" 2>&1 &
    server=$!
    for _ in $(seq 1 300); do
        if grep -q listening "$work/server"; then return 0; fi
        sleep 0.1
    done
    fail "the server does not listen: $(cat "$work/server")"
}

cp "$copy" "$work/served.db"
serve "$work/served.db"
fresh of_a_served_one
ends_so 3 'another process has the copy' restore "$work/served.db"
is_absent 'a copy that a server has'
mv "$work/served.db" "$work/moved.db"
mv "$work/served.db-wal" "$work/moved.db-wal"
db=$work/served.db
ends_so 3 "the registry's server has another file open than the one at the path" restore "$copy"
is_absent 'the file of a server'
kill "$server"
wait "$server" 2> /dev/null || true
server=
must "$db" restore "$copy"
has_all 'after the server'
say 'beside a server no file is made at its path, nor of its own file'

# ---- no room, and kills

if mkdir "$work/disk" && mount -t tmpfs -o size=512k tmpfs "$work/disk" 2> /dev/null; then
    mounted=$work/disk
    db=$mounted/registry.db
    ends_so 3 'the disk is full' restore "$copy"
    is_absent 'a full disk'
    mount -o remount,size=16m "$mounted"
    must "$db" restore "$copy"
    has_all 'a disk with room again'
    umount "$mounted"
    mounted=
    say 'a full disk leaves nothing, and with room the copy is restored'
else
    say 'left out: a full disk, which only root may make, where mount is allowed'
fi

# Each is killed some milliseconds later than the one before, until one ends by itself.
whole=0
killed=0
delay=0
while [ "$whole" -lt 3 ] && [ "$killed" -lt 400 ]; do
    fresh "killed-$delay"
    "$program" --db "$db" restore "$copy" > "$work/out" 2> "$work/errors" &
    one=$!
    sleep "$(printf '0.%03d' $((delay % 1000)))"
    if kill -9 "$one" 2> /dev/null; then killed=$((killed + 1)); fi
    if wait "$one" 2> /dev/null; then whole=$((whole + 1)); fi
    rm -f "$db-part" "$db-part-wal"
    [ ! -e "$db-wal" ] || fail "after $delay ms there is a log"
    if [ -e "$db" ]; then must "$db" check; fi
    rm -f "$db" "$db-wal"
    delay=$((delay + 4))
done
say "of $killed kills each left a whole file or none"

# ---- what a terminal is told

# Nothing is said where standard error is no terminal.
is_silent() {
    must "$@"
    [ ! -s "$work/errors" ] || fail "$*: a file of 36 MB is told of elsewhere: $(cat "$work/errors")"
}

if command -v python3 > /dev/null; then
    long=$work/long.db
    must "$long" --operator user-add bob
    for number in 1 2 3 4 5 6 7 8 9 10 11 12; do publish "$long" "1.0.$number" 3000000; done
    is_silent "$long" backup --no-check "$work/long-copy.db"
    is_silent "$long" check
    is_silent "$work/silent.db" restore "$work/long-copy.db"
    fresh told
    python3 -c 'import os, pty, subprocess, sys, time
program, long, copy, db = sys.argv[1:]
for words, wanted in (
    ([long, "tags", "kit"], ["opening"]),
    ([long, "check"], ["opening", "checking"]),
    ([long, "backup", copy + "-2"], ["opening", "copying", "checking"]),
    ([db, "restore", copy], ["copying", "opening", "checking"]),
):
    ours, theirs = pty.openpty()
    begun = time.monotonic()
    one = subprocess.Popen([program, "--db", *words], stdout=subprocess.PIPE, stderr=theirs)
    os.close(theirs)
    told = b""
    while True:
        try:
            piece = os.read(ours, 65536)
        except OSError:
            break
        if not piece:
            break
        told += piece
    os.close(ours)
    printed = one.stdout.read()
    if one.wait() or not printed.startswith(b"{"):
        sys.exit(f"{words} ended with {one.returncode}")
    lines = [line for line in told.split(b"\r") if line.strip()]
    for word in wanted:
        if not any(line.startswith(word.encode()) and b" MB" in line for line in lines):
            sys.exit(f"{words} said {told} and not {word}")
    if len(lines) > len(wanted) + 2 + 4 * (time.monotonic() - begun):
        sys.exit(f"{words} said too much: {told}")
    if b"\n" in told or told.split(b"\r")[-1] or told.split(b"\r")[-2].strip():
        sys.exit(f"{words} left {told[-80:]}")' "$program" "$long" "$work/long-copy.db" "$db" || fail 'the terminal is not told'
    say 'a terminal is told of an open, a check, a copy and a restore of 36 MB, and nothing is left there'
else
    say 'left out: a terminal, which python3 makes'
fi
say 'all of it came out as it should'
