#!/bin/sh
# The root of an image, as examples/image-root makes it, in namespaces of its own: what is in it, a server
# behind a small init, commands beside it, and what signals do. No docker is needed, and none is tried: the
# archive is unpacked, and entered as examples/Dockerfile says, as its user, without a network and on a root
# that is read-only.
#
#     examples/image.sh [PROGRAM]
#
# PROGRAM is out/registry where it is left out. All that is made lies in a folder of its own, which is
# removed. Each try prints a line, and the last line is `N passed, 0 failed`, with status 0, or the status
# is 1. It takes ten seconds, and needs root, unshare, curl and tini-static (Debian: apt-get install
# util-linux curl tini).
set -eu

top=$(cd "$(dirname "$0")/.." && pwd)
program=$(realpath "${1:-$top/out/registry}")
[ -x "$program" ] || { echo "image.sh: there is no program $program: make build proves and builds it" >&2; exit 2; }
[ "$(id -u)" -eq 0 ] || { echo 'image.sh: it needs root, to enter another root' >&2; exit 2; }
for tool in unshare chroot setpriv curl tini-static; do
    command -v $tool > /dev/null || { echo "image.sh: $tool is needed, and isn't there (Debian: apt-get install util-linux curl tini)" >&2; exit 2; }
done

work=$(mktemp -d)
server=
end() {
    [ -z "$server" ] || { kill -9 "$server" 2> /dev/null || true; wait "$server" 2> /dev/null || true; }
    server=
}
trap 'end; rm -rf "$work"' EXIT
trap 'exit 130' INT
trap 'exit 143' TERM

passed=0
failed=0
try() {
    title=$1
    shift
    : > "$work/out"
    if "$@"; then
        passed=$((passed + 1))
        echo "ok: $title"
    else
        failed=$((failed + 1))
        echo "FAILED: $title"
        tail -n 15 "$work/out" | sed 's/^/    /'
    fi
}
wait_for() {
    for _ in $(seq 1 600); do
        if "$@" > /dev/null 2>&1; then return 0; fi
        sleep 0.1
    done
    return 1
}

# ---- what is in it

makes() { "$top/examples/image-root" "$program" "$work/image" > "$work/out" 2>&1 && mkdir "$work/root" && tar --numeric-owner -xpf "$work/image.tar" -C "$work/root"; }
try 'the root is made' makes
root=$work/root
holds() {
    (cd "$root" && find . -type f | sort) > "$work/out"
    { echo ./registry; ldd "$program" | grep -o '/[^ ]*' | sed 's|^|.|'; } | sort | cmp - "$work/out"
}
try 'it holds the program, the loader and its libraries, and nothing else' holds
owns() {
    (cd "$root" && stat -c '%n %u:%g %a' registry data run/registry) > "$work/out"
    [ "$(cat "$work/out")" = "$(printf 'registry 0:0 755\ndata 10001:10001 700\nrun/registry 10001:10001 750')" ]
}
try 'two folders are of the user 10001' owns

# ---- as the Dockerfile runs it

# Runs words in the root and in namespaces of their own. All but the two volumes is read-only.
# An init is what `docker run --init` puts there.
cp "$(command -v tini-static)" "$work/init"
enter='mount --bind "$0" "$0" && mount --bind "$0/data" "$0/data" && mount --bind "$0/run/registry" "$0/run/registry" &&
    mount -o remount,bind,ro "$0" && cd "$0" && exec setpriv --no-new-privs chroot --userspec=10001:10001 --groups= "$0" "$@"'
contained() { exec unshare --pid --fork --kill-child --net --ipc --uts --mount sh -c "$enter" "$root" "$@"; }
words=$(sed -n 's/^ENTRYPOINT \[\(.*\)\]$/\1/p; s/^CMD \[\(.*\)\]$/\1/p' "$top/examples/Dockerfile" | tr -d '",' | tr '\n' ' ')
begin() {
    : > "$work/said"
    # shellcheck disable=SC2086
    contained "$@" $words > "$work/said" 2>&1 &
    server=$!
    wait_for grep -q listening "$work/said" || { cp "$work/said" "$work/out"; return 1; }
    # The process that the signals of docker reach.
    first=$(tr -d ' ' < "/proc/$server/task/$server/children")
}
get() { curl -s --max-time 60 --unix-socket "$root/run/registry/http.sock" "http://registry$1" > "$work/out"; }
# Beside the server, as `docker exec`.
beside() { chroot --userspec=10001:10001 --groups= "$root" /registry --db /data/registry.db "$@" > "$work/out" 2>&1; }
# How a server ended, within a minute.
ends_with() {
    wait_for is_gone || return 1
    status=0
    wait "$server" || status=$?
    server=
    echo "status $status" >> "$work/out"
    [ "$status" = "$1" ]
}
is_gone() { ! kill -0 "$server"; }

install -m 755 "$work/init" "$root/init"
serves() { begin /init -- && get /kit && grep -q NotFound "$work/out"; }
try 'a server begins behind an init, and answers at its socket' serves
is_user() {
    child=$(tr -d ' ' < "/proc/$first/task/$first/children")
    grep -e '^Uid' -e '^Gid' -e '^NSpid' -e '^NoNewPrivs' -e '^CapEff' "/proc/$child/status" > "$work/out"
    grep -q '^Uid:.10001.10001' "$work/out" && grep -q '^CapEff:.0*$' "$work/out" && grep -q '^NoNewPrivs:.1' "$work/out" && ! grep -q '^NSpid:.*[^0-9]1$' "$work/out"
}
try 'it is the user 10001, without capabilities, and not process 1' is_user
commands() { beside --operator user-add ann && beside --operator users && grep -q '"ann":0' "$work/out"; }
try 'commands beside it are answered, as by docker exec' commands
logs() { wait_for grep -q 'GET /kit 404' "$work/said" && cp "$work/said" "$work/out" && grep -q ' operator command /user-add/ann 0 ' "$work/said"; }
try 'its log goes to what docker logs keeps' logs
by_signal() { kill -TERM "$first" && ends_with 143; }
try 'SIGTERM to the init, as docker stop sends it, ends it' by_signal
by_command() { begin /init -- && beside --operator users && grep -q '"ann":0' "$work/out" && beside stop && ends_with 0; }
try 'the next one has what was answered, and the command stop ends it with status 0' by_command
without_init() {
    begin && kill -TERM "$first" && sleep 2 && get /kit && grep -q NotFound "$work/out" && beside stop && ends_with 0
}
try 'without an init it is process 1 and ignores SIGTERM; the command stop ends it' without_init

echo "$passed passed, $failed failed"
[ "$failed" -eq 0 ]
