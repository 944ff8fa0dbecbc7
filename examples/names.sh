#!/bin/sh
# The list of the house's names, as examples/front/house-names makes it, and nginx: names that mean
# something else to nginx, and names with each character that a name may have. `nginx -t` takes the list,
# and each of its names stays inside and may be published.
#
#     examples/names.sh [PROGRAM]
#
# PROGRAM is out/registry where it is left out. All listens on loopback, and all that is made lies in a
# folder of its own, which is removed. Each try prints a line, and the last line is `N passed, 0 failed`,
# with status 0, or the status is 1. It takes a minute. Nothing is installed: it needs sqlite3, and
# what examples/front.sh needs.
set -eu

name=names.sh
# What is placed by front_ground.sh reads more of these.
# shellcheck source=examples/front_ground.sh disable=SC2034,SC2154
. "$(dirname "$0")/front_ground.sh"
needs_headers_more
command -v sqlite3 > /dev/null || { echo "$name: sqlite3 is needed, and isn't there (Debian: apt-get install sqlite3)" >&2; exit 2; }

# ---- names

letters=$(printf '%s\n' a b c d e f g h i j k l m n o p q r s t u v w x y z 0 1 2 3 4 5 6 7 8 9)
# Parameters of nginx's map and of its other blocks, words that begin a directive, and words of a list.
words='default include hostnames volatile ranges delete proxy proxy_recursive if set map on off server location http events
    load_module return break last 1 0 null true false'
packages="$words x-y x_y x.y x. x.. x- x_ 0.0 9-_. tool new rest $(printf 'l%.0s' $(seq 1 214))"
for one in $letters; do packages="$packages $one $one-$one x${one}x"; done
for one in - _ .; do packages="$packages x${one}x x$one 0$one$one"; done
# shellcheck disable=SC2086
packages=$(printf '%s\n' $packages | sort -u)
count=$(echo "$packages" | wc -l)
organisations="default include hostnames volatile 0 a-b_c z- z_ $(printf 'o%.0s' $(seq 1 64))"

# ---- a registry with all of them, and a front that asks a public registry where nobody listens

plain=$(nth_port 1)
secure=$(nth_port 2)
public=$(nth_port 3)
stub=$(nth_port 4)
address=https://localhost:$secure
join bob
for one in $organisations; do registry --operator org-create "$one" bob; done
serve
certificate localhost ''
authority=$work/cert.pem
host=127.0.0.1
parts='public-names public outside'
configure "$work/nginx" "unix:$work/http.sock" "$plain" "$secure"

body_of() { printf '{"name":"%s","versions":{"1.0.0":{"name":"%s","version":"1.0.0"}},"_attachments":{"a.tgz":{"data":"YWJj"}}}' "$1" "$1"; }
publishes() {
    for one in $packages; do
        body_of "$one" > "$work/body.json"
        status=$(curl -sS -H 'expect:' -H 'authorization: Bearer npm_bob_000000001' -o "$work/out" -w '%{http_code}' -X PUT --data-binary "@$work/body.json" \
            --path-as-is --unix-socket "$work/http.sock" "http://localhost/$one")
        [ "$status" = 201 ] || { say "$one $status" >> "$work/out"; return 1; }
    done
}
try "the registry takes $count names, among them words of nginx" publishes

lists() {
    registry backup "$work/copy.db"
    "$top/examples/front/house-names" "$work/copy.db" > "$work/nginx/house" 2> "$work/out" || return 1
    [ "$(wc -l < "$work/nginx/house")" = $((count + $(echo "$organisations" | wc -w))) ]
}
try 'each of them, and each organisation, has a line' lists
nginx_takes() { nginx -q -t -e "$1/error.log" -p "$1" -c "$1/nginx.conf" > "$work/out" 2>&1; }
try 'nginx -t takes the list' nginx_takes "$work/nginx"

is_needed() {
    cp "$work/nginx/house" "$work/house"
    taken=
    for one in default include; do
        { cat "$work/house"; echo "$one 1;"; } | grep -v -x -F "\\\\$one 1;" > "$work/nginx/house"
        if nginx_takes "$work/nginx"; then taken="$taken $one"; fi
    done
    cp "$work/house" "$work/nginx/house"
    echo "taken:$taken" > "$work/out"
    [ -z "$taken" ]
}
try 'without the two backslashes it takes no list with default or include' is_needed

refuses_others() {
    for odd in 'x y' 'x;' 'x"' "x'y" 'x{' 'x$y' 'x\y' 'X' 'x#' '~x' '*.x' ''; do
        rm -f "$work/odd.db"
        sqlite3 "$work/odd.db" 'CREATE TABLE orgs (name); CREATE TABLE packages (name);'
        printf "INSERT INTO packages VALUES ('%s'), ('kit');\n" "$(printf '%s' "$odd" | sed "s/'/''/g")" | sqlite3 "$work/odd.db"
        if "$top/examples/front/house-names" "$work/odd.db" > "$work/out" 2> "$work/errors"; then say "taken: $odd" >> "$work/out"; return 1; fi
        [ ! -s "$work/out" ] && grep -q 'no registry takes' "$work/errors" || return 1
    done
}
try 'a file with any other character in a name makes no list' refuses_others

# ---- what the front does with them

begin_front "$work/nginx"
wait_for with_token --fail "$address/-/ping" || give_up "nginx does not answer: $(cat "$work/nginx/error.log" "$work/out")"
# The statuses of all targets of a kind, in one run of curl.
all_are() {
    wanted=$1
    shift
    for one in $packages; do printf 'url = "%s/%s%s"\noutput = "/dev/null"\n' "$address" "$one" "$suffix"; done > "$work/urls"
    with_token --path-as-is "$@" -w '%{http_code} %{url_effective}\n' -K "$work/urls" > "$work/statuses"
    grep -v "^$wanted " "$work/statuses" > "$work/out" || true
    [ ! -s "$work/out" ] && [ "$(wc -l < "$work/statuses")" = "$count" ]
}
stays_inside() { suffix= && all_are 200 && suffix=/9.9.9 && all_are 404; }
try 'each name is read here, and what it lacks is 404 and not asked outside' stays_inside
may_be_published() { suffix= && all_are 400 -X PUT -d '{}'; }
try 'each may be published' may_be_published
scopes() {
    for one in $organisations; do
        [ "$(status_of "$address/@$one%2fkit")" = 404 ] && [ "$(status_of -X PUT -d '{}' "$address/@$one%2fkit")" = 400 ] || { say "$one" >> "$work/out"; return 1; }
    done
}
try 'so it is with each organisation' scopes
others() {
    for one in defaults includ xx.x @defaul%2fkit; do
        [ "$(status_of "$address/$one")" = 502 ] && [ "$(status_of -X PUT -d '{}' "$address/$one")" = 403 ] || { say "$one" >> "$work/out"; return 1; }
    done
}
try 'another name is asked outside, and may not be published' others

say "$passed passed, $failed failed"
[ "$failed" -eq 0 ]
