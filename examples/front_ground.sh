# shellcheck shell=sh disable=SC2154
# What examples/front.sh and examples/fronts.sh share, which read this file: what they need, tries, npm and
# yarn as users, packages, and nginx with the files of examples/front between ports of loopback.
#
# It reads $name, the script's own, and $1, the program. What is placed reads more: the address $host where
# nginx listens, the $parts of examples/front that are copied beside registry.conf, whose certificates it
# trusts elsewhere ($authority), and the ports $public and $stub of a public registry and its name server.

top=$(cd "$(dirname "$0")/.." && pwd)
program=$(realpath "${1:-$top/out/registry}")
PATH=$PATH:/usr/sbin:/sbin
[ -x "$program" ] || { echo "$name: there is no program $program: make build proves and builds it" >&2; exit 2; }
for tool in nginx npm node openssl curl tar; do
    command -v $tool > /dev/null || { echo "$name: $tool is needed, and isn't there (Debian: apt-get install nginx npm openssl curl)" >&2; exit 2; }
done

# nginx's module that public packages need.
needs_headers_more() {
    [ -e "$headers_more" ] || { echo "$name: $headers_more is needed, and isn't there (Debian: apt-get install libnginx-mod-http-headers-more-filter)" >&2; exit 2; }
}
headers_more=$(nginx -V 2>&1 | tr ' ' '\n' | sed -n 's|^--modules-path=||p')/ngx_http_headers_more_filter_module.so

work=$(mktemp -d)
server=
fronts=
stand_ins=
finish() {
    for process in $fronts $stand_ins $server; do kill "$process" 2>/dev/null || true; done
    wait 2>/dev/null || true
    rm -rf "$work"
}
trap finish EXIT
trap 'exit 130' INT
trap 'exit 143' TERM

passed=0
failed=0
say() { printf '%s\n' "$*"; }
give_up() { say "$name: $*" >&2; exit 1; }

# A try: what it shows, and a function that ends with status 0 where it comes out so.
try() {
    title=$1
    shift
    : > "$work/out"
    if "$@"; then
        passed=$((passed + 1))
        say "ok: $title"
    else
        failed=$((failed + 1))
        say "FAILED: $title"
        tail -n 15 "$work/out" | LC_ALL=C tr -cd '\t\n -~' | cut -c 1-1000 | sed 's/^/    /'
    fi
}

# npm and yarn as a user, in a folder. What is printed is kept.
as() {
    user=$1
    folder=$2
    shift 2
    (cd "$folder" && env HOME="$work/$user" npm_config_userconfig="$work/$user/.npmrc" npm_config_cache="$work/$user/npm" \
        NODE_EXTRA_CA_CERTS="$work/cert.pem" npm_config_update_notifier=false "$@") > "$work/out" 2>&1
}
ask() { curl -sS --cacert "$work/cert.pem" -H 'expect:' "$@"; }
with_token() { ask -H 'authorization: Bearer npm_bob_000000001' "$@"; }
status_of() { with_token -o "$work/out" -w '%{http_code}' "$@"; }
value_of() { node -p "JSON.parse(require('fs').readFileSync(0)).$1"; }

# A package's folder: name, version, and more members of its manifest.
package() {
    mkdir -p "$work/$1"
    printf '{"name":"%s","version":"%s","main":"index.js"%s}\n' "$1" "$2" "${3:-}" > "$work/$1/package.json"
    printf 'module.exports = "%s %s";\n' "$1" "$2" > "$work/$1/index.js"
}
project() {
    rm -rf "$work/projects/$1"
    mkdir -p "$work/projects/$1"
    echo '{"name":"project","version":"1.0.0","license":"MIT"}' > "$work/projects/$1/package.json"
}
required() { (cd "$1" && node -p "require('$2')"); }
has() { grep -q -- "$1" "$work/out"; }
wait_for() {
    for _ in $(seq 1 1200); do
        if "$@" > /dev/null 2>&1; then return 0; fi
        sleep 0.1
    done
    return 1
}

# Ports of loopback that were free a moment ago.
ports=$(node -e '
const servers = [...Array(10)].map(() => require("net").createServer().listen(0, "127.0.0.1"));
setTimeout(() => { console.log(servers.map((one) => one.address().port).join(" ")); servers.forEach((one) => one.close()); }, 100)')
nth_port() { echo "$ports" | cut -d ' ' -f "$1"; }

# ---- a registry

"$program" --db "$work/registry.db" init > /dev/null
registry() { "$program" --db "$work/registry.db" --existing "$@" > "$work/out" 2>&1 || give_up "$* ended with $(cat "$work/out")"; }
# Users with a token each, who ask the address.
join() {
    for user in "$@"; do
        registry --operator user-add "$user"
        registry --operator token-add "$user" "npm_${user}_000000001"
        mkdir "$work/$user"
        printf 'registry=%s/\n//localhost:%s/:_authToken=npm_%s_000000001\ncafile=%s\n' \
            "$address" "$secure" "$user" "$work/cert.pem" > "$work/$user/.npmrc"
    done
}
serve() {
    : > "$work/server"
    "$program" --db "$work/registry.db" --existing serve --socket "$work/http.sock" "$@" > "$work/server" 2>&1 &
    server=$!
    wait_for grep -q listening "$work/server" || give_up "the registry does not listen: $(cat "$work/server")"
}

# ---- the front, with the ports, the name and the certificate of this try

certificate() {
    openssl req -x509 -newkey ec -pkeyopt ec_paramgen_curve:prime256v1 -nodes -days 1 -subj "/CN=$1" -addext "subjectAltName=DNS:$1" \
        -keyout "$work/$2key.pem" -out "$work/$2cert.pem" 2> "$work/out" || give_up "openssl: $(cat "$work/out")"
}

# A file of examples/front for a front in a folder, between a registry's address and two ports of its own.
placed() {
    sed -e "s|unix:/run/registry/http\.sock|$3|" \
        -e "s|listen 80;|listen $host:$4;|" -e "s|listen 443 ssl;|listen $host:$5 ssl;|" -e '/listen \[::\]/d' \
        -e "s|/etc/ssl/registry\.example/fullchain\.pem|$work/cert.pem|" -e "s|/etc/ssl/registry\.example/privkey\.pem|$work/key.pem|" \
        -e 's|_name registry\.example|_name localhost|' -e "s|registry\.example|localhost:$5|" \
        -e "s|/etc/nginx/registry-|$2/|" -e "s|/var/log/nginx/|$2/|" \
        -e "s|registry\.npmjs\.org|public.example:$public|" -e "s|resolver 127\.0\.0\.53|resolver 127.0.0.1:$stub|" \
        -e "s|/etc/ssl/certs/ca-certificates\.crt|$authority|" -e "s|/var/cache/registry-public|$2/kept|" "$top/examples/front/$1"
}
# The whole configuration in a folder, with the number of connections of docs/OPERATIONS.md.
configure() {
    mkdir -p "$1"
    placed registry.conf "$@" > "$1/registry.conf"
    for part in $parts; do placed "$part.conf" "$@" > "$1/$part"; done
    {
        if [ "$(id -u)" -eq 0 ]; then echo "user $(id -un) $(id -gn);"; fi
        cat << TEXT
$([ ! -e "$headers_more" ] || echo "load_module $headers_more;")
daemon off;
worker_processes 1;
worker_rlimit_nofile 20000;
pid $1/pid;
error_log $1/error.log warn;
events { worker_connections 16384; }
http {
    access_log $1/access.log;
    client_body_temp_path $1/body;
    proxy_temp_path $1/proxy;
    fastcgi_temp_path $1/fastcgi;
    uwsgi_temp_path $1/uwsgi;
    scgi_temp_path $1/scgi;
    include $1/registry.conf;
}
TEXT
    } > "$1/nginx.conf"
}
is_sound() { nginx -q -t -e "$1/error.log" -p "$1" -c "$1/nginx.conf" 2> "$work/out" || give_up "nginx: $(cat "$work/out")"; }
begin_front() {
    is_sound "$1"
    nginx -e "$1/error.log" -p "$1" -c "$1/nginx.conf" 2> "$work/out" &
    fronts="$fronts $!"
}

# ---- classic yarn

yarn=
for it in yarn yarnpkg; do
    if [ -z "$yarn" ] && [ "$($it --version 2>/dev/null | cut -d. -f1)" = 1 ]; then yarn=$it; fi
done
