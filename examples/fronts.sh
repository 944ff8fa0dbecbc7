#!/bin/sh
# A further front, examples/front/further.conf, which keeps packuments and archives and asks the registry
# before each use: nobody is answered by it what the registry wouldn't have answered at that moment.
#
#     examples/fronts.sh [PROGRAM]
#
# PROGRAM is out/registry where it is left out; it is served with --npm. The first front is at 127.0.0.1,
# and the further one, which asks it over TLS, at 127.0.0.2, with the same name and port. Users with
# different rights read at both, and rights, tokens, packages and versions change between two reads: each
# answer of the further front is compared with that of the first one, and the registry's log of requests
# shows what was asked for and with which status. All listens on loopback, and all that is made lies in a
# folder of its own, which is removed. Each try prints a line, and the last line is `N passed, 0 failed`,
# with status 0, or the status is 1.
#
# Nothing is installed. It needs nginx, npm, node, openssl, curl and tar (Debian: apt-get install
# nginx npm openssl curl), and tries classic yarn where the path has yarn 1.x or yarnpkg (Debian:
# apt-get install yarnpkg). nginx need not run as root, nor be set up.
set -eu

name=fronts.sh
# shellcheck source=examples/front_ground.sh
. "$(dirname "$0")/front_ground.sh"

# ---- a registry, and two fronts

plain=$(nth_port 1)
secure=$(nth_port 2)
inner=$(nth_port 3)
public=$(nth_port 4)
stub=$(nth_port 5)
address=https://localhost:$secure

join ann bob cal eve
registry --operator org-create lab ann
for user in bob cal; do registry --as ann org-set lab $user; done
registry --as ann team-rm lab developers cal
registry --as ann team-create lab readers
registry --as ann team-add lab readers cal
serve --npm --log "$work/requests.log"

certificate localhost ''
authority=$work/cert.pem
parts=
host=127.0.0.1
configure "$work/first" "unix:$work/http.sock" "$plain" "$secure"
echo 'set_real_ip_from 127.0.0.2;' > "$work/first/other-fronts"
begin_front "$work/first"
first=$!
parts='further first-front'
host=127.0.0.2
configure "$work/further" "127.0.0.1:$inner" "$plain" "$secure"
sed -i -e "s|listen 127\.0\.0\.1:8080|listen 127.0.0.1:$inner|" -e "s|server 192\.0\.2\.1:443|server 127.0.0.1:$secure|" \
    -e "s|/var/cache/registry-front|$work/kept|" -e 's|proxy_next_upstream off;|& proxy_bind 127.0.0.2;|' "$work/further/first-front"
begin_front "$work/further"
further=$!

# What is asked at the further front: by curl, and by node, which finds the name there.
at_further() { ask --connect-to "localhost:$secure:127.0.0.2:$secure" "$@"; }
cat > "$work/names.js" << 'TEXT'
const dns = require("dns");
const lookup = dns.lookup;
dns.lookup = (name, ...more) => lookup(name === "localhost" ? "127.0.0.2" : name, ...more);
TEXT
through() {
    reader=$1
    place=$2
    shift 2
    as "$reader" "$place" env NODE_OPTIONS="--require $work/names.js" "$@"
}
for front in ask at_further; do
    wait_for $front "$address/-/ping" || give_up "nginx does not answer: $(cat "$work"/*/error.log "$work/out")"
done
say "the program is $program; $(nginx -v 2>&1), npm $(npm --version), node $(node --version)"

# ---- what is compared

# What a user, or nobody, is answered: the status, the fields that are the registry's, and the body.
answer_of() {
    front=$1
    user=$2
    shift 2
    token=
    [ "$user" = nobody ] || token="authorization: Bearer npm_${user}_000000001"
    "$front" -H "$token" -D "$work/head" "$@" -o "$work/body" || return 1
    tr -d '\r' < "$work/head" | sed 's|^[A-Za-z-]*:|\L&|' | grep -e '^HTTP/' -e '^content-type:' -e '^etag:' -e '^cache-control:' -e '^www-authenticate:' -e '^allow:'
    [ ! -e "$work/body" ] || cat "$work/body"
    rm -f "$work/body"
}
status_at() {
    front=$1
    user=$2
    shift 2
    answer_of "$front" "$user" "$@" > "$work/out"
    sed -n 's|^HTTP/[0-9.]* \([0-9]*\).*|\1|p' "$work/out"
}
tag_of() { sed -n 's|^etag: *||p' "$work/out"; }
# Asks both fronts for each line of standard input, `USER METHOD TARGET`, perhaps with a field. All that
# is the registry's has to be the same; but 304 of the first front has the registry's own tag, and that of
# the further one the tag that the first one weakened.
cat > "$work/same.js" << 'TEXT'
const [port, work] = process.argv.slice(2);
const https = require("https");
const fs = require("fs");
const fronts = ["127.0.0.1", "127.0.0.2"].map((host) => {
    const agent = new https.Agent({ keepAlive: true, maxSockets: 1, ca: fs.readFileSync(`${work}/cert.pem`), servername: "localhost" });
    return { host, port, agent };
});
const ask = (front, user, method, path, field) => new Promise((done, failed) => {
    const headers = { host: `localhost:${port}` };
    if (user !== "nobody") headers.authorization = `Bearer npm_${user}_000000001`;
    const [, name, value] = /^([^:]*): (.*)$/.exec(field) ?? [];
    if (name) headers[name] = value;
    https.request({ ...front, method, path, headers }, (answer) => {
        const pieces = [];
        answer.on("data", (piece) => pieces.push(piece)).on("end", () => {
            const fields = ["content-type", "etag", "cache-control", "www-authenticate", "allow"].map((it) => answer.headers[it]?.replace(/^W\//, ""));
            done(`${answer.statusCode} ${fields.join(" ")}\n${Buffer.concat(pieces).toString("latin1")}`);
        });
    }).on("error", failed).end();
});
(async () => {
    const lines = fs.readFileSync(0, "utf8").trim().split("\n");
    for (const line of lines) {
        const [user, method, path, ...field] = line.split(" ");
        for (const front of fronts) front.came = await ask(front, user, method, path, field.join(" "));
        if (fronts[0].came !== fronts[1].came) throw new Error([line, ...fronts.map((front) => front.came.slice(0, 400))].join("\n"));
    }
    console.log(lines.length, "answers are the same");
    for (const front of fronts) front.agent.destroy();
})().catch((error) => { console.error(error.message); process.exit(1); });
TEXT
same() { node "$work/same.js" "$secure" "$work" > "$work/out" 2>&1; }
same_for() { echo "$1 GET $2" | same; }
targets='/@lab%2fkit /@lab/kit /@lab%2fopen /tool /@lab%2fnone /@lab%2fkit/1.0.0 /tool/latest
    /@lab/kit/-/@lab/kit-1.0.0.tgz /@lab%2fkit/-/kit-1.1.0.tgz /@lab/open/-/@lab/open-1.0.0.tgz /tool/-/tool-1.0.0.tgz /tool/-/tool-9.0.0.tgz
    /-/whoami /-/package/@lab%2fkit/dist-tags /-/org/lab /@lab%2fkit?write=true /-/from/old.example/@lab/kit/-/@lab/kit-1.0.0.tgz'
all_the_same() {
    for reader in ann bob cal eve nobody; do for target in $targets; do echo "$reader GET $target"; done; done | same
}

# What the registry was asked since a mark, `USER METHOD TARGET STATUS` of each request. A line may come
# after its answer; the mark is a request whose line comes after those of all that was answered before.
marks=0
mark() {
    marks=$((marks + 1))
    curl -sS --unix-socket "$work/http.sock" -o "$work/out" "http://localhost/-/mark-$marks" && wait_for grep -q " /-/mark-$marks " "$work/requests.log"
}
since() { sed "1,/ \/-\/mark-$marks /d" "$work/requests.log" | cut -d ' ' -f 2-5 | grep -v ' command '; }
has_come() { [ "$(since | wc -l)" -ge "$1" ]; }
asked() {
    wait_for has_come "$1" || true
    since > "$work/asked" || true
    cat "$work/asked" >> "$work/out"
    [ "$(wc -l < "$work/asked")" = "$1" ]
}
# A read of a target at the further front, by a user: its status, and that which the registry had for it.
reads() {
    mark
    [ "$(status_at at_further "$1" "$address$2")" = "$3" ] && asked 1 && grep -q " $4\$" "$work/asked"
}

# ---- packages, which npm publishes through the further front

publishes() {
    package @lab/kit 1.0.0 && through bob "$work/@lab/kit" npm publish &&
        package @lab/kit 1.1.0 ',"dependencies":{"tool":"*","@lab/open":"*"}' && through bob "$work/@lab/kit" npm publish &&
        package @lab/open 1.0.0 && through bob "$work/@lab/open" npm publish &&
        package tool 1.0.0 ",\"keywords\":[\"$(printf 'word %.0s' $(seq 1 500))\"]" && through bob "$work/tool" npm publish &&
        through ann "$work" npm access set status=public @lab/open && through ann "$work" npm access grant read-only lab:readers @lab/kit
}
try 'npm publishes, makes public and grants through the further front' publishes

# A version more, by a command beside the server.
more() {
    printf '{"name":"%s","versions":{"%s":{"name":"%s","version":"%s"}},"_attachments":{"a.tgz":{"data":"YWJj"}}}' "$1" "$2" "$1" "$2" > "$work/body.json"
    registry --as bob publish "$work/body.json"
}

# ---- tags, through the first front

rev_of() { sed -n 's|^{"_rev":"\([^"]*\)".*|\1|p' "$work/out"; }
passes_tags() {
    [ "$(status_at ask bob "$address/@lab%2fkit")" = 200 ] && [ -n "$(rev_of)" ] && [ "$(tag_of)" = "W/\"$(rev_of)\"" ] && has '^cache-control: no-cache' || return 1
    rev=$(rev_of)
    for field in "\"$rev\"" "W/\"$rev\"" "\"a,b\", W/\"$rev\"" '*'; do
        [ "$(status_at ask bob -H "if-none-match: $field" "$address/@lab%2fkit")" = 304 ] && ! has '_rev' || { say "$field" >> "$work/out"; return 1; }
    done
    [ "$(status_at ask bob -H 'if-none-match: "old"' "$address/@lab%2fkit")" = 200 ]
}
try 'the first front passes the tag of a packument on, as a weak one, and 304 where a client names it' passes_tags
passes_archives() {
    [ "$(status_at ask bob "$address/@lab/kit/-/@lab/kit-1.0.0.tgz")" = 200 ] && tag_of | grep -q '^"' && has '^cache-control: private, .*immutable' || return 1
    tag=$(tag_of)
    [ "$(status_at ask bob -H "if-none-match: $tag" "$address/@lab/kit/-/@lab/kit-1.0.0.tgz")" = 304 ] &&
        [ "$(status_at ask nobody "$address/tool/-/tool-1.0.0.tgz")" = 200 ] && has '^cache-control: public, .*immutable'
}
try 'and that of an archive as it is, which is private to a caller and public to nobody' passes_archives
compresses() {
    for front in ask at_further; do
        $front -D "$work/head" -H 'accept-encoding: gzip' "$address/tool" | gzip -dc > "$work/tool.json"
        tr 'A-Z\r' 'a-z ' < "$work/head" > "$work/out"
        has '^content-encoding: gzip' && has "^etag: w/\"$(value_of _rev < "$work/tool.json")\"" || return 1
    done
}
try 'JSON is compressed and has its tag, at both fronts' compresses

# What yarn and pnpm send where they install, and npm in `outdated`.
installs='accept: application/vnd.npm.install-v1+json; q=1.0, application/json; q=0.8, */*'
short_documents() {
    for front in ask at_further; do
        [ "$(status_at $front bob -H "$installs" "$address/@lab%2fkit")" = 200 ] && has '^content-type: application/vnd.npm.install-v1+json' &&
            has '"tarball":"https://localhost' && ! has '_rev' && grep -qi '^vary:.*accept' "$work/head" || return 1
        short=$(tag_of)
        [ "$(status_at $front bob "$address/@lab%2fkit")" = 200 ] && has '^content-type: application/json' && has '_rev' && [ "$(tag_of)" != "$short" ] &&
            [ "$(status_at $front bob -H "$installs" -H "if-none-match: $short" "$address/@lab%2fkit")" = 304 ] &&
            [ "$(status_at $front bob -H "if-none-match: $short" "$address/@lab%2fkit")" = 200 ] &&
            [ "$(status_at $front eve -H "$installs" -H "if-none-match: $short" "$address/@lab%2fkit")" = 404 ] || return 1
    done
}
try 'a short document passes both fronts with a tag of its own, and its archives are at the front' short_documents
keeps_both() {
    for _ in 1 2; do
        for field in "$installs" 'accept: application/json'; do
            mark
            [ "$(status_at at_further bob -H "$field" "$address/@lab%2fkit")" = 200 ] && asked 1 && grep -q ' 304$' "$work/asked" || return 1
        done
    done
}
try 'the further front keeps both, and asks before each use' keeps_both

# ---- who is answered what

try 'five readers are answered at the further front as at the first one, byte for byte' all_the_same
try 'and once more, when it has kept what it may keep' all_the_same

asks_each_time() {
    for target in /@lab%2fkit /@lab/kit/-/@lab/kit-1.0.0.tgz /@lab%2fkit/-/kit-1.1.0.tgz /-/from/old.example/@lab/kit/-/@lab/kit-1.0.0.tgz; do
        reads bob $target 200 304 && reads ann $target 200 304 && reads cal $target 200 304 && reads eve $target 404 404 && reads nobody $target 404 404 &&
            reads bob $target 200 304 || { say "$target" >> "$work/out"; return 1; }
    done
    for target in /tool /tool/-/tool-1.0.0.tgz /@lab%2fopen; do
        reads nobody $target 200 304 && reads eve $target 200 304 || { say "$target" >> "$work/out"; return 1; }
    done
}
try 'each read is asked for with the reader'"'"'s own token: 304 to the registry'"'"'s log, and 404 for who may not read' asks_each_time
keeps_once() {
    for field in 'accept-encoding: gzip' 'accept-encoding: gzip, deflate, br' 'user-agent: another'; do
        mark
        [ "$(at_further -H "$field" -o /dev/null -w '%{http_code}' "$address/tool")" = 200 ] && asked 1 && grep -q ' 304$' "$work/asked" || return 1
    done
}
try 'compressed or not, it is kept once' keeps_once
keeps_no_others() {
    for target in /@lab%2fkit/1.0.0 /-/package/@lab%2fkit/dist-tags '/@lab%2fkit?write=true' /-/whoami; do
        reads bob "$target" 200 200 && reads bob "$target" 200 200 || { say "$target" >> "$work/out"; return 1; }
    done
}
try 'what has no tag, or a query, is not kept' keeps_no_others
is_private() { [ -z "$(find "$work/kept" -perm /077 -print -quit)" ] && [ -n "$(find "$work/kept" -type f -print -quit)" ]; }
try 'nobody else may read the folder in which it is kept' is_private

# ---- what changes between two reads

revokes() {
    reads cal /@lab%2fkit 200 304 && registry --as ann revoke lab readers @lab/kit && reads cal /@lab%2fkit 404 404 && reads cal /@lab/kit/-/@lab/kit-1.0.0.tgz 404 404 &&
        reads bob /@lab%2fkit 200 304 && reads bob /@lab/kit/-/@lab/kit-1.0.0.tgz 200 304 && all_the_same &&
        registry --as ann grant lab readers @lab/kit read-only && reads cal /@lab%2fkit 200 304 && reads cal /@lab/kit/-/@lab/kit-1.0.0.tgz 200 304
}
try 'a grant that is revoked: 404 from the next read on, and the kept answer stays for others' revokes
ends_tokens() {
    registry --operator token-add cal npm_old_000000001
    reads old /@lab%2fkit 200 304 && registry --operator tokens-rm cal && reads old /@lab%2fkit 401 401 && has '^www-authenticate: Bearer' &&
        reads cal /@lab/kit/-/@lab/kit-1.0.0.tgz 401 401 && all_the_same && registry --operator token-add cal npm_cal_000000001 && reads cal /@lab%2fkit 200 304
}
try 'a token that is ended: 401 from the next read on' ends_tokens
hides() {
    archive=/@lab/open/-/@lab/open-1.0.0.tgz
    reads nobody /@lab%2fopen 200 304 && reads nobody $archive 200 304 && has '^cache-control: public' && registry --as ann access @lab/open restricted || return 1
    for reader in nobody eve cal; do reads $reader /@lab%2fopen 404 404 && reads $reader $archive 404 404 || return 1; done
    reads bob /@lab%2fopen 200 304 && reads bob $archive 200 304 && has '^cache-control: private' && all_the_same &&
        registry --as ann access @lab/open public && reads nobody /@lab%2fopen 200 304 && reads nobody $archive 200 304
}
try 'a package that is hidden: 404 for strangers from the next read on, and private for members' hides
leaves() {
    reads bob /@lab%2fkit 200 304 && registry --as ann org-rm lab bob && reads bob /@lab%2fkit 404 404 && all_the_same &&
        registry --as ann org-set lab bob && reads bob /@lab%2fkit 200 304
}
try 'a member who leaves, and comes back' leaves
changes() {
    more tool 2.0.0
    reads nobody /tool 200 200 && has '"2.0.0"' && reads nobody /tool 200 304 && has '"2.0.0"' && registry --as bob tag-set tool latest 1.0.0 && reads eve /tool 200 200 &&
        registry --as bob deprecate tool 2.x old && reads eve /tool 200 200 && has '"deprecated":"old"' && reads eve /tool 200 304 && has '"deprecated":"old"' && all_the_same
}
try 'a version more, a tag that is set and a deprecation: the next read has the new document' changes
withdraws() {
    archive=/other/-/other-2.0.0.tgz
    more other 1.0.0
    more other 2.0.0
    reads nobody /other 200 200 && reads nobody $archive 200 200 && reads eve $archive 200 200 && reads nobody $archive 200 304 && reads eve $archive 200 304 &&
        registry --as bob withdraw other 2.0.0 && reads nobody $archive 404 404 && reads eve $archive 404 404 && reads bob $archive 404 404 &&
        reads nobody /other 200 200 && ! has '"2.0.0":{' && reads nobody /other 200 304 && same_for bob $archive &&
        registry --as bob withdraw other 1.0.0 && reads nobody /other 404 404 && reads nobody /other/-/other-1.0.0.tgz 404 404 && reads bob /other 404 404
}
try 'a version that is withdrawn: its archive is 404 from the next read on, and the packument lacks it' withdraws

# ---- conditions of clients

conditions() {
    [ "$(status_at at_further bob "$address/@lab%2fkit")" = 200 ] || return 1
    rev=$(rev_of)
    for field in "\"$rev\"" "W/\"$rev\"" "\"a,b\", W/\"$rev\"" '*' '"old"' 'W/"old", "older"' "$rev" ', ,' "\"$rev"; do
        for reader in bob cal eve nobody; do
            for target in /@lab%2fkit /tool /@lab/kit/-/@lab/kit-1.0.0.tgz /@lab%2fnone /@lab%2fkit/1.0.0; do echo "$reader GET $target if-none-match: $field"; done
        done
    done | same || return 1
    [ "$(status_at at_further bob -H "if-none-match: \"$rev\"" "$address/@lab%2fkit")" = 304 ] && [ "$(status_at at_further eve -H "if-none-match: \"$rev\"" "$address/@lab%2fkit")" = 404 ]
}
try 'If-None-Match of a client, which is known, old, a list or *, is answered as by the first front' conditions

# The further front has the old document, and a client the new one: its 304 says nothing of what is kept.
not_its_own() {
    reads nobody /tool 200 304 || return 1
    old=$(rev_of)
    more tool 3.0.0
    [ "$(status_at ask nobody "$address/tool")" = 200 ] && rev=$(rev_of) && [ "$rev" != "$old" ] || return 1
    [ "$(status_at at_further eve -H "if-none-match: \"$rev\"" "$address/tool")" = 304 ] && reads nobody /tool 200 304 && [ "$(rev_of)" = "$rev" ] || return 1
    more tool 4.0.0
    [ "$(status_at at_further eve -H "if-none-match: \"$rev\"" "$address/tool")" = 200 ] && [ "$(rev_of)" != "$rev" ] && has '"4.0.0"' && same_for nobody /tool
}
try 'where the client has the new document and the front the old one, nobody gets the old one' not_its_own
not_kept_yet() {
    more @lab/new 1.0.0
    [ "$(status_at ask bob "$address/@lab%2fnew")" = 200 ] && rev=$(rev_of) && [ "$(status_at at_further bob -H "if-none-match: \"$rev\"" "$address/@lab%2fnew")" = 304 ] &&
        reads bob /@lab%2fnew 200 304 && [ "$(rev_of)" = "$rev" ] && same_for bob /@lab%2fnew
}
try 'nor does a client'"'"'s tag of what was not kept yet change what others get' not_kept_yet
other_fields() {
    for reader in bob eve nobody; do
        for target in /@lab%2fkit /tool /@lab/kit/-/@lab/kit-1.0.0.tgz /tool/-/tool-1.0.0.tgz; do
            for field in 'range: bytes=0-9' 'if-range: "x"' 'if-match: "x"' 'if-match: *' 'if-unmodified-since: Mon, 01 Jan 2024 00:00:00 GMT' \
                'if-modified-since: Mon, 01 Jan 2024 00:00:00 GMT' 'accept: application/vnd.npm.install-v1+json' 'cookie: a=b' 'cache-control: only-if-cached' \
                'cache-control: no-store' 'pragma: no-cache' 'x-accel-expires: 1000' 'x-http-method-override: HEAD' 'host: evil.example'; do
                echo "$reader GET $target $field"
            done
            echo "$reader HEAD $target"
        done
    done > "$work/lines"
    printf 'bob %s /tool\n' OPTIONS POST PATCH DELETE >> "$work/lines"
    same < "$work/lines"
}
try 'so it is with ranges, other conditions and methods, and fields that speak to caches' other_fields

# An archive of 2 MB, which doesn't fit into nginx's buffers.
keeps_large() {
    node -e '
const bytes = require("crypto").randomBytes(2000000).toString("base64");
process.stdout.write(JSON.stringify({ name: "large", versions: { "1.0.0": { name: "large", version: "1.0.0" } }, _attachments: { "a.tgz": { data: bytes } } }))' > "$work/body.json"
    registry --as bob publish "$work/body.json"
    reads bob /large/-/large-1.0.0.tgz 200 200 && reads bob /large/-/large-1.0.0.tgz 200 304 && same_for bob /large/-/large-1.0.0.tgz
}
try 'an archive of 2 MB is kept, and sent whole' keeps_large

# ---- several at once

# Readers on connections of their own, while a package gets versions: each answer has the tag of its
# document, a member is never refused, and a stranger always.
cat > "$work/at_once.js" << 'TEXT'
const [port, count] = process.argv.slice(2).map(Number);
const https = require("https");
const statuses = {};
const read = async (user) => {
    const agent = new https.Agent({ keepAlive: true, maxSockets: 1, rejectUnauthorized: false });
    const headers = user === "nobody" ? {} : { authorization: `Bearer npm_${user}_000000001` };
    for (let number = 0; number < count; number += 1) {
        await new Promise((done, failed) => https.get({ host: "127.0.0.2", port, agent, path: "/@lab%2fnew", headers }, (answer) => {
            let text = "";
            answer.on("data", (piece) => { text += piece; }).on("end", () => {
                statuses[`${user} ${answer.statusCode}`] = (statuses[`${user} ${answer.statusCode}`] ?? 0) + 1;
                if (answer.statusCode === 200 && answer.headers.etag !== `W/"${JSON.parse(text)._rev}"`) failed(new Error(`${answer.headers.etag} ${text}`));
                else if (answer.statusCode !== 200 && text !== '{"error":"NotFound"}') failed(new Error(text));
                else done();
            });
        }).on("error", failed));
    }
    agent.destroy();
};
Promise.all(["ann", "bob", "eve", "nobody"].map(read)).then(() => console.log(Object.keys(statuses).sort().join(", ")))
    .catch((error) => { console.error(error.message); process.exit(1); });
TEXT
at_once() {
    node "$work/at_once.js" "$secure" 60 > "$work/statuses" 2>&1 &
    readers=$!
    stand_ins="$stand_ins $readers"
    for number in $(seq 1 8); do more @lab/new "1.1.$number"; done
    wait "$readers" || true
    cp "$work/statuses" "$work/out"
    [ "$(cat "$work/out")" = 'ann 200, bob 200, eve 404, nobody 404' ] && same_for bob /@lab%2fnew
}
try 'four readers at once, of whom two may read, while the package gets eight versions' at_once

# ---- whose requests the first front sees

has_lines() { [ "$(grep -c . "$work/first/registry.log")" -ge "$1" ]; }
names_clients() {
    lines_before=$(grep -c . "$work/first/registry.log")
    at_further --interface 127.0.0.3 -o /dev/null "$address/tool/1.0.0" && at_further --interface 127.0.0.4 -H 'x-real-ip: 192.0.2.99' -o /dev/null "$address/tool/1.0.0" &&
        ask --interface 127.0.0.3 -H 'x-real-ip: 192.0.2.99' -o /dev/null "$address/tool/1.0.0" || return 1
    wait_for has_lines $((lines_before + 3))
    tail -n +$((lines_before + 1)) "$work/first/registry.log" | cut -d ' ' -f 1 > "$work/out"
    [ "$(tr '\n' ' ' < "$work/out")" = '127.0.0.3 127.0.0.4 127.0.0.3 ' ]
}
try 'the first front knows the address of a client of the further one, and nobody can make one up' names_clients

# ---- npm and yarn

# Stops the further front, and begins it again.
ends() { kill -QUIT "$further" && wait "$further"; }
begins() {
    begin_front "$work/further"
    further=$!
    wait_for at_further "$address/-/ping"
}
# cal installs @lab/kit and what it needs. All that the registry was asked for meanwhile had this status.
installs() {
    status=$1
    count=$2
    shift 2
    project npm
    mark
    through cal "$work/projects/npm" "$@" && [ "$(required "$work/projects/npm" @lab/kit)" = '@lab/kit 1.1.0' ] && [ "$(required "$work/projects/npm" tool)" = 'tool 1.0.0' ] || return 1
    asked "$count" && cp "$work/asked" "$work/out" && [ "$(cut -d ' ' -f 4 "$work/out" | sort -u)" = "$status" ]
}
npm_installs() { installs "$1" "$2" npm install --no-audit --no-fund @lab/kit; }
npm_cold() {
    ends && rm -rf "$work/kept" "$work/cal/npm" && begins || return 1
    registry --as bob tag-set tool latest 1.0.0
    npm_installs 200 6
}
try 'npm installs a package and two that it needs through a further front that is empty: six answers' npm_cold
npm_warm() { rm -rf "$work/cal/npm" && npm_installs 304 6; }
try 'npm with an empty cache, where the front has them: the registry sends six times 304' npm_warm
npm_knows() { npm_installs 304 3; }
try 'npm that has the archives: it asks for three packuments, and gets 304' npm_knows
npm_is_told() {
    more tool 5.0.0
    registry --as bob tag-set tool latest 1.0.0
    project npm
    mark
    through cal "$work/projects/npm" npm install --no-audit --no-fund @lab/kit && asked 3 && cut -d ' ' -f 3,4 "$work/asked" | sort > "$work/out" &&
        [ "$(cat "$work/out")" = "$(printf '/@lab%%2fkit 304\n/@lab%%2fopen 304\n/tool 200')" ]
}
try 'after a publish it gets the one packument that changed' npm_is_told
yarn_installs() { rm -rf "$work/cal/yarn" && installs "$1" 6 $yarn add --non-interactive --cache-folder "$work/cal/yarn" @lab/kit; }
yarn_cold() { ends && rm -rf "$work/kept" && begins && yarn_installs 200; }
yarn_warm() { yarn_installs 304; }

# The registry's log has the length of each answer: of a whole packument, and of what a client asks for.
shorter() {
    mark
    from=$marks
    [ "$(status_at ask bob "$address/@lab%2fkit")" = 200 ] || return 1
    "$@"
    mark
    sed "1,/ \/-\/mark-$from /d" "$work/requests.log" | grep ' GET /@lab%2fkit 200 ' | cut -d ' ' -f 6 > "$work/out"
    [ "$(wc -l < "$work/out")" = 2 ] && [ "$(tail -n 1 "$work/out")" -lt "$(head -n 1 "$work/out")" ]
}
npm_outdated() { as cal "$work/projects/npm" npm outdated || true; }
try 'npm outdated asks for short documents, which are shorter' shorter npm_outdated
yarn_again() {
    ends && rm -rf "$work/kept" "$work/cal/yarn" && begins && project npm &&
        through cal "$work/projects/npm" $yarn add --non-interactive --cache-folder "$work/cal/yarn" @lab/kit
}
if [ -n "$yarn" ]; then
    try "yarn $($yarn --version) installs them through an empty one" yarn_cold
    try 'and where the front has them' yarn_warm
    try 'it asks for short documents' shorter yarn_again
else
    say 'skipped: yarn, which is not there (yarn 1.x, or yarnpkg of Debian)'
fi

# ---- the registry, and a front, away

begins_again() {
    for target in /@lab%2fkit /@lab/kit/-/@lab/kit-1.1.0.tgz; do [ "$(status_at at_further bob "$address$target")" = 200 ] || return 1; done
    ends && begins && reads bob /@lab%2fkit 200 304 && reads eve /@lab%2fkit 404 404 && reads bob /@lab/kit/-/@lab/kit-1.1.0.tgz 200 304
}
try 'a further front that ends and begins again has what it had, and asks' begins_again
is_away() {
    for target in /@lab%2fkit /@lab/kit/-/@lab/kit-1.1.0.tgz /tool /-/ping; do
        for reader in bob nobody; do [ "$(status_at at_further $reader "$address$target")" = 502 ] && ! has '_rev' || { say "$reader $target" >> "$work/out"; return 1; }; done
    done
}
registry_away() { registry stop && wait "$server" && is_away && serve --npm --log "$work/requests.log" && reads bob /@lab%2fkit 200 304; }
try 'where the registry is away all is 502, and nothing comes from what is kept' registry_away
front_away() {
    kill -QUIT "$first" && wait "$first" && is_away || return 1
    begin_front "$work/first"
    first=$!
    wait_for ask "$address/-/ping" && reads bob /@lab%2fkit 200 304
}
try 'so it is where the first front is away' front_away
not_another() {
    certificate localhost other-
    sed -i "s|proxy_ssl_trusted_certificate .*;|proxy_ssl_trusted_certificate $work/other-cert.pem;|" "$work/further/first-front" && ends && begins
    is_away && sed -i "s|other-cert|cert|" "$work/further/first-front" && ends && begins && reads bob /@lab%2fkit 200 304
}
try 'it takes no answer of a server without the certificate of the first front' not_another

# A first front that ends its connection amid an answer, once it sent half of it.
cat > "$work/cut.js" << 'TEXT'
const [port, work] = process.argv.slice(2);
const fs = require("fs");
const options = { key: fs.readFileSync(`${work}/key.pem`), cert: fs.readFileSync(`${work}/cert.pem`) };
require("https").createServer(options, (request, response) => {
    fs.appendFileSync(`${work}/cut.log`, `${request.url} ${request.headers["if-none-match"]}\n`);
    const half = "x".repeat(50000);
    response.writeHead(200, { "content-type": "application/octet-stream", etag: '"tag"', ...(request.url.includes("counted") ? { "content-length": 100000 } : {}) });
    response.write(half, () => request.url.includes("whole") ? response.end(half) : setTimeout(() => response.destroy(), 100));
}).listen(Number(port), "127.0.0.1");
TEXT
keeps_whole() {
    node "$work/cut.js" "$stub" "$work" > "$work/out" 2>&1 &
    stand_ins="$stand_ins $!"
    sed -i "s|server 127\.0\.0\.1:$secure|server 127.0.0.1:$stub|" "$work/further/first-front" && ends && begin_front "$work/further"
    further=$!
    wait_for at_further --fail -o /dev/null "$address/whole" || return 1
    : > "$work/cut.log"
    for name in cut counted-cut whole counted-whole; do
        for _ in 1 2; do at_further -o "$work/body" "$address/$name" > "$work/out" 2>&1 || true; done
    done
    cp "$work/cut.log" "$work/out"
    sed -i "s|server 127\.0\.0\.1:$stub|server 127.0.0.1:$secure|" "$work/further/first-front" && ends && begins
    [ "$(tr '\n' ' ' < "$work/cut.log")" = '/cut undefined /cut undefined /counted-cut undefined /counted-cut undefined /whole "tag" /whole "tag" /counted-whole undefined /counted-whole "tag" ' ]
}
try 'half an answer is not kept' keeps_whole
says_so() {
    sed -i '/X-Accel-Expires/d' "$work/further/first-front" && ends && rm -rf "$work/kept" && begins && reads bob /@lab%2fopen 200 200 && reads bob /@lab%2fopen 200 200 && all_the_same
}
try 'without the line that lets answers be kept nothing new is' says_so

say "$passed passed, $failed failed"
[ "$failed" -eq 0 ]
