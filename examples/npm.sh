#!/bin/sh
# The stock npm client against a registry in a file, from nothing: it publishes and installs, also
# what there was on a day.
#
#     examples/npm.sh [PROGRAM]
#
# PROGRAM is out/registry where it is left out. All that is made lies in a folder of its own, which
# is removed: the registry's file, and for each user a configuration of npm, whose only settings are
# the registry's address and the user's token, and a cache. What is done is printed, and the status
# is 0 where all of it came out as it should. It needs npm, node and tar.
set -eu

top=$(cd "$(dirname "$0")/.." && pwd)
program=$(realpath "${1:-$top/out/registry}")
work=$(mktemp -d)
server=

finish() {
    status=$?
    if [ -n "$server" ]; then kill "$server" 2>/dev/null || true; fi
    if [ "$status" -ne 0 ]; then echo "npm.sh: failed; what was printed last:" >&2; tail -n 20 "$work/out" >&2 || true; fi
    rm -rf "$work"
    exit "$status"
}
trap finish EXIT
trap 'exit 130' INT
trap 'exit 143' TERM

say() { printf '%s\n' "$*"; }
fail() { say "npm.sh: $*" >&2; exit 1; }
registry() { "$program" --db "$work/registry.db" --existing "$@" > "$work/out" 2>&1; }
milliseconds() { node -p 'Date.now()'; }
seconds_of() { node -p "Date.parse('$1') / 1000"; }

# npm as a user, in a folder. What it prints is kept.
as() {
    user=$1
    folder=$2
    shift 2
    (cd "$folder" && HOME=$work npm_config_userconfig=$work/$user.npmrc npm_config_cache=$work/$user.cache \
        npm "$@") > "$work/out" 2> "$work/errors" || { cat "$work/errors" >> "$work/out"; return 1; }
}

# A package's folder: its name, its version, and its dependencies as JSON.
package() {
    mkdir -p "$work/$1"
    printf '{"name":"%s","version":"%s","main":"index.js","dependencies":%s}\n' "$1" "$2" "$3" > "$work/$1/package.json"
    printf 'module.exports = "%s %s";\n' "$1" "$2" > "$work/$1/index.js"
}

# What a project gets where it asks for a package.
required() { (cd "$1" && node -p "require('$2')"); }

# What npm printed last, as JSON without spaces; and a value of it.
printed() { node -p 'JSON.stringify(JSON.parse(require("fs").readFileSync(0)))' < "$work/out"; }
value_at() { node -p 'JSON.parse(require("fs").readFileSync(0))[process.argv[1]]' "$1" < "$work/out"; }

# Waits until the server has printed that it listens.
wait_for_server() {
    for _ in $(seq 1 300); do
        if grep -q listening "$work/server" || ! kill -0 "$server" 2>/dev/null; then break; fi
        sleep 0.1
    done
    grep "^listening 127.0.0.1:$port\$" "$work/server" || fail 'the server does not listen'
}

stop_server() {
    kill "$server"
    wait "$server" 2>/dev/null || true
    server=
}

# ---- the registry, its users, and what npm has to know

[ -x "$program" ] || fail "there is no program $program: make build proves and builds it"
say "the program is $program, npm is $(npm --version), node is $(node --version)"
"$program" --db "$work/registry.db" init > "$work/out"
for user in ann bob eve; do
    registry --operator user-add $user
    registry --operator token-add $user npm_${user}_000000001
done
registry --operator org-create lab ann
registry --as ann org-set lab bob
port=$(node -e 'const s = require("net").createServer().listen(0, "127.0.0.1", () => { console.log(s.address().port); s.close() })')
for user in ann bob eve; do
    printf 'registry=http://127.0.0.1:%s/\n//127.0.0.1:%s/:_authToken=npm_%s_000000001\n' "$port" "$port" $user > "$work/$user.npmrc"
done

# ---- versions of some days: what npm sends is kept, and published at moments of then

node - "$port" "$work" > "$work/server" <<'END' &
const [port, folder] = process.argv.slice(2);
require("http").createServer((request, response) => {
    const pieces = [];
    request.on("data", (piece) => pieces.push(piece));
    request.on("end", () => {
        response.statusCode = request.method === "PUT" ? 201 : 404;
        if (request.method === "PUT") {
            const body = Buffer.concat(pieces);
            const version = Object.keys(JSON.parse(body).versions)[0];
            require("fs").writeFileSync(`${folder}/${version}.json`, body);
        }
        response.end("{}");
    });
}).listen(port, "127.0.0.1", () => console.log(`listening 127.0.0.1:${port}`));
END
server=$!
wait_for_server > /dev/null
for version in 0.9.0 0.9.1 0.9.2; do
    package @lab/kit $version '{}'
    as bob "$work/@lab/kit" publish
done
stop_server
publish_at() { registry --as bob --at "$(seconds_of "$1")" publish "$work/$2.json"; }
publish_at 2024-02-28T12:00:00Z 0.9.0
publish_at 2024-02-29T12:00:00Z 0.9.1
publish_at 2024-03-01T12:00:00Z 0.9.2
registry --as bob --at "$(seconds_of 2024-03-01T13:00:00Z)" withdraw @lab/kit 0.9.2
say 'bob published @lab/kit 0.9.0 on 28 February 2024, 0.9.1 a day later, and 0.9.2, which he withdrew'

"$program" --db "$work/registry.db" --existing serve --port "$port" > "$work/server" &
server=$!
wait_for_server
as ann "$work" view @lab/kit time --json
times='"0.9.0":"2024-02-28T12:00:00.000Z","0.9.1":"2024-02-29T12:00:00.000Z"'
[ "$(printed)" = "{$times,\"created\":\"2024-02-28T12:00:00.000Z\",\"modified\":\"2024-03-01T13:00:00.000Z\"}" ] || fail 'npm view says other times'
say "npm view @lab/kit time: $(printed)"

# ---- one package with a scope, and one without

package @lab/kit 1.0.0 '{}'
package tool 1.0.0 '{"@lab/kit":"^1.0.0"}'
began=$(date +%s)
as bob "$work/@lab/kit" publish
ended=$(date +%s)
say 'bob published @lab/kit 1.0.0'
as bob "$work/tool" publish
say 'bob published tool 1.0.0, which needs @lab/kit'

mkdir "$work/project"
echo '{"name":"project","version":"1.0.0"}' > "$work/project/package.json"
as ann "$work/project" install --prefer-online @lab/kit tool
[ "$(required "$work/project" @lab/kit)" = '@lab/kit 1.0.0' ] || fail '@lab/kit is another'
[ "$(required "$work/project" tool)" = 'tool 1.0.0' ] || fail 'tool is another'
say 'ann installed both from a clean cache'

# ---- what npm says of them

as bob "$work/@lab/kit" view @lab/kit version
[ "$(cat "$work/out")" = 1.0.0 ] || fail 'npm view says another version'
say "npm view @lab/kit version: $(cat "$work/out")"
as bob "$work/@lab/kit" dist-tag add @lab/kit@1.0.0 next
as bob "$work/@lab/kit" dist-tag ls @lab/kit
grep -qx 'next: 1.0.0' "$work/out" || fail 'the tag is not there'
say "npm dist-tag add, and then ls: $(tr '\n' ' ' < "$work/out")"
as bob "$work/@lab/kit" dist-tag rm @lab/kit next
as bob "$work/@lab/kit" dist-tag ls @lab/kit
[ "$(cat "$work/out")" = 'latest: 1.0.0' ] || fail 'the tag is still there'
say "npm dist-tag rm, and then ls: $(cat "$work/out")"
as bob "$work/@lab/kit" pack --pack-destination "$work"
mkdir "$work/packed"
as ann "$work/packed" pack @lab/kit@1.0.0
cmp "$work/lab-kit-1.0.0.tgz" "$work/packed/lab-kit-1.0.0.tgz" || fail 'the archive is another'
say 'npm pack @lab/kit@1.0.0 gives the bytes that were published'

# ---- times: that of the publication is the last, and tags moved nothing

as ann "$work" view @lab/kit time --json
published=$(value_at 1.0.0)
[ "$(printed)" = "{$times,\"1.0.0\":\"$published\",\"created\":\"2024-02-28T12:00:00.000Z\",\"modified\":\"$published\"}" ] || fail 'npm view says other times'
if [ "$(seconds_of "$published")" -lt "$began" ] || [ "$(seconds_of "$published")" -gt "$ended" ]; then fail '1.0.0 has another time'; fi
say "1.0.0 was published at $published, while npm did it"

# Installs what there was at a moment, into a new project.
install_before() {
    rm -rf "$work/dated"
    mkdir "$work/dated"
    echo '{"name":"dated","version":"1.0.0"}' > "$work/dated/package.json"
    as ann "$work/dated" install --prefer-online --before="$1" @lab/kit
}
installs() {
    install_before "$1"
    [ "$(required "$work/dated" @lab/kit)" = "@lab/kit $2" ] || fail "npm install --before=$1 picks another version than $2"
    say "npm install --before=$1 @lab/kit picks $2"
}
if install_before 2024-02-28T11:59:59.999Z; then fail 'npm installs what there was not yet'; fi
grep -q 'No versions available for @lab/kit' "$work/out" || fail 'npm does not say that no version is so old'
say 'npm install --before=2024-02-28T11:59:59.999Z @lab/kit finds no version'
installs 2024-03-01T12:30:00.000Z 0.9.1
installs 2024-02-29T12:00:00.000Z 0.9.1
installs 2024-02-29T11:59:59.999Z 0.9.0
if as ann "$work/dated" outdated --parseable; then fail 'npm outdated finds nothing'; fi
[ "$(cut -d: -f2- "$work/out")" = '@lab/kit@0.9.1:@lab/kit@0.9.0:@lab/kit@1.0.0:dated' ] || fail 'npm outdated says something else'
say "npm outdated, where ^0.9.0 is wanted and 0.9.0 is installed: 0.9.1 is wanted, and 1.0.0 the latest"

# ---- what is refused

package tool 2.0.0 '{}'
if as eve "$work/tool" publish; then fail 'eve published tool'; fi
grep -q 'Denied A6' "$work/out" || fail 'the refusal is not shown'
say "eve may not publish tool: $(grep 'Denied A6' "$work/out" | head -n 1)"
if as eve "$work/packed" view @lab/kit; then fail 'eve sees @lab/kit'; fi
grep -q 'NotFound' "$work/out" || fail 'the refusal is not shown'
say "eve does not see @lab/kit: $(grep 'NotFound' "$work/out" | head -n 1)"

# ---- fifty packages, each of which needs two others

mkdir "$work/fifty"
echo '{"name":"fifty","version":"1.0.0","private":true,"workspaces":["part-*"]}' > "$work/fifty/package.json"
names=
for number in $(seq 1 50); do
    if [ "$number" -le 43 ]; then
        needs="{\"part-$((number + 1))\":\"^1.0.0\",\"part-$((number + 7))\":\"^1.0.0\"}"
    else
        needs='{}'
    fi
    package "fifty/part-$number" 1.0.0 "$needs"
    sed -i 's|"fifty/|"|' "$work/fifty/part-$number/package.json"
    names="$names part-$number"
done
begin=$(milliseconds)
as bob "$work/fifty" publish --workspaces
say "bob published 50 packages in $(($(milliseconds) - begin)) ms"
mkdir "$work/large"
echo '{"name":"large","version":"1.0.0"}' > "$work/large/package.json"
rm -rf "$work/ann.cache"
begin=$(milliseconds)
# shellcheck disable=SC2086
as ann "$work/large" install --prefer-online $names
say "ann installed 50 packages in one command, from a clean cache, in $(($(milliseconds) - begin)) ms (wanted on a quiet machine: under 3000)"
[ "$(find "$work/large/node_modules" -maxdepth 1 -name 'part-*' | wc -l)" -eq 50 ] || fail 'some of the 50 are missing'
say 'all of it came out as it should'
