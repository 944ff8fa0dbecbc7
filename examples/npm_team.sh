#!/bin/sh
# Stock npm as a tool for a team, against a registry that is served with --npm: every subcommand of
# npm deprecate, unpublish, owner, access, org, team, whoami, ping and logout, and those that aren't
# served. What is accepted, refused or stale, what another client changes between two requests of npm's,
# and an answer that is lost and asked for again; straight to the registry, and through examples/front.
#
#     examples/npm_team.sh [PROGRAM [WORD..]]
#
# PROGRAM is out/registry where it is left out. With a WORD only the parts of the table
# examples/npm_team.txt whose titles have it are run: add a case there. tools/npm_team runs them, in a
# network of their own where the system allows one, and otherwise on loopback. It takes two to four
# minutes on four processors, and ends after ten. All that is made lies in a folder of its own, which
# is removed. It needs npm, node, nginx, openssl and Python 3.
set -eu

top=$(cd "$(dirname "$0")/.." && pwd)
program=$(realpath "${1:-$top/out/registry}")
[ $# -eq 0 ] || shift
PATH=$PATH:/usr/sbin:/sbin
[ -x "$program" ] || { echo "npm_team.sh: there is no program $program: make build proves and builds it" >&2; exit 2; }
for tool in npm node nginx openssl python3; do
    command -v $tool > /dev/null || { echo "npm_team.sh: $tool is needed, and isn't there (Debian: apt-get install npm nginx openssl python3)" >&2; exit 2; }
done
echo "npm $(npm --version), node $(node --version), $(nginx -v 2>&1)"

# A network of its own has loopback alone, which has to be begun.
for options in --net '--net --map-root-user'; do
    # shellcheck disable=SC2086
    if unshare $options ip link set lo up 2> /dev/null; then
        # shellcheck disable=SC2086
        exec unshare $options sh -c 'ip link set lo up && exec "$@"' sh "$top/tools/npm_team" "$program" "$@"
    fi
done
exec "$top/tools/npm_team" "$program" "$@"
