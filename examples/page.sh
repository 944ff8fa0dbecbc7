#!/bin/sh
# The page of examples/front/page in a real browser: headless Chromium, through nginx, over a registry
# that is served with --npm. It opens, signs in, filters and follows links; tries attacks in READMEs and
# in all other texts; compares what each user sees with what the registry answers that user; and tries
# each refusal, the keyboard, contrast, 320 pixels, speed, and a first install by a new user.
#
#     examples/page.sh [PROGRAM [WORD..]]
#
# PROGRAM is out/registry where it is left out. With a WORD only the tries whose titles have it are run
# (tools/page). It takes two to four minutes on four processors, in a network of its own where the
# system allows one, and otherwise on loopback. Pictures at three widths come to out/page; all else that
# is made lies in a folder of its own, which is removed.
#
# Nothing is installed. It needs Chromium, nginx with its module headers-more, npm, node, openssl, curl,
# Python 3, and the libraries that show READMEs.
set -eu

top=$(cd "$(dirname "$0")/.." && pwd)
program=$(realpath "${1:-$top/out/registry}")
[ $# -eq 0 ] || shift
PATH=$PATH:/usr/sbin:/sbin
[ -x "$program" ] || { echo "page.sh: there is no program $program: make build proves and builds it" >&2; exit 2; }
install='Debian: apt-get install chromium nginx libnginx-mod-http-headers-more-filter npm openssl curl python3 libjs-marked node-dompurify'
for tool in chromium nginx npm node openssl curl python3; do
    command -v $tool > /dev/null || { echo "page.sh: $tool is needed, and isn't there ($install)" >&2; exit 2; }
done
modules=$(nginx -V 2>&1 | tr ' ' '\n' | sed -n 's|^--modules-path=||p')
for file in "$modules/ngx_http_headers_more_filter_module.so" /usr/share/javascript/marked/marked.min.js /usr/share/nodejs/dompurify/dist/purify.min.js; do
    [ -e "$file" ] || { echo "page.sh: $file is needed, and isn't there ($install)" >&2; exit 2; }
done
echo "$(chromium --version --no-sandbox 2> /dev/null), $(nginx -v 2>&1), npm $(npm --version)"

# A network of its own has loopback alone, which has to be begun.
for options in --net '--net --map-root-user'; do
    # shellcheck disable=SC2086
    if unshare $options ip link set lo up 2> /dev/null; then
        # shellcheck disable=SC2086
        exec unshare $options sh -c 'ip link set lo up && exec "$@"' sh "$top/tools/page" "$program" "$@"
    fi
done
exec "$top/tools/page" "$program" "$@"
