#!/usr/bin/env bash
# The page for people, in chromium, with nginx as examples/nginx-ipamd.conf has it: the unit tests of its pure parts; an office's first day; hostile texts; the
# register killed and started again, and answers that are lost; readers, and the pages of other sites; a narrow window, the keyboard alone, roles and names;
# AS numbers and VLANs by poold; a full register; and the pictures of docs, for which examples/demo.sh is run. Firefox shows the tree, a map and a claim, and
# its picture is taken; the other tests are not run there. By the built programs (./build, ./build poold; IPAMD=PROGRAM and POOLD=PROGRAM take other ones). It
# needs nginx with njs, curl, openssl, node, chromium, its driver, firefox, selenium and 20 minutes. The font of the pictures is that of fonts-inter.
# PAGE_PARTS=10 takes a tenth of a full register; PAGE_PATIENCE=10 lets everything take ten times as long, on a machine that does something else too.
#   conformance/page.sh [--port PORT] [NAME...]     NAME: office, hostile, stops, reading, windows, numbers, large, pictures; all by default
set -euo pipefail
top=$(cd "$(dirname "$0")/.." && pwd)
port=18500
[ "${1:-}" != --port ] || { port=$2; shift 2; }
program=${IPAMD:-$top/crates/ipamd/out/ipamd}
python=
for one in python3 /usr/bin/python3; do
    "$one" -c 'import selenium' 2> /dev/null && { python=$one; break; }
done
[ -n "$python" ] || { echo "page: selenium is missing: apt-get install python3-selenium" >&2; exit 1; }

if [ $# = 0 ]; then
    folder=$(mktemp -d)
    trap 'rm -rf "$folder"' EXIT
    mkdir "$folder/conformance"
    echo '{"type":"module"}' > "$folder/package.json"
    cp -r "$top/web" "$folder/web"
    cp -r "$top/conformance/page_tests" "$folder/conformance/"
    node --test "$folder"/conformance/page_tests/ > "$folder/told" 2>&1 || { cat "$folder/told" >&2; exit 1; }
    echo "unit tests of the page: $(sed -n 's/^. pass //p' "$folder/told") pass"
    unwanted='innerHTML|outerHTML|insertAdjacentHTML|document\.write|eval\(|new Function|localStorage|sessionStorage|document\.cookie|https?://'
    if grep -nE "$unwanted" "$top"/web/js/*.js "$top/web/index.html"; then
        echo "page: the lines above set HTML, store something or name another site" >&2
        exit 1
    fi
fi
IPAMD=$program "$python" -B "$top/conformance/page_all.py" "$port" "$@"
[ $# = 0 ] || exit 0
browsers="$(chromium --version 2> /dev/null | cut -d' ' -f1-2), $(firefox-esr --version 2> /dev/null | tail -n 1)"
echo "page: all as it should be; $browsers, nginx $(nginx -v 2>&1 | sed 's|.*/||')${PAGE_PATIENCE:+, PAGE_PATIENCE=$PAGE_PATIENCE}"
