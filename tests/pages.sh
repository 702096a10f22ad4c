#!/usr/bin/env bash
# Opens the documents of examples/three_submitters in a browser, at the widths of a telephone, a
# tablet and a screen: nothing of a page goes over its edge, and the browser has nothing to say
# about it. Pictures of the overview, the residue and the statement of one payee, which is printed
# too, are left in out/pages.
#
# It takes Debian's chromium, and half a minute. Usage: tests/pages.sh PROGRAM
set -euo pipefail
program=$(realpath "$1")
cd "$(dirname "$0")/.."
browser=$(command -v chromium) || {
    echo 'pages.sh: it takes a browser: apt-get install chromium'
    exit 1
}
room=$(mktemp -d)
trap 'rm -rf "$room"' EXIT
several=examples/three_submitters
"$program" statements --tis "$several/territories.csv" --works "$several/works.csv" \
    --payees "$several/payees.csv" --usage "$several/usage.csv" --cwr MOON="$several/moon.cwr" \
    --cwr HARBOR="$several/harbor.cwr" --cwr NORTH="$several/north.cwr" \
    --names "$several/names.csv" --title 'Distribution 2026/2' --currency EUR --to "$room/documents"
python3 -m tools.pages "$room/documents" --to out/pages --browser "$browser" \
    --show payees/0008-00559018842.html
echo 'pages.sh: ok, with pictures in out/pages'
