#!/bin/sh
# Draws the pictures of examples in docs/pictures anew, by tools/timeline and headless Chromium.
#
# usage: tools/pictures.sh
set -eu

top=$(CDPATH= cd -- "$(dirname -- "$0")/.." && pwd)
folder=$(mktemp -d)
trap 'rm -rf "$folder"' EXIT
sandbox=
[ "$(id -u)" -ne 0 ] || sandbox=--no-sandbox
mkdir -p "$top/docs/pictures"

# An example, and the words CONFIG and REPORT of its run.
draw() {
    mkdir "$folder/$1"
    cp "$top/examples/$1"/*.* "$top/examples/$1"/expected/* "$folder/$1"
    "$top/tools/timeline" "$folder/$1/$2" "$folder/$1/$3" -o "$folder/$1.html"
    chromium --headless $sandbox --disable-gpu --hide-scrollbars --window-size=1200,520 --user-data-dir="$folder/browser" \
        --screenshot="$top/docs/pictures/$1.png" "file://$folder/$1.html" 2>/dev/null
}

draw segmented gw.toml gw.report
draw other-names bridge.toml bridge.report
