#!/bin/sh
# Runs the tests of the tools, with the types of their code checked first.
#
# usage: tools/test.sh
#
# It needs nothing but packages of Debian, which it names where one isn't there. No gateway is built; one test runs the
# gateway that GATEWAY=PROGRAM names or that is built already, and is skipped where there is none.
set -eu

tools=$(CDPATH= cd -- "$(dirname -- "$0")" && pwd)
packages="python3 python3-can python3-scapy python3-matplotlib python3-pytest mypy tshark chromium"

echo "apt install --no-install-recommends $packages"
for package in $packages; do
    if ! dpkg -s "$package" >/dev/null 2>&1; then
        echo "tools/test.sh: $package isn't installed: run the line above" >&2
        exit 1
    fi
done

cache=$(mktemp -d)
trap 'rm -rf "$cache"' EXIT
export PYTHONDONTWRITEBYTECODE=1

cd "$tools"
/usr/bin/mypy --strict --ignore-missing-imports --cache-dir="$cache" gateway_tools
/usr/bin/python3 -m pytest --quiet -p no:cacheprovider --disable-warnings tests
