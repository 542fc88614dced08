#!/bin/sh
# Runs the gateway on the examples and compares all that comes out with what is expected.
#
# usage: examples/run.sh [EXAMPLE]
#
# EXAMPLE is a folder beside this script; without it each is run. It has the files that the gateway reads, and in the file
# command the words after the program's name. Its folder expected has the files that come out, what is said in said.txt,
# and the status in status.txt. The gateway runs in a new folder, which is named at the end.
#
# GATEWAY=PROGRAM names a program that is there already; then nothing is proved or built.
set -eu

examples=$(CDPATH= cd -- "$(dirname -- "$0")" && pwd)
crate=$examples/../crates/gateway

if [ -n "${GATEWAY-}" ]; then
    program=$(realpath -- "$GATEWAY")
    usage=$("$program") || true
else
    # Proves and builds what has changed, and runs the program with no words.
    program=$crate/out/gateway
    usage=$(cd "$crate" && rt run) || true
fi

# With no words the program says how it is used.
case $usage in
usage:*) ;;
*)
    echo "examples/run.sh: there is no gateway at $program" >&2
    exit 1
    ;;
esac

cd "$examples"
if [ $# -eq 0 ]; then
    set -- */
fi

differs=0
for name in "$@"; do
    example=$examples/${name%/}
    folder=$(mktemp -d)
    mkdir "$folder/came" "$folder/expected"
    cp "$example"/*.* "$folder/came"
    cp "$example"/*.* "$example"/expected/* "$folder/expected"

    cd "$folder/came"
    status=0
    "$program" $(cat "$example/command") >said.txt || status=$?
    echo "$status" >status.txt

    echo "== ${name%/}: gateway $(cat "$example/command")"
    for file in *; do
        if [ ! -e "$example/$file" ]; then
            echo "-- $file"
            cat "$file"
        fi
    done
    echo "-- the files are in $folder/came"
    diff -r -u "$folder/expected" "$folder/came" || differs=1
done
exit $differs
