#!/bin/sh
# Counts the instructions that the gateway takes for a line of a log, by valgrind's callgrind, which counts the same each time.
#
# usage: bench/instructions.sh [PROGRAM]
#
# PROGRAM is the proved gateway, crates/gateway/out/gateway if none is given. First the logs hold frames of an id that no channel has,
# all in one tick, so that nothing is forwarded: a run over twice the lines takes so many instructions more, which are those of the
# lines. Then they are the two logs of bench/run.sh, with fewer messages, and a line's instructions are those of all that is forwarded.
set -eu

bench=$(CDPATH= cd -- "$(dirname -- "$0")" && pwd)
program=$(realpath -e -- "${1:-$bench/../crates/gateway/out/gateway}")
few=5000
many=10000

folder=$(mktemp -d)
trap 'rm -rf "$folder"' EXIT
cd "$folder"
python3 "$bench/generate.py" 1 1 .
: > can1.log

# The instructions of a run over the logs.
run() {
    valgrind --tool=callgrind --callgrind-out-file=counts.txt "$program" run gw.toml gw.report > said.txt 2> valgrind.txt
    awk '$1 == "summary:" || $1 == "totals:" { print $2; exit }' counts.txt
}

# The instructions of a run over so many such lines.
count() {
    awk -v lines="$1" -v line="$2" 'BEGIN { for (i = 0; i < lines; i++) print line }' > can0.log
    run
}

# What a line of this kind takes.
measure() {
    first=$(count "$few" "$2")
    second=$(count "$many" "$2")
    echo "$1: $(((second - first) / (many - few))) instructions a line"
}

measure "classic, 8 bytes" "(1436509053.850870) can0 7EF#0011223344556677"
measure "classic, 3 bytes" "(1436509053.850870) can0 7EF#021003"
measure "CAN FD, 64 bytes" "(1436509053.850870) can0 7EF##1000102030405060708090A0B0C0D0E0F101112131415161718191A1B1C1D1E1F202122232425262728292A2B2C2D2E2F303132333435363738393A3B3C3D3E3F"
measure "another interface" "(1436509053.850870) can7 7EF#0011223344556677"

# What a line of so many messages and as many again takes, with all that is forwarded.
forward() {
    name=$1
    units=$2
    shift 2
    python3 "$bench/generate.py" 1 "$units" . "$@"
    first=$(run)
    lines=$(cat can0.log can1.log | wc -l)
    python3 "$bench/generate.py" 1 $((units * 2)) . "$@"
    second=$(run)
    more=$(($(cat can0.log can1.log | wc -l) - lines))
    echo "$name: $(((second - first) / more)) instructions a line"
}

forward "messages of 8 to 27 bytes" 1000
forward "messages of 8 to 4,095 bytes in blocks" 60 blocks
