#!/bin/sh
# Measures the gateway on segmented messages, beside wc -l on the same logs.
#
# usage: bench/run.sh [PROGRAM]
#
# PROGRAM is the proved gateway, crates/gateway/out/gateway if none is given. The logs are made in a new folder, which is
# removed at the end: some 48,600 lines of short messages, ten times as many messages, and some 486,000 lines of messages of up to 4,095
# bytes, from CAN FD frames to classic ones in blocks of 8. Each time is the least of three runs.
set -eu

bench=$(CDPATH= cd -- "$(dirname -- "$0")" && pwd)
program=$(realpath -e -- "${1:-$bench/../crates/gateway/out/gateway}")
seed=1

folder=$(mktemp -d)
trap 'rm -rf "$folder"' EXIT
cd "$folder"
echo "cores $(nproc)"

# Measures the program on so many messages of a kind, beside those before them.
before=
measure() {
    units=$1
    shift
    python3 "$bench/generate.py" "$seed" "$units" . "$@"
    program_took=$(python3 "$bench/measure.py" said.txt "$program" run gw.toml gw.report)
    wc_took=$(python3 "$bench/measure.py" lines.txt wc -l can0.log can1.log)

    # Every message is a whole session and a destination that was sent, and takes and frees a buffer.
    said=$(cat said.txt)
    if [ "$said" != "done $units $units $units $units $((2 * units))" ]; then
        echo "bench/run.sh: $units messages, but the program says: $said" >&2
        exit 1
    fi

    lines=$(awk '$2 == "total" { print $1 }' lines.txt)
    echo "$lines $program_took $wc_took" | awk '{
        printf "%d lines: %.3f seconds, %d lines per second, peak memory %.1f MiB\n", $1, $2, $1 / $2, $3 / 1024
        printf "    wc -l: %.4f seconds; the program takes %.0f times as long\n", $4, $2 / $4
    }'
    if [ -n "$before" ]; then
        echo "$before $lines $program_took" | awk '{
            printf "%.2f times the lines take %.2f times the seconds\n", $3 / $1, $4 / $2
        }'
    fi
    before="$lines ${program_took% *}"
}

measure 12000
measure 120000
before=
measure 7000 blocks
