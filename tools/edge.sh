#!/bin/bash
# Tries the gateway on what real files do: links, pipes, devices, locks, a full disk, errors that come late, limits of the system, and
# ends at any moment.
#
# usage: tools/edge.sh [PROGRAM]
#
# PROGRAM is the gateway, crates/gateway/out/gateway if none is given. Everything is done in a new folder that is removed at the end.
# As root it also tries small file systems in memory and a user without rights; else these are left out. Errors that come late need
# a C compiler. The last line counts what was tried, what failed and what was left out; the status is 1 where something failed.
set -u

tools=$(CDPATH= cd -- "$(dirname -- "$0")" && pwd)
top=$(dirname -- "$tools")
program=$(realpath -e -- "${1:-$top/crates/gateway/out/gateway}") || exit 1
example=$top/examples/segmented

work=$(mktemp -d)
chmod 755 "$work"
mounted=
cleanup() {
    [ -n "$mounted" ] && umount "$mounted" 2>/dev/null
    rm -rf "$work"
}
trap cleanup EXIT

tried=0
failed=0
left_out=0

# A new folder with the example's files, entered.
fresh() {
    rm -rf "$work/folder"
    mkdir "$work/folder"
    chmod 777 "$work/folder"
    cd "$work/folder" || exit 1
    cp "$example/gw.toml" "$example/can0.log" "$example/can1.log" .
    chmod 666 ./*
}

# Runs the gateway on the words, for at most 20 seconds; what it says and its status are kept.
gateway() {
    said=$(timeout 20 "$program" "$@" 2>/dev/null)
    status=$?
}

# Counts a try, which is right where the command after its name succeeds.
holds() {
    tried=$((tried + 1))
    name=$1
    shift
    if ! "$@"; then
        failed=$((failed + 1))
        echo "FAILED: $name (said '${said:-}', status ${status:-})"
    fi
}

is_told() { [ "$status" = "$1" ] && [ "$said" = "$2" ]; }
is_done() { [ "$status" = 0 ] && [ "${said%% *}" = done ]; }
same() { cmp -s "$1" "$2"; }
is_beginning() { cmp -s -n "$(stat -c %s "$1")" "$1" "$2"; }

# The results of the example, to compare with.
fresh
gateway run gw.toml gw.report
holds "the example is done" is_done
mkdir "$work/whole"
cp can0.out can1.out gw.report "$work/whole/"
has_results() { same can0.out "$work/whole/can0.out" && same can1.out "$work/whole/can1.out" && same gw.report "$work/whole/gw.report"; }

# ---- two names of one file

# A link of this kind from a file that is written to one of the run's: the run says so, and the file is as it was.
link_is_refused() {
    fresh
    touch can0.out can1.out
    rm -f "$2"
    ln $1 "$3" "$2"
    cp "$3" "$work/before"
    gateway run gw.toml gw.report
    is_told 5 "$4" && same "$3" "$work/before"
}
for kind in "-s" ""; do
    for to in gw.toml can0.log can1.log; do
        holds "a link ${kind:-(hard)} from the first output to $to" link_is_refused "$kind" can0.out $to "write out 0"
        holds "a link ${kind:-(hard)} from the second output to $to" link_is_refused "$kind" can1.out $to "write out 1"
        holds "a link ${kind:-(hard)} from the report to $to" link_is_refused "$kind" gw.report $to "write report"
    done
done
outputs_are_one() {
    fresh
    touch one
    ln $1 one can0.out
    ln $1 one can1.out
    gateway run gw.toml gw.report
    is_told 5 "write out 1"
}
holds "both outputs are links to one file" outputs_are_one -s
holds "both outputs are one file" outputs_are_one ""
report_is_output() {
    fresh
    touch can1.out
    ln $1 can1.out gw.report
    gateway run gw.toml gw.report
    is_told 5 "write report" && same can1.out "$work/whole/can1.out"
}
holds "the report is a link to an output" report_is_output -s
holds "the report is an output" report_is_output ""

# The standard output goes to one of the run's files, which isn't cut and grows by the line that says so.
output_is_said_to() {
    fresh
    cp "$1" "$work/before" 2>/dev/null || : > "$work/before"
    timeout 20 "$program" run gw.toml gw.report >> "$1" 2>/dev/null
    status=$?
    said=$(tail -n 1 "$1")
    cp "$work/before" "$work/after"
    echo "$2" >> "$work/after"
    [ "$status" = "$3" ] && same "$1" "$work/after"
}
holds "the standard output is the first output" output_is_said_to can0.out "write out 0" 5
holds "the standard output is the second output" output_is_said_to can1.out "write out 1" 5
holds "the standard output is the report" output_is_said_to gw.report "write report" 5
holds "the standard output is CONFIG" output_is_said_to gw.toml "read config" 4
holds "the standard output is a log" output_is_said_to can0.log "read log 0" 4
other_output_is_said_to() {
    fresh
    timeout 20 "$program" run gw.toml gw.report > said.txt 2>/dev/null
    status=$?
    said=$(cat said.txt)
    is_done && has_results
}
holds "the standard output is another file" other_output_is_said_to

# ---- two runs at once

# Long logs, of which a run takes long enough to be met by another.
mkdir "$work/long"
python3 "$top/bench/generate.py" 4000 1 "$work/long" > /dev/null
(cd "$work/long" && timeout 60 "$program" run gw.toml gw.report > said.txt)
long() {
    rm -rf "$work/folder"
    mkdir "$work/folder"
    chmod 777 "$work/folder"
    cd "$work/folder" || exit 1
    cp "$work/long/gw.toml" "$work"/long/*.log .
    chmod 666 ./*
}
has_long_results() {
    for file in "$work"/long/*.out "$work/long/gw.report"; do
        same "$(basename "$file")" "$file" || return 1
    done
}
two_at_once() {
    "$1"
    timeout 20 "$program" run gw.toml gw.report > one.txt 2>/dev/null &
    one=$!
    timeout 20 "$program" run gw.toml gw.report > other.txt 2>/dev/null
    status=$?
    said=$(cat other.txt)
    other=$status
    wait $one
    one=$?
    # One of them is done; the other is too, or is refused.
    case "$one $other" in "0 0" | "0 5" | "5 0") "$2" ;; *) false ;; esac
}
for try in $(seq 60); do
    holds "two runs at once, $try" two_at_once fresh has_results
done
for try in $(seq 20); do
    holds "two long runs at once, $try" two_at_once long has_long_results
done
is_locked() {
    fresh
    touch "$1"
    flock "$1" sleep 20 &
    holder=$!
    sleep 0.2
    gateway run gw.toml gw.report
    kill $(pgrep -P $holder) $holder 2>/dev/null
    wait $holder 2>/dev/null
    is_told 5 "$2"
}
holds "another program holds the lock of an output" is_locked can1.out "write out 1"
holds "another program holds the lock of the report" is_locked gw.report "write report"

# A log that is replaced by name while it is read is read to its end as it was.
replaced() {
    long
    timeout 20 "$program" run gw.toml gw.report > said.txt &
    run=$!
    sleep "$1"
    head -n 3 "$work/long/can0.log" > new
    mv new can0.log
    wait $run
    status=$?
    said=$(cat said.txt)
    is_done && has_long_results
}
for moment in 0.005 0.010 0.015 0.020 0.030; do
    holds "a log is replaced after $moment seconds" replaced $moment
done

# ---- errors that come late

if cc --version > /dev/null 2>&1; then
    cat > "$work/late.c" <<'C'
#include <errno.h>
#include <stdlib.h>
#include <unistd.h>
/* Fails the call of this number, counted from 1; counts them in the file that COUNT names. */
static int calls = 0;
static int answer(void) {
    const char *nth = getenv("NTH");
    calls++;
    if (getenv("COUNT")) {
        int ignored = write(atoi(getenv("COUNT")), "x", 1);
        (void)ignored;
    }
    if (nth && atoi(nth) == calls) { errno = EDQUOT; return -1; }
    return 0;
}
int fdatasync(int fd) { (void)fd; return answer(); }
int fsync(int fd) { (void)fd; return answer(); }
C
    cc -shared -fPIC -o "$work/late.so" "$work/late.c"
    late() {
        fresh
        said=$(NTH=$1 LD_PRELOAD=$work/late.so timeout 20 "$program" run gw.toml gw.report 2>/dev/null)
        status=$?
        is_told 5 "$2"
    }
    holds "the first output's data can't be brought to its device" late 1 "write out 0"
    holds "the second output's data can't be brought to its device" late 2 "write out 1"
    holds "the report's data can't be brought to its device" late 3 "write report"
    synced_once() {
        fresh
        said=$(COUNT=9 LD_PRELOAD=$work/late.so timeout 20 "$program" run gw.toml gw.report 2>/dev/null 9> "$work/count")
        status=$?
        is_done && [ "$(stat -c %s "$work/count")" = 3 ]
    }
    holds "each written file's data is brought to its device once" synced_once
else
    left_out=$((left_out + 4))
fi

# ---- pipes, devices, folders

# CONFIG or a log is such a thing: it can't be read, and nothing waits.
unreadable() {
    fresh
    rm -f "$1"
    $2 "$1"
    gateway "${@:4}"
    is_told 4 "$3"
}
pipe() { mkfifo "$1"; }
socket() { python3 -c 'import socket, sys; socket.socket(socket.AF_UNIX).bind(sys.argv[1])' "$1"; }
folder() { mkdir "$1"; }
empty_device() { ln -s /dev/null "$1"; }
zeros() { ln -s /dev/zero "$1"; }
for kind in pipe socket folder empty_device zeros; do
    holds "CONFIG is a $kind, run" unreadable gw.toml $kind "read config" run gw.toml gw.report
    holds "CONFIG is a $kind, check" unreadable gw.toml $kind "read config" check gw.toml
    holds "the first log is a $kind" unreadable can0.log $kind "read log 0" run gw.toml gw.report
    holds "the second log is a $kind" unreadable can1.log $kind "read log 1" run gw.toml gw.report
done
unwritable() {
    fresh
    $2 "$1"
    gateway run gw.toml gw.report
    is_told 5 "$3"
}
full_device() { ln -s /dev/full "$1"; }
for kind in pipe socket folder full_device; do
    holds "the first output is a $kind" unwritable can0.out $kind "write out 0"
    holds "the second output is a $kind" unwritable can1.out $kind "write out 1"
    holds "the report is a $kind" unwritable gw.report $kind "write report"
done
to_devices() {
    fresh
    ln -s /dev/null can0.out
    ln -s /dev/null can1.out
    gateway run gw.toml gw.report
    is_done && same gw.report "$work/whole/gw.report"
}
holds "both outputs go to /dev/null" to_devices
dangling() {
    fresh
    ln -s elsewhere can1.out
    gateway run gw.toml gw.report
    is_done && has_results && same elsewhere "$work/whole/can1.out"
}
holds "an output is a link to a file that isn't there yet" dangling
linked_log() {
    fresh
    mv can0.log kept
    ln -s kept can0.log
    gateway run gw.toml gw.report
    is_done && has_results
}
holds "a log is a link to a file" linked_log
full_output() {
    fresh
    timeout 20 "$program" run gw.toml gw.report > /dev/full 2>/dev/null
    status=$?
    said=
    [ "$status" = 5 ] && has_results
}
holds "the standard output is /dev/full" full_output

# ---- limits of the system

# Whatever limit there is, a run that says done has its results, and every other one ends by itself or by the limit's signal.
limited() {
    long
    said=$({ ulimit "$1" "$2" && timeout 20 "$program" run gw.toml gw.report; } 2>/dev/null)
    status=$?
    if [ "$status" = 0 ]; then is_done && has_long_results; else [ "$status" != 124 ] && [ "${said%% *}" != done ]; fi
}
for memory in 4000 6000 8000 12000 16000 24000 48000 400000; do
    holds "at most $memory KiB of memory" limited -v $memory
done
for files in 3 4 5 6 7 8 9 10; do
    holds "at most $files open files" limited -n $files
done
for blocks in 0 1 8 64 128 256 100000; do
    holds "files of at most $blocks KiB" limited -f $blocks
done

# ---- ended at some moment, and run again

ended() {
    long
    "$program" run gw.toml gw.report > said.txt 2>/dev/null &
    run=$!
    sleep "$1"
    # Its locks are free once it has ended.
    { kill -KILL $run; wait $run; } 2>/dev/null
    for file in *.out gw.report; do
        [ ! -e "$file" ] || is_beginning "$file" "$work/long/$file" || return 1
    done
    gateway run gw.toml gw.report
    is_done && has_long_results
}
for moment in 0.002 0.005 0.010 0.015 0.020 0.030 0.050; do
    holds "killed after $moment seconds, and run again" ended $moment
done

# ---- text at its edges

marked() {
    fresh
    printf '\xef\xbb\xbf' | cat - gw.toml > marked
    mv marked gw.toml
    gateway check gw.toml
    is_told "$1" "$2"
}
nested() {
    fresh
    { printf 'x = '; printf '[%.0s' $(seq "$1"); printf ']%.0s' $(seq "$1"); echo; cat "$example/gw.toml"; } > gw.toml
    gateway check gw.toml
    is_told 2 "$2"
}
huge_float() {
    fresh
    { echo 'x = 1e400'; cat "$example/gw.toml"; } > gw.toml
    gateway check gw.toml
    [ "$status" = 2 ]
}
holds "a byte order mark before CONFIG" marked 0 accepted
holds "lists of CONFIG nested 80 deep" nested 80 "config ?: unknown key"
holds "lists of CONFIG nested 81 deep" nested 81 "config text: not toml"
holds "lists of CONFIG nested 30000 deep" nested 30000 "config text: not toml"
holds "a float of CONFIG beyond a double" huge_float
late_stamps() {
    fresh
    sed -i 's/([0-9]*\./(4294967295./' can0.log can1.log
    sed -i 's/\.[0-9]*)/.999999)/' can0.log can1.log
    gateway run gw.toml gw.report
    [ "$status" = 0 ] || return 1
    cp can1.out can0.log
    : > can1.log
    gateway run gw.toml gw.report
    [ "$status" = 3 ] && case $said in *"byte 1: bad stamp") true ;; *) false ;; esac
}
holds "outputs with stamps from 2^32 seconds on are no logs" late_stamps

# ---- as root: small file systems, and a user without rights

if [ "$(id -u)" = 0 ]; then
    # A file system of so many KiB beside the logs, for the outputs and the report: what is there is a beginning.
    full() {
        long
        mkdir "$work/folder/small"
        mounted=$work/folder/small
        mount -t tmpfs -o size="$1"k none "$mounted" || return 1
        cp gw.toml ./*.log "$mounted" 2>/dev/null
        cd "$mounted" || return 1
        gateway run gw.toml gw.report
        right=0
        if [ "$status" = 0 ]; then
            is_done && has_long_results || right=1
        else
            { [ "$status" = 5 ] || [ "$status" = 3 ] || [ "$status" = 4 ]; } || right=1
            case $said in "write "* | "log "* | "read "*) ;; *) right=1 ;; esac
            for file in *.out gw.report; do
                [ ! -e "$file" ] || is_beginning "$file" "$work/long/$file" || right=1
            done
        fi
        cd "$work" || return 1
        umount "$mounted"
        mounted=
        return $right
    }
    logs=$(($(cat "$work"/long/*.log "$work/long/gw.toml" | wc -c) / 1024 + 12))
    for more in 4 40 120 250 400 700 4000; do
        holds "a file system with $more KiB to spare" full $((logs + more))
    done

    as_nobody() {
        said=$(setpriv --reuid=65534 --regid=65534 --clear-groups timeout 20 "$program" "$@" 2>/dev/null)
        status=$?
    }
    cp "$program" "$work/program"
    chmod 755 "$work/program"
    program=$work/program
    nobody_runs() {
        fresh
        as_nobody run gw.toml gw.report
        is_done && has_results
    }
    nobody_reads() {
        fresh
        chmod 600 "$1"
        as_nobody run gw.toml gw.report
        is_told 4 "$2"
    }
    nobody_writes() {
        fresh
        touch "$1"
        chmod 644 "$1"
        as_nobody run gw.toml gw.report
        is_told 5 "$2"
    }
    nobody_makes() {
        fresh
        chmod 755 .
        as_nobody run gw.toml gw.report
        is_told 5 "write out 0"
    }
    holds "another user in a folder that it may use" nobody_runs
    holds "another user and an unreadable CONFIG" nobody_reads gw.toml "read config"
    holds "another user and an unreadable log" nobody_reads can1.log "read log 1"
    holds "another user and an output that it may not write" nobody_writes can1.out "write out 1"
    holds "another user and a report that it may not write" nobody_writes gw.report "write report"
    holds "another user in a folder that it may not change" nobody_makes
else
    left_out=$((left_out + 13))
fi

echo "$tried tried, $failed failed, $left_out left out"
[ "$failed" = 0 ]
