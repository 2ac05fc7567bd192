#!/bin/sh
# Shows that a log of its lines is enough to restore a server. The lines of a session go into a Redis stream, and from
# there to cqd, one after the other. Halfway, both are killed. Then Redis is started again on the same folder, and a new
# cqd reads the stream from its first entry. It repeats every reply of the first server byte for byte, and goes on to the
# end.
#
# usage: replay.sh [LINES]
#
# LINES is a file of requests; by default the script uses 24 lines of its own. It needs redis-server and redis-cli. The
# program is ./cqd, or what the variable CQD names. Exits with 0 only if the replies agree.
set -eu
here=$(dirname "$(readlink -f "$0")")
cqd=${CQD:-$here/../cqd}
work=$(mktemp -d)
lines=${1:-$work/lines}
redis="redis-cli -s $work/redis.socket"
trap 'kill -9 $(cat "$work/redis.pid" "$work/cqd.pid" 2>"$work/none") 2>"$work/none" || true; rm -rf "$work"' EXIT

start_redis() {
    redis-server --port 0 --unixsocket "$work/redis.socket" --dir "$work" --appendonly yes --appendfsync always \
        --save '' --daemonize yes --pidfile "$work/redis.pid" --logfile "$work/redis.log" >"$work/none"
    until [ "$($redis ping 2>"$work/none")" = PONG ]; do sleep 0.1; done
}

# Appends the lines of standard input to the stream, one entry each.
append() {
    while IFS= read -r line; do
        printf '%s' "$line" | $redis -x XADD lines '*' line >"$work/none"
    done
}

# Prints the lines of the stream. Redis prints an entry as its number, the word `line` and the line.
logged() {
    $redis --raw XRANGE lines - + | awk 'NR % 3 == 0'
}

if [ ! -e "$lines" ]; then
    for i in 1 2 3 4 5 6 7 8; do
        printf '%s\n' '{"op":"put","project":"p","path":"src/'$i'.go","lang":"go","text":"package p\nfunc f() { a(1); b('$i'); c(3); d(4) }"}' \
            '{"op":"groups","project":"p","min":20}' '{"op":"measures","project":"p","min":20}'
    done >"$lines"
fi
half=$(($(wc -l <"$lines") / 2))

start_redis
head -n "$half" "$lines" | append

# The first server gets the lines that are logged so far, and its input stays open.
mkfifo "$work/in"
"$cqd" run <"$work/in" >"$work/first" &
echo $! >"$work/cqd.pid"
exec 3>"$work/in"
logged >&3
until [ "$(wc -l <"$work/first")" -ge "$half" ]; do sleep 0.1; done
kill -9 "$(cat "$work/cqd.pid")" "$(cat "$work/redis.pid")"
exec 3>&-
echo "killed after $half of $(wc -l <"$lines") lines"

start_redis
tail -n "+$((half + 1))" "$lines" | append
logged | "$cqd" run >"$work/second"

logged | cmp - "$lines"
head -n "$half" "$work/second" | cmp - "$work/first"
echo "$half replies of the first server are the first of the second's $(wc -l <"$work/second")"
