#!/bin/sh
# `moo-server` from end to end, on the program as it was built: its words, and clients over real sockets. No server is left behind.
set -u
root=$(cd "$(dirname -- "$0")/.." && pwd) || exit 2
server=$root/moo-server
work=$(mktemp -d) || exit 2
pid=
failures=0

fail() {
    echo "tests/server.sh: $1" >&2
    failures=$((failures + 1))
}

# Ends the server that `start` started, if there is one.
stop() {
    [ -n "$pid" ] || return 0
    kill "$pid" 2>/dev/null
    wait "$pid" 2>/dev/null
    pid=
}
trap 'stop; rm -rf "$work"' EXIT
trap 'exit 2' HUP INT TERM

# wants NAME STATUS ERRORS, after a run that left $work/out, $work/errors and the status in $status
wants() {
    [ "$status" -eq "$2" ] || fail "$1: status $status, not $2"
    [ -s "$work/out" ] && fail "$1: printed $(head -c 200 "$work/out")"
    printf '%b' "$3" | cmp -s - "$work/errors" || fail "$1: another error: $(head -c 200 "$work/errors")"
}

# A run that is to end at once.
run() {
    timeout 20 "$server" "$@" >"$work/out" 2>"$work/errors" </dev/null
    status=$?
}

# Built where it is old, before a time is measured.
"$server" --help >/dev/null || { fail "the program does not run"; exit 1; }

# ---- words

for workers in 0 65 x 064 ''; do
    run fixture --workers "$workers" --port 0
    wants "workers '$workers'" 2 'moo-server: workers\n'
done
for port in 0 65536 99999999999 x 07777 -1 ''; do
    run fixture "--port=$port" --key x
    wants "port '$port'" 2 'moo-server: port\n'
done
for key in x '' "$(printf '%063d' 0)" "$(printf '%065d' 0)" "$(printf '%062d' 0)FF"; do
    run "$work/none" --key "$key"
    wants "key '$key'" 2 'moo-server: key\n'
done
run "$work/none" --key "$(printf '%062d' 0)ff"
wants "no such world" 2 "moo-server: cannot read $work/none\n"
run "$(printf 'caf\351')"
wants "a word that is not UTF-8" 2 'moo-server: cannot read caf\0351\n'
run
[ "$status" -eq 2 ] && grep -q '^Usage: moo-server ' "$work/errors" || fail "no world: status $status, told $(cat "$work/errors")"
"$server" --help >"$work/out" 2>"$work/errors"
status=$?
[ "$status" -eq 0 ] && grep -q '^Usage: moo-server ' "$work/out" || fail "help: status $status, told $(cat "$work/out")"

if ! command -v python3 >/dev/null 2>&1; then
    command -v nc >/dev/null 2>&1 || { echo "tests/server.sh: neither python3 nor nc here, so no client connects" >&2; [ "$failures" -eq 0 ]; exit; }
fi

# ---- a server on a port that is free

# start DESCRIPTORS WORD..: a server with at most so many descriptors and these words. Its port is in $port and its process in $pid, until `stop`.
start() {
    limit=$1 && shift
    for port in 7783 17783 27783 37783 47783 none; do
        [ "$port" != none ] || { fail "no port is free, or the server does not start: $(cat "$work/told")"; exit 1; }
        : >"$work/told"
        sh -c 'ulimit -n "$1" && shift && exec "$@"' sh "$limit" "$server" fixture --port "$port" "$@" >"$work/out" 2>"$work/told" </dev/null &
        pid=$!
        # (a whole line, which the server may write in pieces)
        time=0
        while [ "$(wc -l <"$work/told")" -eq 0 ] && kill -0 "$pid" 2>/dev/null && [ "$time" -lt 100 ]; do
            sleep 0.1
            time=$((time + 1))
        done
        echo "moo-server: listening on 127.0.0.1:$port" | cmp -s - "$work/told" && return
        stop
    done
}

start "$(ulimit -n)" --workers 2
run fixture --port "$port"
wants "a port that is taken" 2 'moo-server: port\n'

# Three lines, cut and ended in several ways, options and "are you there". The client has half-closed when its output comes.
printf 'loo' >"$work/lines"
printf 'ks\r\ncount\r\n\377\375\001\377\366LOOKS\n' >>"$work/lines"
# Nobody has logged in on the link, so its opening and each of its lines are answered by how to log in.
printf '[Yes]\r\nType connect #n\r\nType connect #n\r\nType connect #n\r\nType connect #n\r\n' | sort >"$work/wanted"
if command -v nc >/dev/null 2>&1; then
    for client in "nc -N" "nc"; do
        (cat "$work/lines"; [ "$client" = "nc -N" ] || sleep 1) | timeout 5 $client 127.0.0.1 "$port" 2>/dev/null | tr -d '\377\374\001' | sort >"$work/got"
        # Other netcats have no -N.
        [ -s "$work/got" ] || [ "$client" = nc ] || continue
        cmp -s "$work/wanted" "$work/got" || fail "$client: got $(cat "$work/got")"
    done
fi
if command -v python3 >/dev/null 2>&1; then
    timeout 240 python3 "$root/tests/clients.py" "$port" "$pid" || fail "the clients"
fi
kill -0 "$pid" 2>/dev/null || fail "the server has ended: $(cat "$work/told")"
[ "$(wc -l <"$work/told")" -eq 1 ] && [ ! -s "$work/out" ] || fail "told $(cat "$work/told"), printed $(head -c 200 "$work/out")"
stop

# A wizard's verb ends it.
if command -v python3 >/dev/null 2>&1; then
    start "$(ulimit -n)" --workers 2
    if timeout 60 python3 "$root/tests/clients.py" "$port" "$pid" shutdown; then
        wait "$pid"
        status=$?
        pid=
        [ "$status" -eq 0 ] && [ "$(wc -l <"$work/told")" -eq 1 ] && [ ! -s "$work/out" ] || fail "shutdown: status $status, told $(cat "$work/told")"
    else
        fail "the client that ends the server"
        stop
    fi
fi

# No descriptor is left, and then there are some again.
if command -v python3 >/dev/null 2>&1; then
    start 24
    timeout 60 python3 "$root/tests/clients.py" "$port" "$pid" descriptors || fail "the clients of a server without descriptors"
    stop
fi

[ "$failures" -eq 0 ]
