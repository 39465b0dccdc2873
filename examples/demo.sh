#!/usr/bin/env bash
# demo.sh PCP: plays first.script over journals that stay. The first half is stopped by a kill, as a crash would do it.
pcp=$1
examples=$(dirname "$0")
here=$(mktemp -d) || exit 2
player=
trap '[ -z "$player" ] || kill -9 "$player" 2>/dev/null; rm -rf "$here"' EXIT

# The script is in two parts: up to this comment, and from it on.
parting='# A program on that host'
sed "/^$parting/,\$d" "$examples/first.script" >"$here/first"
sed -n "/^$parting/,\$p" "$examples/first.script" >"$here/second"
replies=$(grep -c '^packet' "$here/first")

# Comes to its end once the first part is answered, or after half a minute without that.
wait_for_replies() {
    local tries
    for tries in $(seq 300); do
        [ "$(grep -c . "$here/out")" = "$replies" ] && return
        sleep 0.1
    done
    echo "demo: the first part wasn't answered"
    exit 1
}

mkdir "$here/journals" && mkfifo "$here/lines" && : >"$here/out" || exit 2
echo "== play, from moment 1000: a host asks for a port, and renews it"
"$pcp" play "$examples/first.toml" "$here/lines" "$here/journals" 1000 >"$here/out" &
player=$!
# This end stays open too, so the player waits for more lines.
exec 3<>"$here/lines"
cat "$here/first" >&3
wait_for_replies
cat "$here/out"

echo "== stopped by kill -9 while it waits for the next line"
kill -9 "$player"
wait "$player" 2>/dev/null
player=
exec 3>&-

echo "== dump: the journals have the lease"
"$pcp" dump "$examples/first.toml" "$here/journals" || exit

echo "== play, from moment 1016: the same lease, and the epoch goes on"
"$pcp" play "$examples/first.toml" "$here/second" "$here/journals" 1016 || exit

echo "== dump"
"$pcp" dump "$examples/first.toml" "$here/journals"
