#!/bin/sh
# Serves an office's board over HTTP on this machine, posts a request to it, and asks for the
# product and the board. It ends by itself, when its four links were answered.
#
# usage: sh serve_demo.sh [PORT]    8479 where no port is given
#
# It builds the program once, unproved (`rt try`): some two minutes (docs/MEASURED.md).
# WARN_PROGRAMS=FOLDER names a folder with a built one.
#
# It can't reach an office that is at work: it runs only where nothing listens at the port, and its
# one desk has a name of its own, which no other office knows.
top=$(cd "$(dirname "$0")" && pwd)
port=${1-8479}
fail() {
  echo "serve_demo.sh: $*" >&2
  exit 2
}
case $port in "" | *[!0-9]* | ??????*) fail "$port is no port" ;; esac
command -v curl > /dev/null || fail "curl is not there: apt-get install curl"
if [ -n "${WARN_PROGRAMS-}" ]; then
  [ -x "$WARN_PROGRAMS/warn_main" ] || fail "$WARN_PROGRAMS has no program warn_main"
elif ! command -v rt > /dev/null; then
  fail "rt (the Rattle kit) is not there; WARN_PROGRAMS=FOLDER names a folder with built programs"
fi
at=http://127.0.0.1:$port
curl -s -o /dev/null --max-time 5 "$at/board"
# 7: nothing listens there.
[ $? = 7 ] || fail "something listens at port $port: name another one (sh serve_demo.sh 8480)"

work=$(mktemp -d)
asker='' server=''
end_all() {
  [ -z "$asker" ] || kill "$asker" 2> /dev/null
  [ -z "$server" ] || kill "$server" 2> /dev/null
  rm -rf "$work"
}
trap end_all EXIT
trap 'exit 130' INT TERM
desk=DEMO$$
mkdir "$work/steps"
sed "s/^desks = .*/desks = [\"$desk\"]/" "$top/samples/office.toml" > "$work/steps/1_init"
printf '%s\n' "$work/journal" init > "$work/steps/1_init.args"
: > "$work/steps/2_serve"
printf '%s\n' "$work/journal" serve --port "$port" --workers 2 --connections 4 > "$work/steps/2_serve.args"

until=$(date -u -d '2 days' +%y%m%dT0000Z)
request='{"desk":"'$desk'","seq":1,"do":"issue","hazard":"WS.W","zones":["MDZ003","MDZ004"],'
request=$request'"begin":"now","end":"'$until'","texts":{"what":"Heavy snow."}}'

# Four links, one after another: the first one that is taken shows that the server listens. It waits
# no longer than this script is there.
ask() {
  until curl -s -o /dev/null --max-time 35 "$at/board"; do
    kill -0 "$$" 2> /dev/null || exit
    sleep 1
  done
  {
    echo "== curl -d REQUEST $at/requests    where REQUEST is $request"
    curl -s --max-time 35 -d "$request" "$at/requests"
    echo
    echo "== curl $at/products/1"
    curl -s --max-time 35 "$at/products/1"
    echo "== curl $at/board"
    curl -s --max-time 35 "$at/board"
  } > "$work/answers"
}
status=0
if [ -n "${WARN_PROGRAMS-}" ]; then
  "$WARN_PROGRAMS/warn_main" "$work/journal" init < "$work/steps/1_init" > "$work/told" || exit
  "$WARN_PROGRAMS/warn_main" "$work/journal" serve --port "$port" --workers 2 --connections 4 > "$work/told" &
  server=$!
  ask &
  asker=$!
  wait "$server" || status=$?
  server=''
  cp "$work/told" "$work/log"
else
  echo "== building warn_main without its proofs: some two minutes, in which nothing is printed"
  ask &
  asker=$!
  cd "$top/crates/warn_main" || exit 1
  rt try --cases "$work/steps" > "$work/told" 2> "$work/log" || status=$?
fi
if [ "$status" != 0 ]; then
  cat "$work/log" >&2
  exit "$status"
fi
wait "$asker"
asker=''
cat "$work/answers"
echo "== what the server told at its end"
tail -1 "$work/told"
