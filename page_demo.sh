#!/bin/sh
# Opens the desk's page on this machine: a scratch office, a proxy before it, and the address for a browser.
# It ends with Ctrl-C, and leaves nothing behind. It never touches an office that is there: it takes ports of its own,
# and is refused where one of them answers.
#
# usage: sh page_demo.sh [training]     training: every page bears TEST
# PAGE_PORT and OFFICE_PORT: other ports than 8478 and 8477. It needs nginx, curl and python3 (apt-get install -y
# nginx-light curl python3). The program is that of WARN_MAIN, or crates/warn_main/out/warn_main;
# where neither is there, it is built once, unproved (`rt try`): some two minutes.
# In `a && b || c` the end is meant for both, and `ended` is called by a trap.
# shellcheck disable=SC2015,SC2317
top=$(cd "$(dirname "$0")" && pwd)
page=${PAGE_PORT:-8478}
office=${OFFICE_PORT:-8477}
training=
case "${1-}" in
  "") ;;
  training) training=--training ;;
  *) echo "usage: sh page_demo.sh [training]" >&2; exit 2 ;;
esac
PATH=$PATH:/usr/sbin
main=${WARN_MAIN:-$top/crates/warn_main/out/warn_main}
[ -x "$main" ] || main=
[ -n "$main" ] || command -v rt > /dev/null || { echo "page_demo: no program and no rt: set WARN_MAIN to a built warn_main (docs/COMMANDS.md)" >&2; exit 1; }
for need in nginx:nginx-light curl:curl python3:python3 setsid:util-linux; do
  command -v "${need%:*}" > /dev/null || { echo "page_demo: no ${need%:*}: apt-get install -y ${need#*:}" >&2; exit 1; }
done
answers() {
  python3 -c 'import socket, sys; sys.exit(socket.socket().connect_ex(("127.0.0.1", int(sys.argv[1]))) != 0)' "$1"
}
for port in $page $office; do
  ! answers "$port" || { echo "page_demo: something answers at port $port already: end it, or set PAGE_PORT and OFFICE_PORT" >&2; exit 1; }
done

work=$(mktemp -d)
ended() {
  trap - EXIT INT TERM HUP
  [ -z "$served" ] || kill -- "-$served" 2> /dev/null
  [ -z "$proxy" ] || kill "$proxy" 2> /dev/null
  # Both are children of this script, so that no port is answered any more once it has ended.
  wait 2> /dev/null
  rm -rf "$work"
}
served=
proxy=
trap 'ended; exit 0' INT TERM HUP
trap ended EXIT

# Its office line says in each text what it is, and by it this script knows its own office from another one.
sed 's/^office_line = .*/office_line = "Demonstration office"/' "$top/samples/office.toml" > "$work/office.toml"
python3 "$top/page/make_office.py" "$work/office.toml" $training > "$work/office.json" || exit 1
sh "$top/page/plain_nginx.sh" "$page" "$office" "$work" "$work/office.json" > "$work/nginx.conf"
# Three steps of the program: a journal, three events to look at (one has begun, one is to come, one is a flood), and
# the office.
stamp() { date -u -d "$1" +%y%m%dT%H%MZ; }
step() { printf '%s\n' "$work/journal" "$@" > "$work/steps/$name.args"; }
mkdir "$work/steps"
name=1_init
step init
cp "$work/office.toml" "$work/steps/1_init"
name=2_script
step script
cat > "$work/steps/2_script" <<TEXT
{"desk":"A","seq":1,"do":"issue","hazard":"WI.Y","zones":["MDZ003","MDZ004","MDZ005"],"begin":"now","end":"$(stamp '50 minutes')","texts":{"what":"West winds 20 to 30 mph with gusts up to 50 mph expected."}}
{"desk":"A","seq":2,"do":"issue","hazard":"WS.A","zones":["MDZ003","MDZ004","MDZ005","MDZ006"],"begin":"$(stamp '9 hours')","end":"$(stamp '30 hours')","texts":{"what":"Heavy snow possible. Total snow accumulations of 5 inches or more possible.","impacts":"Travel could be very difficult."}}
{"desk":"B","seq":1,"do":"issue","hazard":"FL.W","zones":["MDC021"],"begin":"now","end":"ufn","flood":{"site":"FDKM2","severity":"2","cause":"ER","begin":"000000T0000Z","crest":"000000T0000Z","end":"000000T0000Z","status":"NO"},"texts":{"what":"Moderate flooding is occurring.","area":"Monocacy River at Frederick."}}
TEXT
name=3_serve
step serve --port "$office" --workers 4 --connections 1000000
: > "$work/steps/3_serve"
if [ -n "$main" ]; then
  "$main" "$work/journal" init < "$work/steps/1_init" > "$work/log" && "$main" "$work/journal" script < "$work/steps/2_script" > "$work/log" || { cat "$work/log" >&2; exit 1; }
  setsid "$main" "$work/journal" serve --port "$office" --workers 4 --connections 1000000 > "$work/log" 2>&1 &
else
  echo "building warn_main without its proofs: some two minutes, in which nothing is printed"
  cd "$top/crates/warn_main" || exit 1
  setsid rt try --seconds 86400 --cases "$work/steps" > "$work/log" 2>&1 &
fi
served=$!
nginx -e "$work/error.log" -p "$work" -c "$work/nginx.conf" -g 'daemon off;' &
proxy=$!
until curl -sf "http://127.0.0.1:$page/products/1" > "$work/text"; do
  kill -0 "$served" 2> /dev/null || { cat "$work/log" >&2; exit 1; }
  kill -0 "$proxy" 2> /dev/null || { cat "$work/error.log" >&2; exit 1; }
  sleep 0.2
done
grep -q '^Demonstration office' "$work/text" || { echo "page_demo: another office answers at port $office: end it first" >&2; exit 1; }
echo "open http://127.0.0.1:$page/?desk=A in a browser; desk B in another one: http://127.0.0.1:$page/?desk=B"
echo "the office is a scratch one, gone when this ends: Ctrl-C"
wait "$served"
echo "page_demo: the office ended" >&2
cat "$work/log" >&2
exit 1
