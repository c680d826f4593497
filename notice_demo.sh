#!/bin/sh
# Runs the county notices on a sample: a tornado watch of one afternoon.
#
# usage: sh notice_demo.sh [proved]
#
# It runs the program before its proofs are made (`rt try`), which builds it in a minute or two. With
# the word `proved` it proves the program and the libraries below it first (`rt run`): an hour or
# more. docs/MEASURED.md has the figures. WARN_PROGRAMS=FOLDER names a folder with a built one.
top=$(cd "$(dirname "$0")" && pwd)
fail() {
  echo "notice_demo.sh: $*" >&2
  exit 2
}
case "${1-}" in
  "") how=try; note="not proved in this run; sh notice_demo.sh proved proves it first" ;;
  proved) how=run; note="proving and building first" ;;
  *) fail "usage: sh notice_demo.sh [proved]" ;;
esac
log=$(mktemp)
trap 'rm -f "$log"' EXIT
program() {
  rt "$how" -- "$@"
}
if [ -n "${WARN_PROGRAMS-}" ]; then
  [ -x "$WARN_PROGRAMS/watch_notice" ] || fail "$WARN_PROGRAMS has no program watch_notice"
  WARN_PROGRAMS=$(cd "$WARN_PROGRAMS" && pwd)
  note="of $WARN_PROGRAMS"
  program() {
    "$WARN_PROGRAMS/watch_notice" "$@"
  }
elif ! command -v rt > /dev/null; then
  fail "rt (the Rattle kit) is not there; WARN_PROGRAMS=FOLDER names a folder with built programs"
fi
echo "== input: samples/notices.jsonl (what the office does with a watch of the national centre, a line each)"
cat "$top/samples/notices.jsonl"
echo "== output of: watch_notice KLWX Eastern ($note)"
[ -n "${WARN_PROGRAMS-}" ] || cd "$top/crates/watch_notice" || exit 1
program KLWX Eastern < "$top/samples/notices.jsonl" 2> "$log"
status=$?
if [ "$status" = 0 ]; then
  echo "== exit status: $status"
else
  tail -20 "$log" >&2
  exit "$status"
fi
