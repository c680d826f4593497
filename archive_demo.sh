#!/bin/sh
# Runs the archive's report on a sample: three products of one office as they came over the wire.
#
# usage: sh archive_demo.sh [proved]
#
# It runs the program before its proofs are made (`rt try`), which builds it in a minute or two. With
# the word `proved` it proves the program and the libraries below it first (`rt run`): an hour or
# more. docs/MEASURED.md has the figures. WARN_PROGRAMS=FOLDER names a folder with a built one.
top=$(cd "$(dirname "$0")" && pwd)
fail() {
  echo "archive_demo.sh: $*" >&2
  exit 2
}
case "${1-}" in
  "") how=try; note="not proved in this run; sh archive_demo.sh proved proves it first" ;;
  proved) how=run; note="proving and building first" ;;
  *) fail "usage: sh archive_demo.sh [proved]" ;;
esac
log=$(mktemp)
trap 'rm -f "$log"' EXIT
program() {
  rt "$how" -- "$@"
}
if [ -n "${WARN_PROGRAMS-}" ]; then
  [ -x "$WARN_PROGRAMS/warn_archive" ] || fail "$WARN_PROGRAMS has no program warn_archive"
  WARN_PROGRAMS=$(cd "$WARN_PROGRAMS" && pwd)
  note="of $WARN_PROGRAMS"
  program() {
    "$WARN_PROGRAMS/warn_archive" "$@"
  }
elif ! command -v rt > /dev/null; then
  fail "rt (the Rattle kit) is not there; WARN_PROGRAMS=FOLDER names a folder with built programs"
fi
echo "== input: samples/archive.txt (an office's products of one day, without their carriage returns)"
tr -d '\r' < "$top/samples/archive.txt"
echo "== output of: warn_archive KLWX O 180103T1900Z ($note)"
[ -n "${WARN_PROGRAMS-}" ] || cd "$top/crates/warn_archive" || exit 1
program KLWX O 180103T1900Z < "$top/samples/archive.txt" 2> "$log"
status=$?
# Status 3 says that something is listed against the texts.
if [ "$status" = 0 ] || [ "$status" = 3 ]; then
  echo "== exit status: $status"
else
  tail -20 "$log" >&2
  exit "$status"
fi
