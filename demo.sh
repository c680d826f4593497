#!/bin/sh
# Keeps an office in a journal: makes it (`init`), answers the requests of two desks (`script`),
# writes the texts that were sent (`export`) and the hazards that stand now (`board`). Then the
# training office answers a sample of its own (`dry`). The requests have a flood warning, the same
# request again, one that is refused, a follow-up and a correction.
#
# usage: sh demo.sh [proved]
#
# It builds the program once, unproved (`rt try`), and runs all steps over it: some two minutes. With
# the word `proved` it proves the program and the libraries below it first (`rt run`): hours.
# docs/MEASURED.md has the figures. WARN_PROGRAMS=FOLDER names a folder with a built one.
#
# Its journal is in a scratch folder, and it opens no port.
top=$(cd "$(dirname "$0")" && pwd)
fail() {
  echo "demo.sh: $*" >&2
  exit 2
}
case "${1-}" in
  "") note="not proved in this run: sh demo.sh proved proves it first" ;;
  proved) note="proved" ;;
  *) fail "usage: sh demo.sh [proved]" ;;
esac
if [ -n "${WARN_PROGRAMS-}" ]; then
  [ -x "$WARN_PROGRAMS/warn_main" ] || fail "$WARN_PROGRAMS has no program warn_main"
  WARN_PROGRAMS=$(cd "$WARN_PROGRAMS" && pwd)
  note="of $WARN_PROGRAMS"
elif ! command -v rt > /dev/null; then
  fail "rt (the Rattle kit) is not there; WARN_PROGRAMS=FOLDER names a folder with built programs"
fi
work=$(mktemp -d)
trap 'rm -rf "$work"' EXIT
mkdir "$work/steps"

# A step: its name, its input and the words of the program.
step() {
  cp "$2" "$work/steps/$1"
  name=$1
  shift 2
  printf '%s\n' "$@" > "$work/steps/$name.args"
}

# An event bears the year in which it is opened: that of the clock takes the place of the sample's.
year=$(date -u +%Y)
sed "s/FL\.W\.0001\.2026/FL.W.0001.$year/" "$top/samples/requests.jsonl" > "$work/requests"

step 1_init "$top/samples/office.toml" "$work/journal" init
step 2_script "$work/requests" "$work/journal" script
step 3_export /dev/null "$work/journal" export
step 4_board /dev/null "$work/journal" board
step 5_training "$top/samples/training.jsonl" - dry KLWX 180103T1530Z

echo "== the requests of 2_script (samples/requests.jsonl; the office's settings are samples/office.toml)"
cat "$work/requests"
cat <<'TEXT'
== line 4 is line 3 again: it gets the same reply, and nothing is sent twice
== line 5 is refused: only floods may stand until further notice
== lines 6 to 8 are a follow-up, with one more county; line 9 corrects its text
TEXT
echo "== the lines of 5_training (samples/training.jsonl, at the office KLWX, at 15:30 UTC on 2018-01-03)"
cat "$top/samples/training.jsonl"
[ -n "${WARN_PROGRAMS-}" ] || cd "$top/crates/warn_main" || exit 1

# The steps one by one: `built` runs each, but for the first where it has to be proved and built.
one_by_one() {
  for file in "$work"/steps/*.args; do
    step=${file%.args}
    echo "== ${step##*/}"
    set --
    while read -r word; do set -- "$@" "$word"; done < "$file"
    if [ "${step##*/}" = 1_init ] && [ -z "${WARN_PROGRAMS-}" ]; then
      rt run -- "$@" < "$step" 2> "$work/log"
    else
      "${WARN_PROGRAMS-out}/warn_main" "$@" < "$step" 2> "$work/log"
    fi || return
  done
}
status=0
if [ -n "${WARN_PROGRAMS-}" ]; then
  echo "== what warn_main answers ($note)"
  one_by_one || status=$?
elif [ -z "${1-}" ]; then
  echo "== building warn_main without its proofs: some two minutes, in which nothing is printed"
  echo "== what warn_main answers ($note)"
  rt try --cases "$work/steps" 2> "$work/log" || status=$?
else
  echo "== proving and building warn_main: hours the first time, in which nothing is printed"
  echo "== what warn_main answers ($note)"
  one_by_one || status=$?
fi
[ "$status" = 0 ] || tail -20 "$work/log" >&2
exit "$status"
